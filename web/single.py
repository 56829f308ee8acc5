"""Makes the site's page as one file, which has its styles, its modules, the boards' worker and the WebAssembly module in it, for
web/make. It needs no host of files: a browser opens it from a disk or a stick.

Such a page can't load modules by their paths, so web/single.js gives each an address, after those of what it imports.
"""
import base64
import gzip
import hashlib
import json
import posixpath
import re
from pathlib import Path

HERE = Path(__file__).resolve().parent
SPEC, LESSONS = HERE.parent / "kernelspec", HERE.parent / "lessons"

# What the worker begins with, and what the page does. What they import decides which modules there are, but for web/place.js,
# which web/single.js writes.
WORKER, PAGE = ["web/worker.js"], ["panel/main.js", "web/extras.js"]
PLACE = "web/place.js"
# The files besides modules: how each is named in the site, its type, and where it is.
TO_READ = {name: ("text/html;charset=utf-8", LESSONS / name) for name in ("card.html", "glossary.html")}
FILES = {"examples.json": ("application/json", SPEC / "examples.json"), **TO_READ}
LANGUAGES = sorted((SPEC / "languages").glob("*.json"))
STYLES = (SPEC / "panel/panel.css", HERE / "site.css")
ICON = "logo-32x32.png"

IMPORT = re.compile(r'\b(from |import |import\()"(\.\.?/[^"]+\.js)"')
MARK = '"lab80:'
STYLE = re.compile(r"<style>(.*?)</style>", re.S)


class Refusal(Exception):
    """Why the page can't be made."""


def source(path):
    """The file of a module with this path in the site."""
    return HERE / path.removeprefix("web/") if path.startswith("web/") else SPEC / path


def imports(path):
    """The text of a module with its imports as paths in the site, and these paths."""
    text, found = source(path).read_text(encoding="utf-8"), []
    if MARK in text:
        raise Refusal(f"{path} has {MARK}, which marks imports")

    def marked(match):
        found.append(posixpath.normpath(posixpath.join(posixpath.dirname(path), match[2])))
        return f'{match[1]}{MARK}{found[-1]}"'

    return IMPORT.sub(marked, text), found


def add(path, modules, order, above=()):
    """Adds a module and all that it imports to the texts of modules, and to an order in which each follows what it imports."""
    if path in above:
        raise Refusal(f"{path} imports itself, by way of others")
    if path in order or path == PLACE:
        return
    modules[path], found = imports(path)
    for each in found:
        add(each, modules, order, (*above, path))
    order.append(path)


def packed(path):
    """A file by gzip, and as letters."""
    return base64.b64encode(gzip.compress(path.read_bytes(), mtime=0)).decode()


def contents(module):
    """All files but the page itself, as web/single.js reads them."""
    modules, paths = {}, {"worker": [], "page": []}
    for order, beginnings in zip(paths.values(), (WORKER, PAGE)):
        for path in beginnings:
            add(path, modules, order)
    return {"files": {name: {"type": kind, "text": path.read_text(encoding="utf-8")} for name, (kind, path) in FILES.items()},
            "packed": {f"languages/{path.name}": packed(path) for path in LANGUAGES},
            "program": {"path": f"web/{module.name}", "letters": packed(module)}, "modules": modules, "paths": paths}


def hash_of(text):
    """How a content policy names a script or a style that stands in the page."""
    return f"'sha256-{base64.b64encode(hashlib.sha256(text.encode()).digest()).decode()}'"


def policy(script, *styles):
    """Nothing is asked of any host. What is loaded are the page's own files, and it runs no other text as a program."""
    return (f"default-src 'none'; script-src {hash_of(script)} blob: 'wasm-unsafe-eval'; style-src {' '.join(map(hash_of, styles))}; "
            "img-src data:; connect-src blob:; worker-src blob:; base-uri 'none'; form-action 'none'")


def head(script, style):
    styles = [text for _, path in TO_READ.values() for text in STYLE.findall(path.read_text(encoding="utf-8"))]
    return f"""<meta http-equiv="Content-Security-Policy" content="{policy(script, style, *styles)}">
<meta name="referrer" content="no-referrer">
<meta name="description" content="An Intel 8080 computer to program and debug, in one file.">
<style>{style}</style>
<script type="module">{script}</script>
"""


def page(make_page, module):
    """The page. `make_page` makes it of what stands in its head."""
    script = (HERE / "single.js").read_text(encoding="utf-8")
    style = "".join(path.read_text(encoding="utf-8") for path in STYLES)
    if "</" in script or "<!" in script or "</" in style:
        raise Refusal("the script or the styles have what would end them in the page")
    data = json.dumps(contents(module), ensure_ascii=False).replace("<", "\\u003c")
    icon = f"data:image/png;base64,{base64.b64encode((SPEC / ICON).read_bytes()).decode()}"
    text = make_page(head(script, style)).replace(f'href="{ICON}"', f'href="{icon}"')
    before, end, behind = text.rpartition("</body>")
    return f'{before}<script type="application/json" id="files">{data}</script>\n{end}{behind}'
