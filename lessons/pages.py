"""The lessons as pages of the web site, which `lessons/make --web` writes. web/book has their templates, looks and scripts."""
import html
import re
import struct
from pathlib import Path

import drawings

BOOK = Path(__file__).resolve().parent.parent / "web" / "book"

# A block that is a picture alone.
PICTURE = re.compile(r"!\[([^]]*)\]\(([\w-]+)\.(png|svg)\)")

# A block that begins with a link to a file beside the lessons.
LINK = re.compile(r"\[([^]]+)\]\(([\w-]+\.html)\)(.*)", re.S)

# A line of a hint's element, whose text lies between such lines.
FOLD = re.compile(r"</?details>|<details><summary>([^<]*)</summary>")

# Headings that the table of contents leaves out, since every lesson has them.
EVERYWHERE = ("Aims", "Tools", "Exercises", "Summary")

# The fewest lines of tools that are folded, as the classic Notebook folds them.
LONG_TOOLS = 12

# What a screen reader calls a cell, by its kind.
NAMES = {
    "tools": "Tools", "exercise": "Exercise {}", "judge": "The judge of exercise {}", "somebody": "Whether somebody is there",
}


def inline(text):
    """The text of a block as HTML: code, bold, italics."""
    parts = text.split("`")
    for at, part in enumerate(parts):
        parts[at] = f"<code>{html.escape(part).replace('*', '&#42;')}</code>" if at % 2 else html.escape(part, quote=False)
    bold = re.sub(r"\*\*(.+?)\*\*", r"<strong>\1</strong>", "".join(parts))
    return re.sub(r"\*(.+?)\*", r"<em>\1</em>", bold)


def anchor(words):
    """The name of a heading in addresses."""
    return re.sub(r"[^a-z0-9]+", "-", words.lower()).strip("-")


def heading(signs, words):
    return f'<h{len(signs)} id="{anchor(words)}">{inline(words)}</h{len(signs)}>'


def table(text):
    """A table, of lines with a bar before, between and behind the cells; the second one says that the first is the head."""
    first, _, *others = [[inline(cell.strip()) for cell in line.strip("|").split("|")] for line in text.split("\n")]
    head = "".join(f'<th scope="col">{cell}</th>' for cell in first)
    rows = "\n".join(f"<tr>{''.join(f'<td>{cell}</td>' for cell in row)}</tr>" for row in others)
    return f"<table>\n<thead><tr>{head}</tr></thead>\n<tbody>\n{rows}\n</tbody>\n</table>"


def is_fold(text):
    """Whether a block is nothing but the beginning and end of hints."""
    return all(FOLD.fullmatch(line) for line in text.split("\n"))


def items(text):
    """A list, of lines that begin with `- ` or with numbers."""
    lines = text.split("\n")
    kind, sign = ("ul", "- ") if text.startswith("- ") else ("ol", r"\d+\. ")
    return "\n".join([f"<{kind}>", *(f"<li>{inline(re.sub(f'^{sign}', '', line))}</li>" for line in lines), f"</{kind}>"])


def hints_as_html(text):
    """A text of Markdown with its hints as HTML without blank lines: of what is Markdown within an element Jupyter's pages make
    HTML, and nbconvert doesn't."""
    def hint(found):
        blocks = [items(each) if is_items(each) else f"<p>{inline(each)}</p>" for each in re.split(r"\n{2,}", found[2].strip("\n"))]
        return "\n".join([found[1], *blocks, "</details>"])

    return re.sub(r"(?ms)^(<details><summary>[^\n]*</summary>)\n(.*?)^</details>$", hint, text)


def is_items(text):
    return re.match(r"- |\d+\. ", text) is not None


def content_of(name, kind, folder):
    """The content of a picture: a file of this folder, or a drawing."""
    return drawings.svg(name).encode() if kind == "svg" else (folder / f"{name}.png").read_bytes()


def size_of(content):
    """A picture's width and height, in points."""
    found = re.match(rb'<svg [^>]*width="(\d+)" height="(\d+)"', content)
    return tuple(map(int, found.groups())) if found else struct.unpack(">II", content[16:24])


def picture(told, file, content):
    """A picture, with its size, so that nothing moves when it is there."""
    width, height = size_of(content)
    return f'<p><img src="{file}" alt="{html.escape(told)}" width="{width}" height="{height}" loading="lazy"></p>'


class Pages:
    """The pages of a course, which is a list of lessons: a name, and pairs of a cell and its id. `source` is the folder with the
    lessons' pictures."""

    def __init__(self, course, source, glossary):
        self.course, self.source, self.glossary = dict(course), source, glossary
        self.titles = {name: re.match(r"# (.*)", cells[0][0].text)[1] for name, cells in course}
        # the content of files besides the pages
        self.pictures = {}

    def block(self, text):
        """A block of Markdown as HTML."""
        if found := re.fullmatch(r"(#{1,3}) (.*)", text):
            return heading(*found.groups())
        if text.startswith("|"):
            return table(text)
        if is_items(text):
            return items(text)
        if is_fold(text):
            return text
        if found := PICTURE.fullmatch(text):
            told, name, kind = found.groups()
            self.pictures[f"{name}.{kind}"] = content_of(name, kind, self.source)
            return picture(told, f"{name}.{kind}", self.pictures[f"{name}.{kind}"])
        if found := LINK.fullmatch(text):
            told, name, rest = found.groups()
            self.pictures[name] = (self.source.parent / name).read_bytes()
            return f'<p><a href="{name}" target="lab80-film">{inline(told)}</a>{inline(rest)}</p>'
        return self.glossary.marked(f"<p>{inline(text)}</p>")

    def cell(self, cell, its_id):
        """A cell as HTML."""
        if not cell.is_code():
            return "\n".join(self.block(text) for text in re.split(r"\n{2,}", cell.text))
        kind, number = cell.kind(), its_id.rpartition("-")[2]
        listing, count = f"<pre><code>{html.escape(cell.text, quote=False)}</code></pre>", cell.text.count("\n") + 1
        if kind == "tools" and count >= LONG_TOOLS:
            told = f"All {count} lines: they are to be run, and needn't be read"
            listing = f"<details><summary>{told}</summary>{listing}</details>"
        name = NAMES.get(kind, "A cell").format(number)
        return f'<div class="cell" data-cell="{its_id}" data-kind="{kind}" role="group" aria-label="{name}">{listing}</div>'

    def link(self, name, relation, word):
        """A link to a lesson, or nothing if there is none."""
        title = self.titles.get(name)
        return f'<a rel="{relation}" href="{name}.html" title="{html.escape(title)}">{word}</a>' if title else ""

    def lesson(self, name):
        """A lesson's page."""
        names = ["", *self.course, ""]
        at = names.index(name)
        text = "\n".join(self.cell(cell, its_id) for cell, its_id in self.course[name] if not cell.teachers)
        before, after = self.link(names[at - 1], "prev", "Previous"), self.link(names[at + 1], "next", "Next")
        return filled("lesson.html", name=name, title=html.escape(self.titles[name]), before=before, after=after, text=text)

    def entry(self, name):
        """A lesson in the table of contents: its title, what it is about, and room for what is done of it."""
        text = "\n".join(cell.text for cell, _ in self.course[name] if not cell.is_code() and not cell.teachers)
        parts = [words for words in re.findall(r"(?m)^## (.*)", text) if words not in EVERYWHERE]
        links = " · ".join(f'<a href="{name}.html#{anchor(words)}">{inline(words)}</a>' for words in parts)
        count = sum(cell.kind() == "exercise" for cell, _ in self.course[name])
        title = f'<a class="title" href="{name}.html">{inline(self.titles[name])}</a>'
        return f'<li>{title} <span class="done" data-lesson="{name}" data-exercises="{count}"></span>\n<p>{links}</p></li>'

    def words(self):
        """The glossary's page."""
        words = self.glossary.html(inline, lambda word: f"{word.lesson}.html#term-{word.anchor()}")
        return filled("glossary.html", title=self.glossary.title, about=inline(self.glossary.about), words=words)

    def files(self):
        """The content of each file, by its name."""
        made = {path.name: path.read_bytes() for path in BOOK.iterdir() if path.suffix in (".js", ".css")}
        made.update({f"{name}.html": self.lesson(name).encode() for name in self.course})
        entries = "\n".join(self.entry(name) for name in self.course)
        made["glossary.html"] = self.words().encode()
        made["index.html"] = filled("contents.html", lessons=entries).encode()
        return {**made, **self.pictures}


def filled(template, **values):
    """A template with these values in the place of their names in braces."""
    text = (BOOK / template).read_text(encoding="utf-8")
    return re.sub(r"\{(\w+)\}", lambda found: values[found[1]], text)
