"""The lessons as one page that prints well: without tools and judges, and with all hints, answers and the glossary at the end."""
import base64
import html
import re

from pages import LINK, PICTURE, content_of, heading, inline, is_fold, is_items, items, table

TITLE = "The Intel 8080 in lessons and exercises"

# How blocks begin that are said in each lesson, though all have them.
EVERYWHERE = ("#", "<", "After this lesson you can")

# A comment, a quoted text, a label, a number, or a word.
SIGNS = re.compile(r"(?P<comment>;.*)|(?P<text>'(?:[^']|'')*')|(?P<label>^[\w@?]+:)|(?P<number>\b\d\w*)|(?P<name>[\w@?$]+)"
                   r"|(?P<other>.)")

STYLE = """\
@page { size: A4; margin: 18mm 18mm 20mm; @bottom-center { content: counter(page); font: 9pt sans-serif } }
body { font: 10.5pt/1.45 "DejaVu Serif", Georgia, serif; max-width: 174mm; margin: 0 auto; padding: 0 4mm; color: #111;
       background: #fff }
h1, h2, h3, .answer { font-family: "DejaVu Sans", Helvetica, sans-serif; line-height: 1.2; break-after: avoid }
h1 { font-size: 18pt; break-before: page; margin-top: 0 }
h2 { font-size: 13pt; margin: 1.4em 0 0.4em }
h3, .answer { font-size: 11pt; margin: 1.2em 0 0.3em }
p { margin: 0.5em 0; orphans: 3; widows: 3 }
code, pre { font-family: "DejaVu Sans Mono", Menlo, Consolas, monospace; font-size: 8.8pt; font-variant-ligatures: none }
pre { margin: 0.6em 0; padding: 0.5em 0.8em; border: 0.3mm solid #ccc; border-left-width: 1.2mm; line-height: 1.3;
      white-space: pre-wrap; break-inside: avoid; print-color-adjust: exact; -webkit-print-color-adjust: exact }
pre.exercise { border-left-color: #a15c00 }
pre.output { border: 0; background: #f2f2f2; margin-left: 5mm }
pre.output::before { content: "prints"; display: block; font: italic 8pt sans-serif; color: #555 }
pre.error::before { content: "ends with" }
table { border-collapse: collapse; margin: 0.6em 0; break-inside: avoid; font-size: 9.5pt }
th, td { border: 0.2mm solid #bbb; padding: 0.15em 0.6em; text-align: left; vertical-align: top }
img { max-width: 100%; height: auto; break-inside: avoid }
nav ol { list-style: none; padding: 0 }
a { color: inherit }
dt { font-weight: bold; break-after: avoid } dd { margin: 0 0 0.4em 5mm }
.tools { font-style: italic; color: #444 }
.comment { color: #5a6b5a; font-style: italic } .text { color: #8a2a0d } .number { color: #0a5f8a }
.label { color: #6a1b9a; font-weight: bold }
.word { color: #0b3d91; font-weight: bold }
"""


def coloured(code):
    """A cell's text as HTML, with the kinds of its parts."""
    return "\n".join(map(coloured_line, code.split("\n")))


def coloured_line(line):
    """A line. The first word that is no label, or the one behind a name, is an instruction or a directive."""
    made, is_begun = "", False
    for found in SIGNS.finditer(line):
        kind, sign = found.lastgroup, found[0]
        if kind == "name":
            is_first = not is_begun and (line[:1].isspace() or ":" in line[:found.start()])
            kind, is_begun = "word" if is_first or sign in ("EQU", "SET") else None, True
        made += f'<span class="{kind}">{html.escape(sign)}</span>' if kind not in (None, "other") else html.escape(sign)
    return made


def code_block(text, kind="cell"):
    return f'<pre class="{kind}"><code>{coloured(text)}</code></pre>'


def printed_block(text, kind):
    return f'<pre class="{kind}">{html.escape(text)}</pre>' if text else ""


def split(text):
    """The blocks of a text."""
    return re.split(r"\n{2,}", text.strip("\n"))


def in_all(course):
    """The paragraphs that all lessons have, if there are several."""
    texts = [{each for cell in cells if not cell.is_code() for each in split(cell.text)} for _, cells in course]
    return {each for each in set.intersection(*texts) if not each.startswith(EVERYWHERE)} if len(texts) > 1 else set()


class Book:
    """The parts of a book as they are written: the contents, the lessons, the hints and the answers."""

    def __init__(self, folder, shared):
        self.folder, self.shared, self.said, self.name, self.part = folder, shared, set(), "", ""
        self.contents, self.lessons, self.hints, self.answers, self.is_folded = [], [], [], [], False

    def add(self, name, cells):
        """Adds a lesson."""
        title, self.name = re.match(r"# (.*)", cells[0].text)[1], name
        self.contents.append(f'<li><a href="#{name}">{inline(title)}</a></li>')
        self.hints.append(f"<h2>{inline(title)}</h2>")
        self.answers.append(f'<h2 id="{name}-answers">{inline(title)}</h2>')
        self.lessons.append(f'<section id="{name}">')
        for cell in cells:
            self.add_cell(name, cell)
        self.lessons.append("</section>")

    def add_cell(self, name, cell):
        number = cell.tags[0].partition("-")[2] if cell.tags else ""
        if cell.teachers:
            self.remark(re.sub(r"^\*For the teacher:\* ", "", cell.text))
        elif not cell.is_code():
            self.lessons += self.blocks(cell.text)
        elif cell.kind() == "tools":
            self.lessons.append('<p class="tools">Here the notebook has a cell of tools.</p>')
        elif cell.kind() == "exercise":
            self.lessons.append(code_block(cell.text, "cell exercise"))
            links = [f'<a href="#{name}-{number}-hint">hints</a>'] if f'id="{name}-{number}-hint"' in "".join(self.hints) else []
            links.append(f'<a href="#{name}-{number}">the answer</a>')
            self.lessons.append(f'<p class="tools">At the end: {", ".join(links)}.</p>')
            self.answers += [f'<p class="answer" id="{name}-{number}">Exercise {number}</p>', code_block(cell.answer or "")]
        elif cell.kind() != "judge":
            self.lessons += [code_block(cell.text), printed_block(cell.printed, "output")]
            self.lessons += [printed_block(cell.error, "output error")]

    def remark(self, text):
        """Adds the answer to a question in the text, under the heading of its part."""
        self.answers += [f'<p class="answer">{inline(self.part)}</p>', *self.blocks(text[0].upper() + text[1:])]

    def blocks(self, text):
        """A text's blocks as HTML. What all lessons say is said once."""
        found = [each for each in split(text) if each not in self.shared or each not in self.said]
        self.said.update(found)
        return [each for block in found for each in self.folded(block)]

    def folded(self, text):
        """A block as HTML, unless it belongs to a hint, which stands at the end."""
        if is_fold(text):
            kinds = re.findall("<summary>(.*?)</summary>", text)
            self.is_folded = bool(kinds)
            its_id = f"{self.name}-{self.part.rpartition(' ')[2]}-hint"
            name = "" if f'id="{its_id}"' in "".join(self.hints) else f' id="{its_id}"'
            self.hints += [f'<p class="answer"{name}>{inline(self.part)}: {kind.lower()}</p>' for kind in kinds]
        elif self.is_folded:
            self.hints.append(self.block(text))
        else:
            yield self.block(text)

    def block(self, text):
        """A block of Markdown as HTML."""
        if found := re.fullmatch(r"(#{1,3}) (.*)", text):
            self.part = found[2]
            return re.sub(r' id="[^"]*"', "", heading(*found.groups()))
        if text.startswith("|"):
            return table(text)
        if is_items(text):
            return items(text)
        if found := PICTURE.fullmatch(text):
            told, name, kind = found.groups()
            content = base64.b64encode(content_of(name, kind, self.folder)).decode()
            format_ = "svg+xml" if kind == "svg" else kind
            return f'<p><img src="data:image/{format_};base64,{content}" alt="{html.escape(told)}"></p>'
        if found := LINK.fullmatch(text):
            told, name, rest = found.groups()
            return f"<p>{inline(told)} (<code>{name}</code>){inline(rest)}</p>"
        return f"<p>{inline(text)}</p>"

    def page(self, glossary):
        words = glossary.html(inline, lambda word: f"#{word.lesson}")
        return "\n".join([
            '<!DOCTYPE html>\n<html lang="en">\n<head>\n<meta charset="utf-8">',
            '<meta name="viewport" content="width=device-width">', f"<title>{TITLE}</title>",
            f"<style>\n{STYLE}</style>\n</head>\n<body>\n<h1>{TITLE}</h1>", "<nav>\n<ol>", *self.contents,
            *(f'<li><a href="#{part.lower()}">{part}</a></li>' for part in ("Glossary", "Hints", "Answers")), "</ol>\n</nav>",
            *filter(None, self.lessons),
            f'<section id="glossary">\n<h1>Glossary</h1>\n<p>{inline(glossary.about)}</p>', words, "</section>",
            '<section id="hints">\n<h1>Hints</h1>', *self.hints, "</section>",
            '<section id="answers">\n<h1>Answers</h1>', *self.answers, "</section>\n</body>\n</html>\n"])


def page(course, folder, glossary):
    """The page of a course, pairs of a lesson's name and its cells, and of its glossary. Its pictures are in this folder."""
    book = Book(folder, in_all(course))
    for name, cells in course:
        book.add(name, cells)
    return book.page(glossary)
