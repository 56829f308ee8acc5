"""The glossary: the words that the lessons explain, as a notebook, a page of the web site and a part of the book. Its source is a
table of words, the number of the lesson in which each is bold, and what it means."""
import html
import re

# A row of the table in the source.
ROW = re.compile(r"(?m)^\| ([^|]+) \| (\d+) \| (.+) \|$")


class Word:
    """A word: the name of its lesson, and its meaning as Markdown."""

    def __init__(self, word, lesson, meaning):
        self.word, self.lesson, self.meaning = word, lesson, meaning

    def anchor(self):
        """Its name in addresses."""
        return re.sub(r"[^a-z0-9]+", "-", self.word.lower())

    def number(self):
        return str(int(self.lesson.partition("-")[0]))


class Glossary:
    """The words of a source. `lessons` has the names of all lessons, which begin with their numbers."""

    def __init__(self, text, lessons):
        self.title, self.about = re.match(r"# (.*)\n\n(.*)\n", text).groups()
        self.words = [Word(word, self.lesson(int(number), lessons), meaning) for word, number, meaning in ROW.findall(text)]
        self.known = {each.word: each for each in self.words}

    def lesson(self, number, lessons):
        return next(name for name in lessons if name.startswith(f"{number:02}-"))

    def markdown(self):
        """The text of the notebook. Jupyter opens the lessons that it links to, if they are in its folder."""
        rows = [f"| **{each.word}** | {each.meaning} | [{each.number()}]({each.lesson}.ipynb) |" for each in self.words]
        return "\n".join([f"# {self.title}", "", self.about, "", "| Word | Meaning | Lesson |", "|---|---|---|", *rows])

    def marked(self, text):
        """HTML in which each word that is bold has a name, to which the glossary links."""
        def name(found):
            word = self.known.get(html.unescape(found[1]))
            return f'<dfn id="term-{word.anchor()}">{found[1]}</dfn>' if word else found[0]

        return re.sub(r"<strong>(.*?)</strong>", name, text)

    def html(self, inline, address):
        """The words as a list. `inline` makes HTML of a meaning, and `address` gives that of a word in its lesson, or nothing where the
        lessons may be elsewhere."""
        def lesson(each):
            to, name = address(each), f"Lesson {each.number()}"
            return f'<a href="{to}">{name}</a>' if to else f"<small>{name}</small>"

        rows = [f'<dt id="{each.anchor()}">{html.escape(each.word)}</dt>\n<dd>{inline(each.meaning)} {lesson(each)}</dd>'
                for each in self.words]
        return "\n".join(["<dl>", *rows, "</dl>"])
