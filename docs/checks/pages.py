"""Reads a page: its headings, paragraphs, tables, fences and indented blocks, each with its number of line."""
import dataclasses
import functools
import re

FENCE = re.compile(r"( *)```(.*)")
ITEM = re.compile(r" *(?:[-*]|\d+\.) ")


@dataclasses.dataclass
class Part:
    """A part of a page: a `heading`, a `paragraph`, an `item` of a list, a `table`, a `fence` or a `block`, which is indented.

    `above` is the text of the paragraph or item just above it, `info` what stands behind the marks of a fence, and `section` the heading above."""

    kind: str
    line: int
    lines: list
    above: str = ""
    info: str = ""
    section: str = ""

    @property
    def text(self):
        return " ".join(line.strip() for line in self.lines)

    def rows(self):
        """The rows of a table, each as its number of line and its cells, without the line below its head."""
        found = []
        for number, line in enumerate(self.lines, self.line):
            cells = [cell.strip().replace("\\|", "|") for cell in re.split(r"(?<!\\)\|", line.strip().strip("|"))]
            if not all(re.fullmatch(r":?-+:?", cell) for cell in cells):
                found.append((number, cells))
        return found


class Page:
    """A page by its name from the top of the checkout."""

    def __init__(self, top, name):
        self.top, self.name = top, name
        self.text = (top / name).read_text()

    @functools.cached_property
    def parts(self):
        return Parser(self.text.split("\n")).parse()

    def of(self, *kinds):
        return [part for part in self.parts if part.kind in kinds]

    def headings(self):
        return [part.text.lstrip("#").strip() for part in self.of("heading")]

    def prose(self):
        """What is read as text, with its number of line: paragraphs, items and cells of tables."""
        return self.of("paragraph", "item", "table")


class Parser:
    """Goes through the lines of a page once."""

    def __init__(self, lines):
        self.lines, self.row, self.parts, self.above, self.section = lines, 0, [], "", ""

    def parse(self):
        while self.row < len(self.lines):
            line = self.lines[self.row]
            if FENCE.fullmatch(line):
                self.fence()
            elif line.startswith("    ") and self.after_blank():
                self.take("block", lambda it: it.startswith("    "))
            elif line.startswith("#"):
                self.section = line.lstrip("#").strip()
                self.take("heading", lambda it: False)
                self.above = ""
            elif line.startswith("|"):
                self.take("table", lambda it: it.startswith("|"))
            elif line.startswith("<!--"):
                self.row += 1
            elif line.strip():
                self.prose(line)
            else:
                self.row += 1
        return self.parts

    def after_blank(self):
        return self.row == 0 or not self.lines[self.row - 1].strip()

    def add(self, kind, start, lines, info=""):
        self.parts.append(Part(kind, start + 1, lines, self.above, info, self.section))

    def take(self, kind, goes_on):
        start = self.row
        self.row += 1
        while self.row < len(self.lines) and goes_on(self.lines[self.row]):
            self.row += 1
        lines = self.lines[start : self.row]
        self.add(kind, start, [line[4:] for line in lines] if kind == "block" else lines)

    def fence(self):
        start, head = self.row, FENCE.fullmatch(self.lines[self.row])
        self.row += 1
        while self.row < len(self.lines) and self.lines[self.row].strip() != "```":
            self.row += 1
        self.row += 1
        lines = [line.removeprefix(head[1]) for line in self.lines[start + 1 : self.row - 1]]
        self.add("fence", start, lines, head[2].strip())

    def prose(self, line):
        kind = "item" if ITEM.match(line) else "paragraph"
        start = self.row
        self.row += 1
        while self.row < len(self.lines) and self.is_more(self.lines[self.row]):
            self.row += 1
        self.add(kind, start, self.lines[start : self.row])
        self.above = self.parts[-1].text

    def is_more(self, line):
        return bool(line.strip()) and not (ITEM.match(line) or FENCE.fullmatch(line) or line.startswith(("#", "|", "<!--")))


def sentences(part):
    """The sentences of a paragraph or an item."""
    text = re.sub(r"^(?:[-*]|\d+\.) ", "", part.text)
    text = re.sub(r"\]\([^)]*\)", "]", text)
    return [one for one in re.split(r"(?<=[.!?])[)\"*]*\s+(?=[A-Z`*\[(\"0-9])|(?<=:)\s*$", text) if one.strip()]


def names_in_backticks(text):
    return re.findall(r"`([^`]+)`", text)
