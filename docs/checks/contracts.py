"""Reads the contracts of a source file: each public call with its comment, what it requires, and its clauses with theirs."""
import dataclasses
import re

HEAD = re.compile(r"( *)(pub(?:\((\w+)\))? )?(?:unsafe |const |extern \"C\" )*fn (\w+)")
IMPL = re.compile(r"(?:unsafe )?impl(?:<.*?>)? (?:.* for )?(?:\w+::)*([A-Z]\w*)")
TRAIT = re.compile(r"(pub )?trait ([A-Z]\w*)")
CLAUSE = re.compile(r" *(requires|ensures)(?: (\w+))? \{")
BRACE = re.compile(r"[{}]")
NAMELESS = "ensures"


@dataclasses.dataclass
class Clause:
    """A clause by its name, or NAMELESS, with the comment that stands above it or above its neighbours, and its text."""

    name: str
    comment: str
    text: str
    line: int


@dataclasses.dataclass
class Call:
    """A function or a method, whose owner is the type or the trait, or nothing."""

    crate: str
    path: str
    line: int
    owner: str
    name: str
    is_public: bool
    is_of_trait: bool
    comment: str
    requires: list
    ensures: list

    @property
    def title(self):
        return f"{self.owner}::{self.name}" if self.owner else self.name


def sentence(lines):
    """Comment lines as one text."""
    return " ".join(filter(None, (line.strip() for line in lines)))


def bare(line):
    """A line with what stands in quotation marks, and a comment at its end, made blank."""
    return re.sub(r'"(?:[^"\\]|\\.)*"|//.*', lambda it: " " * len(it[0]), line)


def braced(lines, row, column):
    """The text from the brace at this place to the one that closes it, and the row where it ends."""
    depth, text, start = 0, [], row
    while row < len(lines):
        line = lines[row]
        for brace in BRACE.finditer(bare(line), column):
            depth += 1 if brace[0] == "{" else -1
            if depth == 0:
                text.append(line[column : brace.end()])
                return sentence(text)[1:-1].strip(), row
        text.append(line[column:])
        row, column = row + 1, 0
    raise ValueError(f"no end of the braces of line {start + 1}")


class Reader:
    """Goes through a file once."""

    def __init__(self, crate, path, text):
        self.crate, self.path, self.lines = crate, path, text.split("\n")
        self.owner, self.is_trait, self.calls, self.comment = "", False, [], []

    def meet_owner(self, line):
        """Takes note of whose methods follow."""
        trait, impl = TRAIT.match(line), IMPL.match(line)
        if trait:
            self.owner, self.is_trait = trait[2], trait[1] is not None
        elif impl:
            self.owner, self.is_trait = impl[1], False
        elif line.startswith("}"):
            self.owner, self.is_trait = "", False

    def read(self):
        row = 0
        while row < len(self.lines):
            line = self.lines[row]
            self.meet_owner(line)
            head = HEAD.match(line)
            if head and (head[1] == "") == (self.owner == ""):
                row = self.read_call(row, head)
                self.comment = []
            elif re.match(r" *///", line):
                self.comment.append(line.strip()[3:])
            elif not re.match(r" *#\[", line):
                self.comment = []
            row += 1
        return self.calls

    def read_call(self, row, head):
        """Reads a call's head, up to its body or its semicolon."""
        is_public = head[2] is not None and head[3] is None
        call = Call(self.crate, self.path, row + 1, self.owner, head[4], is_public, self.is_trait, sentence(self.comment), [], [])
        self.calls.append(call)
        comment, indent = [], len(head[1])
        while row < len(self.lines):
            line = self.lines[row]
            clause = CLAUSE.match(line)
            if clause:
                text, end = braced(self.lines, row, clause.end() - 1)
                found = Clause(clause[2] or NAMELESS, sentence(comment), text, row + 1)
                (call.requires if clause[1] == "requires" else call.ensures).append(found)
                row, line = end, self.lines[end]
                if line.rstrip().endswith(";"):
                    return row
            elif re.match(r" *//", line):
                comment = (comment if re.match(r" *//", self.lines[row - 1]) else []) + [line.strip()[2:]]
            elif not line.strip():
                comment = []
            elif line.startswith(" " * indent + "{") or line.rstrip().endswith(("{", ";", "{}")):
                return row
            row += 1
        return row


def calls_of(crate, path, text):
    """All calls of a file."""
    return Reader(crate, path, text).read()
