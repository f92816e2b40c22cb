"""Reads files of specs: their first comment, and their records with each field and its comment."""
import dataclasses
import re

from checks.contracts import sentence

RECORD = re.compile(r"(?:abbrev )?pub record (\w+)")
FIELD = re.compile(r"  pub (\w+) :(.*)")


@dataclasses.dataclass
class Field:
    name: str
    comment: str
    text: str


@dataclasses.dataclass
class Record:
    """A record of a file of specs, with the comment above it."""

    crate: str
    path: str
    name: str
    comment: str
    fields: list


def records_of(crate, path, text):
    """The records of a file, each with its fields."""
    found, comment, record = [], [], None
    for line in text.split("\n"):
        head, field = RECORD.match(line), FIELD.match(line)
        if re.match(r" *--", line):
            comment.append(line.strip()[2:])
            continue
        if head:
            record = Record(crate, path, head[1], sentence(comment), [])
            found.append(record)
        elif record and field:
            record.fields.append(Field(field[1], sentence(comment), field[2].strip()))
        elif record and record.fields and re.match(r"    ", line):
            record.fields[-1].text += " " + line.strip()
            continue
        elif line and not line.startswith(" "):
            record = None
        if not line.strip() or head or not field:
            comment = []
        elif field:
            comment = []
    return found


def first_comment(lines, mark):
    """The comment at a file's head, its first paragraph."""
    found = []
    for line in lines:
        if not line.startswith(mark) or not line[len(mark) :].strip():
            break
        found.append(line[len(mark) :])
    return sentence(found)
