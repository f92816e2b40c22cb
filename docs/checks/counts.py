"""Checks numbers that stand before some words against the code."""
import functools
import re

from checks import made
from checks.closure import Closure
from checks.code import PROGRAM, ROWS
from checks.pages import Page
from checks.tables import forms, refusals, statuses

NUMBER = r"(?<![\w.,:])(\d{1,3}(?:,\d{3})+|\d+)"


def edits(code, kind):
    return sum(len(crate.edits(kind)) for crate in code.crates.values())


def public(code):
    return [call for crate in code.proved() if crate.name != ROWS for call in crate.public_calls]


def decisions(code):
    """The numbered decisions, if the page has them."""
    path = code.top / "docs/DECISIONS.md"
    return len(re.findall(r"^#+ \d+\. ", path.read_text(), re.M)) if path.exists() else 0


# What stands after a number, and what the number has to be.
PHRASES = [
    (r"crates in all\b", lambda code: len(code.crates)),
    (r"crates of the program\b", lambda code: len(code.needed(PROGRAM))),
    (r"crates of tests\b", lambda code: sum(crate.is_tests for crate in code.crates.values())),
    (r"worked rows\b", lambda code: sum(len(call.ensures) for call in code.rows())),
    (r"functions of rows\b", lambda code: len(code.rows())),
    (r"edits in the gate\b", lambda code: edits(code, "must-fail")),
    (r"edits beside it\b", lambda code: edits(code, "wrong-bodies")),
    (r"edits in all\b", lambda code: edits(code, "must-fail") + edits(code, "wrong-bodies")),
    (r"files of specs\b", lambda code: len(code.spec_files)),
    (r"lines of specs\b", lambda code: sum(text.count("\n") for text in code.spec_files.values())),
    (r"public calls\b", lambda code: len(public(code))),
    (r"clauses of public calls\b", lambda code: sum(len(call.ensures) for call in public(code))),
    (r"refusals\b", lambda code: len([number for number in refusals(code) if number < 30])),
    (r"statuses\b", lambda code: len(set.union(*statuses(code).values()) | {1})),
    (r"commands\b", lambda code: len(forms(code))),
    (r"decisions\b", decisions),
]
# What says which of some, and what may stand there.
LOOSE = [(r"crates\b(?! (in all|of the program|of tests))", "crates"), (r"(rows|edits)\b(?! (in the gate|beside it|in all))", "edits or rows")]
READ = {"serve": 0, "run": 1, "run_share": 2, "Manager::step": 3}


def number(text):
    return int(text.replace(",", ""))


@functools.lru_cache(None)
def audited(code, name):
    found = Closure(code).of_call(code.call(made.AUDITED[READ[name]]))
    return len(found), made.lines_of_files(code, found)


def of_text(code, text):
    """What is wrong in a text."""
    for words, counts in PHRASES:
        for it in re.finditer(rf"{NUMBER} {words}", text):
            if number(it[1]) != counts(code):
                yield f"`{it[0]}`: the code has {counts(code):,}"
    for words, what in LOOSE:
        for it in re.finditer(rf"{NUMBER} {words}", text):
            yield f"`{it[0]}`: say which {what}, so that it can be counted"
    before = [found[::-1] for found in re.findall(rf"{NUMBER} lines of `(clfs\w*)`", text)]
    for crate, lines in [*before, *re.findall(rf"`(clfs\w*)`[^`.|]{{0,20}}?{NUMBER} lines", text)]:
        if crate in code.crates and number(lines) != code.lines_of(crate):
            yield f"`{crate}` has {code.lines_of(crate):,} lines"
    for files, lines, name in re.findall(rf"{NUMBER} files, {NUMBER} lines for `([\w:]+)`", text):
        if name in READ and (number(files), number(lines)) != audited(code, name):
            yield "the statement of `{}` stands on {:,} files, {:,} lines".format(name, *audited(code, name))


def check(top, names, code):
    found = []
    for page in (Page(top, name) for name in names):
        for part in page.prose():
            found += [f"{page.name}:{part.line}: {fault}" for fault in of_text(code, part.text)]
    return found
