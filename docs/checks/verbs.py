"""Checks the lines of SCRIPT, and the clients' calls beside them, against the words of the language and the clients' sources."""
import re

from checks.pages import Page
from checks.tables import SCRIPT

CLIENTS = "clients/README.md"
COLUMNS = ["line", "Python", "C", "Rust"]
# What is named of each client, and where it is declared.
DECLARED = {
    "Python": ("clients/python/clfs/*.py", r"\.(\w+)\(", r"\b(?:def|class) {}\b"),
    "C": ("clients/c/clfs.h", r"(?:^|, )(\w+)(?=,|$)", r"\bclfs_{}\("),
    "Rust": ("clients/rust/src/*.rs", r"(?:^|, |::)(\w+)", r"\bpub (?:fn|struct|enum|const) {}\b"),
}


def words_of_lines(code):
    """The words of the script's lines, and of those of a table."""
    script = re.findall(r'\(codes "(\w+)", \w+_verb\)', code.crates["clfs_model"].specs["Script.antt"])
    table = re.findall(r'b"(\w+)" => Some\(Verb::', code.crates["clfs_txn_script"].source["verbs.rt"])
    return [*script, "reopen"], table


def lines(page, code):
    """Each line of the language stands at the beginning of a row of a table."""
    script, table = words_of_lines(code)
    said = {cell for part in page.of("table") for _, cells in part.rows() for cell in re.findall(r"`([^`]*)`", cells[0])}
    missing = [f"C {word}" for word in script if not any(re.match(rf"C {word}\b", cell) for cell in said)]
    missing += [word for word in table if not any(re.match(rf"{word}\b", cell) for cell in said)]
    return [f"{page.name}:1: no table has the line `{line} ..`" for line in missing]


def columns(part):
    """The columns of a fence whose head names the clients' languages, by line: their names with what stands there."""
    starts = [part.lines[0].find(name) for name in COLUMNS]
    for number, line in enumerate(part.lines[1:], part.line + 2):
        yield number, {name: line[start:end].strip() for name, start, end in zip(COLUMNS, starts, [*starts[1:], None])}


def calls(page, code):
    """The calls of the clients: each line of the language has them, and each is declared."""
    found, seen = [], set()
    texts = {name: "\n".join(path.read_text() for path in sorted(page.top.glob(where))) for name, (where, _, _) in DECLARED.items()}
    fences = [part for part in page.of("fence") if part.lines and all(name in part.lines[0] for name in COLUMNS)]
    for number, row in (it for part in fences for it in columns(part)):
        seen.add(row["line"])
        for name, (_, pattern, declared) in DECLARED.items():
            calls_ = [word for word in re.findall(pattern, row[name]) if not re.search(declared.format(word), texts[name])]
            found += [f"{page.name}:{number}: {name} has no call `{word}`" for word in calls_ if word != "clfs"]
    return found + [f"{page.name}:1: the calls lack the line `{word}`" for word in words_of_lines(code)[0] if word not in seen]


def check(top, names, code):
    found = []
    if SCRIPT in names:
        found += lines(Page(top, SCRIPT), code)
    if CLIENTS in names:
        found += calls(Page(top, CLIENTS), code)
    return found
