"""Checks that each clause that a page names stands in the contract or the record that it names, and that PROVED names all that it has to.

A page says whose a clause is in its text, as `clause` of `crate::function`, or of record `Name`, or of the calls of `crate::Type`; or in the head of a
table's column, whose cells have the clauses then. `of the same` is of the owner that was named last."""
import re

from checks.contracts import NAMELESS
from checks.pages import Page

PROVED = "docs/PROVED.md"
NAME = r"`([\w:]+)`"
NAMES = r"(?:`\w+`(?:, and |, | and | or ))*`\w+`"
AND = r"(?:, and |, of |, | and of | and | or )"
OWNER = r"(?:the |records? |calls of )*`(?:(?:\w+::)+\w+|[A-Z]\w*)`"
OF = re.compile(rf"({NAMES}) of (the same\b|{OWNER}(?:{AND}{OWNER})*)")
HEAD = re.compile(r"Clauses? of (.*)")

# What PROVED has to name: these calls, the records of the cases of a run, and the public calls of these types; a session is a seat at the turn lock.
CALLS = ["clfs_engine::run", "clfs_engine::run_alone", "clfs_engine::run_share", "clfs_engine::share_log"]
CASES = ("clfs_engine", "specs/Run.antt", "Ends")
SHARING = "EndsSharing"
TYPES = [("clfs_manager", "Manager"), ("clfs_shared", "SharedLog"), ("clfs_turn", "TurnSeat")]


class Owners:
    """Finds the clauses of a call, a type or a record by its name."""

    def __init__(self, code):
        self.code = code

    def clauses(self, name):
        """The names of the clauses, or nothing if there is no such owner."""
        crate, _, rest = name.rpartition("::")
        if not crate:
            return self.fields(self.code.records.get(name))
        if name in self.code.named_calls:
            return {self.shown(clause) for call in self.code.named_calls[name] for clause in call.ensures}
        records = [record for record in self.code.records.get(rest, []) if record.crate == crate]
        calls = [call for title, found in self.code.named_calls.items() if title.startswith(f"{name}::") for call in found]
        if records:
            return self.fields(records)
        return {self.shown(clause) for call in calls for clause in call.ensures} if calls else None

    @staticmethod
    def shown(clause):
        return clause.name

    @staticmethod
    def fields(records):
        return {field.name for record in records for field in record.fields} if records else None


class Named:
    """What a page names: each clause by its owner."""

    def __init__(self, page, code):
        self.page, self.owners = page, Owners(code)
        self.found, self.faults = set(), []
        for part in page.of("paragraph", "item"):
            self.text(part.line, part.text)
        for part in page.of("table"):
            self.table(part)

    def add(self, line, names, owners):
        """Takes names as clauses of owners, of which one has to have each."""
        known = {owner: self.owners.clauses(owner) for owner in owners}
        for owner in [owner for owner in owners if known[owner] is None]:
            self.faults.append(f"{self.page.name}:{line}: there is no call and no record `{owner}`")
        for name in names:
            having = [owner for owner in owners if known[owner] and name in known[owner]]
            self.found.update((owner, name) for owner in having)
            if not having and any(known.values()):
                self.faults.append(f"{self.page.name}:{line}: `{name}` is no clause of {' or '.join(owners)}")

    def text(self, line, text, last=()):
        for it in OF.finditer(text):
            owners = re.findall(NAME, it[2]) or list(last)
            last = owners
            if self.is_meant(owners):
                self.add(line, re.findall(r"`(\w+)`", it[1]), owners)

    def is_meant(self, owners):
        """Whether these are owners: a call or a record, and not, say, a crate or a word of a script."""
        return any("::" in owner or re.match(r"[A-Z]\w*[a-z]", owner) for owner in owners)

    def table(self, part):
        rows = part.rows()
        heads = [HEAD.search(cell) for cell in rows[0][1]]
        columns = {at: re.findall(NAME, head[1]) for at, head in enumerate(heads) if head and re.search(NAME, head[1])}
        for number, cells in rows[1:]:
            for at, cell in enumerate(cells):
                self.text(number, cell, columns.get(at, ()))
                if at in columns:
                    rest = OF.sub(" ", cell)
                    names = [name for name in re.findall(r"`(\w+)`", rest) if not re.search(rf"record `{name}`", rest)]
                    self.add(number, names, columns[at])


def wanted(code):
    """All that PROVED has to name, as owners that may stand for it and the clause."""
    found = []
    for title in CALLS:
        found += [([title], clause.name) for clause in code.call(title).ensures]
    text = code.crates[CASES[0]].specs[CASES[1].removeprefix("specs/")]
    body = re.search(rf"^abbrev pub {CASES[2]} :.*?(?=^\S*\n\n|\n\n)", text, re.M | re.S)[0]
    for record in [*dict.fromkeys(re.findall(r"\bEnds[A-Z]\w*", body)), "EndsRun", SHARING]:
        found += [([record], field.name) for one in code.records[record] for field in one.fields]
    for crate, owner in TYPES:
        for call in code.crates[crate].public_calls:
            if call.owner == owner:
                found += of_call(code, call)
    return found


def of_call(code, call):
    """The clauses of a call. One without a name is its record's, if it is one."""
    title = f"{call.crate}::{call.title}"
    of_type = title.rpartition("::")[0]
    found = []
    for clause in call.ensures:
        record = re.match(r"([A-Z]\w*)", clause.text)
        if clause.name == NAMELESS and record and record[1] in code.records:
            found.append(([title, of_type, record[1]], None))
        else:
            found.append(([title, of_type], clause.name))
    return found


def unnamed(named, page, code):
    """What isn't named though it has to be."""
    faults = []
    for owners, name in wanted(code):
        if name is None:
            is_there = f"`{owners[-1]}`" in page.text or any((owner, NAMELESS) in named.found for owner in owners)
            name = owners[-1]
        else:
            is_there = any((owner, name) in named.found for owner in owners)
        if not is_there:
            faults.append(f"{page.name}:1: it doesn't name `{name}` of `{owners[0]}`")
    return list(dict.fromkeys(faults))


# Text of the sources


def lines_of(text):
    """The lines that say something, without comments and indentation."""
    return [line.strip() for line in text.split("\n") if line.strip() and not re.match(r"\s*(--|//)", line)]


def pieces(lines):
    """The lines of a fence between those that stand for others."""
    found = [[]]
    for line in lines:
        if line.strip() in ("..", "..."):
            found.append([])
        elif line.strip() and not re.match(r"\s*(--|//)", line):
            found[-1].append(line.strip())
    return [piece for piece in found if piece]


def where(piece, lines, start):
    """The place after a piece in the lines of a file, from a place on; nothing if it isn't there."""
    for at in range(start, len(lines) - len(piece) + 1):
        if lines[at : at + len(piece)] == piece:
            return at + len(piece)
    return None


def cited(page):
    """Fences whose text isn't that of the file that is named above."""
    found = []
    for part in page.of("fence"):
        if part.info.split()[:1] not in (["antt"], ["rattle"]):
            continue
        paths = re.findall(r"`(crates/[\w./-]+)`", part.info + part.above)
        if not paths or not (page.top / paths[-1]).exists():
            found.append(f"{page.name}:{part.line}: no file is named above")
            continue
        lines, at = lines_of((page.top / paths[-1]).read_text()), 0
        for piece in pieces(part.lines):
            at = where(piece, lines, at)
            if at is None:
                first = next((line for line in piece if line not in lines), piece[0])
                found.append(f"{page.name}:{part.line}: this isn't the text of {paths[-1]}: `{first[:80]}`")
                break
    return found


def check(top, names, code):
    found = []
    for page in (Page(top, name) for name in names):
        named = Named(page, code)
        found += named.faults + cited(page)
        if page.name == PROVED:
            found += unnamed(named, page, code)
    return found
