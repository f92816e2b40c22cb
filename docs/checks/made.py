"""Makes the pages of docs/made of the sources: each as its name and its text."""
import re

from checks import specs
from checks.closure import Closure
from checks.code import TESTS

MADE = "<!-- docs/index makes this page of the sources; what is written here by hand is lost. -->"
TIMES = "start/times.txt"
AUDITED = ["clfs_operations::serve", "clfs_engine::run", "clfs_engine::run_share", "clfs_manager::Manager::step"]


def page(title, *parts):
    """A page of parts between blank lines."""
    return "\n\n".join([f"# {title}", MADE, *(part for part in parts if part)]) + "\n"


def table(head, rows):
    lines = [head, ["---"] * len(head), *rows]
    return "\n".join("| " + " | ".join(cell(word) for word in line) + " |" for line in lines)


def cell(text):
    return str(text).replace("|", "\\|") or " "


def codes(names):
    return ", ".join(f"`{name}`" for name in names)


def counted(number, one, more=None):
    return f"{number:,} {one if number == 1 else more or one + 's'}"


def first_paragraph(text, *marks):
    """The first paragraph of a file's first comment."""
    lines = text.split("\n")
    return next((found for mark in marks if (found := specs.first_comment(lines, mark))), "")


# Crates and files


def crates(code):
    """Each crate by its level, with what it stands on, what stands on it and its modules."""
    levels = {}
    for crate in code.proved():
        levels.setdefault(code.level(crate.name), []).append(crate)
    about = ("A crate stands on those of lower levels alone; libraries of the kit are named last. What stands on a crate is proved again when it changes: those "
             "that use it, which are named, and those above them. A module's text is the first comment of its file.")
    parts = [about]
    for level in sorted(levels):
        parts.append(f"## Level {level}")
        parts += [crate_part(code, crate) for crate in levels[level]]
    parts.append("## Tests")
    parts += [crate_part(code, crate) for crate in code.crates.values() if crate.is_tests]
    return page("The crates", *parts)


def crate_part(code, crate):
    below, libraries = crate.below(code.crates), crate.libraries(code.crates)
    head = crate.source.get("lib.rt", crate.source.get("main.rt", ""))
    about = first_paragraph(head, "//! ", "// ")
    if about:
        about += "\n\n"
    stands = f"Stands on {codes([*below, *libraries])}." if below or libraries else "Stands on no other crate."
    above = code.above(crate.name)
    if above or not crate.is_tests:
        stands += f" Used by {codes(above)}." if above else " No crate uses it."
    modules = [(f"[{name}](../../crates/{crate.name}/src/{name})", first_paragraph(text, "//! ", "// ")) for name, text in crate.source.items()]
    modules = [row for row in modules if not row[0].startswith(("[lib.rt]", "[main.rt]"))]
    return f"### {crate.name}\n\n{about}{stands}" + ("\n\n" + table(["Module", "What it has"], modules) if modules else "")


def spec_files(code):
    """Each file of specs with its first comment."""
    parts = ["Where each rule stands. A file's text is its first comment."]
    for crate in code.proved():
        rows = [(f"[{name}](../../crates/{crate.name}/specs/{name})", first_paragraph(text, "-- ")) for name, text in crate.specs.items()]
        if rows:
            parts.append(f"## {crate.name}\n\n" + table(["File", "What it says"], rows))
    return page("The files of specs", *parts)


# Contracts


def clause_pages(code):
    """A page for each crate that has public calls with contracts, and one that lists them."""
    found, rows = {}, []
    for crate in code.proved():
        calls = crate.public_calls
        if calls and crate is not code.crates["clfs_rows"]:
            found[f"clauses/{crate.name}.md"] = clauses_of(code, crate)
            rows.append((f"[{crate.name}](clauses/{crate.name}.md)", len(calls), sum(len(call.ensures) for call in calls)))
    total = f"In all {counted(sum(row[1] for row in rows), 'public call')} have {counted(sum(row[2] for row in rows), 'clause')}."
    about = f"The public calls of each crate, with what they require and promise. {total} Those of `clfs_rows` are in [rows](rows.md)."
    return {"clauses.md": page("The public calls", about, table(["Crate", "Public calls", "Clauses"], rows)), **found}


def clauses_of(code, crate):
    groups = {}
    for call in crate.public_calls:
        groups.setdefault(call.path, []).append(call)
    parts = ["What each public call requires and promises, with the comments of its source. A clause without a comment stands as it is written."]
    for path in sorted(groups):
        parts.append(f"## [{path}](../../../crates/{crate.name}/{path})")
        parts += [call_part(call) for call in groups[path]]
    cited = cited_records(code, crate)
    if cited:
        parts.append("## Records that these clauses cite")
        parts += [record_part(record) for record in cited]
    return page(crate.name, *parts)


def call_part(call):
    text = f"### {call.title}"
    if call.comment:
        text += f"\n\n{call.comment}"
    rows = [("requires", clause) for clause in call.requires] + [("promises", clause) for clause in call.ensures]
    return text + "\n\n" + "\n".join(f"- {kind} `{clause.name}`: {said(clause)}" for kind, clause in rows)


def said(clause):
    """A clause's comment, or its text."""
    return clause.comment or f"`{re.sub(r' +', ' ', clause.text)}`"


def cited_records(code, crate):
    """The records of the crate's own specs that its public clauses name, and those that these name."""
    left = [clause.text for call in crate.public_calls for clause in call.ensures]
    found = {}
    while left:
        for name in re.findall(r"\b[A-Z]\w*", left.pop()):
            record = crate.records.get(name)
            if record and record.fields and name not in found:
                found[name] = record
                left += [field.text for field in record.fields]
    return [found[name] for name in sorted(found)]


def record_part(record):
    about = f"\n\n{record.comment}" if record.comment else ""
    lines = "\n".join(f"- `{field.name}`: {said(field)}" for field in record.fields)
    return f"### {record.name}\n\n[{record.path}](../../../crates/{record.crate}/{record.path}){about}\n\n{lines}"


# Rows and edits


def rows(code):
    """The worked rows: each function by its file, with its clauses."""
    crate, parts = code.crates["clfs_rows"], []
    for name, text in crate.source.items():
        calls = [call for call in code.rows() if call.path == f"src/{name}"]
        if calls:
            about = first_paragraph(text, "// ")
            lines = [(f"`{call.title}`", call.comment, codes(clause.name for clause in call.ensures)) for call in calls]
            parts.append(f"## [{name}](../../crates/clfs_rows/src/{name})\n\n{about}\n\n" + table(["Function", "What it shows", "Clauses"], lines))
    total = sum(len(call.ensures) for call in code.rows())
    about = f"{counted(total, 'worked row')} in {counted(len(code.rows()), 'function')}. A row is a clause of a function that does nothing; the checker computes it."
    return page("Worked rows", about, *parts)


def edits(code):
    """Each edit that the checker has to refuse, in the gate and beside it."""
    parts, sums = [], {"must-fail": 0, "wrong-bodies": 0}
    for crate in code.proved():
        lines = []
        for kind in sums:
            found = crate.edits(kind)
            sums[kind] += len(found)
            lines += [edit_row(crate, kind, name, text) for name, text in found.items()]
        if lines:
            parts.append(f"## {crate.name}\n\n" + table(["Wrong body", "Of", "Tried"], lines))
    total = f"{sums['must-fail']:,} edits in the gate, {sums['wrong-bodies']:,} edits beside it, {sum(sums.values()):,} edits in all."
    about = f"Each edit makes a body, or a definition, wrong, and the checker has to refuse it. {total} Those beside it are tried by `.ci/wrong-bodies`."
    return page("Wrong bodies", about, *parts)


def edit_row(crate, kind, name, text):
    path = re.search(r"^file: (.*)", text, re.M)[1].strip()
    tried = "in the gate" if kind == "must-fail" else "beside it"
    return f"[{name.replace('_', ' ')}](../../crates/{crate.name}/{kind}/{name}.edit)", edited(crate, path, text), tried


def edited(crate, path, text):
    """The call in whose body an edit changes something, or the file."""
    old = re.search(r"^old: ?(.*)", text, re.M)[1]
    before = crate.source.get(path.removeprefix("src/"), "").partition(old)[0].count("\n") + 1
    calls = [call for call in crate.calls if call.path == path and call.line <= before]
    return f"`{calls[-1].title}`" if calls else path


# What has to be read, and what a gate takes


def audit(code):
    """The files of specs on which the statements of some calls stand."""
    about = ("The definitions on which each statement stands: those that its contract names, and all that these name. Types stand in the sources, and the kit's "
             "own definitions in the kit. Lines are those of whole files; needed are the lines of these definitions, without comments and blank lines.")
    closure, seen = Closure(code), {}
    for title in AUDITED:
        seen[title] = closure.of_call(code.call(title))
    lines = [(f"`{title}`", f"{len(found):,}", f"{lines_of_files(code, found):,}", f"{sum(found.values()):,}") for title, found in seen.items()]
    parts = [about, table(["Statement of", "Files", "Lines", "Needed"], lines)]
    parts += [f"## {title}\n\n" + audit_files(code, found) for title, found in seen.items()]
    return page("What has to be read", *parts)


def lines_of_files(code, found):
    return sum(code.spec_files[key].count("\n") for key in found)


def audit_files(code, found):
    lines = []
    for crate in code.proved():
        own = {key: count for key, count in found.items() if key[0] == crate.name}
        if own:
            names = ", ".join(f"[{name}](../../crates/{crate.name}/specs/{name}) {count}" for (_, name), count in own.items())
            lines.append((f"`{crate.name}`", f"{sum(own.values()):,}", names))
    return table(["Crate", "Needed", "Files, with the lines that are needed"], lines)


def times(code):
    """What each crate takes of the gate, by the data file: the minutes of its proof, and of its edits or its tests; and of which runs they are."""
    found = {}
    text = (code.top / TIMES).read_text()
    for line in text.split("\n"):
        words = line.split("#")[0].split()
        if words:
            found[words[0]] = tuple(float(word) for word in words[1:])
    return found, text.split("\n")[0].removeprefix("# ")


def gate(code):
    """What each crate takes of the processor in a whole gate, and how many edits it has."""
    took, runs = times(code)
    crates_, tests = [], []
    sums = [0.0, 0.0, 0.0]
    for name, crate in code.crates.items():
        own, more = took.get(name, (0.0, 0.0))
        if name.endswith(TESTS):
            tests.append((f"`{name}`", minutes(own), minutes(more)))
            sums[2] += own + more
            continue
        sums[0], sums[1] = sums[0] + own, sums[1] + more
        inside, beside = len(crate.edits("must-fail")), len(crate.edits("wrong-bodies"))
        crates_.append((f"`{name}`", minutes(own), minutes(more), inside or "", beside or ""))
    parts = f"{sums[0]:.0f} for proofs, {sums[1]:.0f} for edits and {sums[2]:.0f} for tests"
    about = f"{runs} They stand in [{TIMES}](../../{TIMES}), and come to {sum(sums):.0f}: {parts}."
    first = table(["Crate", "Proof", "Edits", "In the gate", "In `wrong-bodies`"], crates_)
    return page("What the gate takes", about, first, table(["Tests", "The crate", "Its tests"], tests))


def minutes(number):
    return f"{number:.1f}" if number >= 0.05 else ""


def pages(code):
    """All pages by their names in docs/made."""
    return {
        "crates.md": crates(code),
        "specs.md": spec_files(code),
        **clause_pages(code),
        "rows.md": rows(code),
        "wrong-bodies.md": edits(code),
        "audit.md": audit(code),
        "gate.md": gate(code),
    }


def stale(code):
    """The pages of docs/made that aren't what they would be, each with the text that it should have; None if nothing makes it."""
    folder, wanted = code.top / "docs/made", pages(code)
    there = {str(path.relative_to(folder)): path.read_text() for path in folder.rglob("*.md")}
    return {name: wanted.get(name) for name in sorted({*wanted, *there}) if wanted.get(name) != there.get(name)}
