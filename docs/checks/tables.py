"""Checks the tables of SCRIPT and of README's limits against the code: commands, refusals, statuses, lines that a command ends with, and limits."""
import re

from checks.pages import Page, names_in_backticks

SCRIPT, README = "docs/SCRIPT.md", "README.md"
UNITS = {"KiB": 1 << 10, "MiB": 1 << 20, "GiB": 1 << 30}
QUANTITY = re.compile(r"(?<![\w.,])(\d+(?:,\d{3})*)(?: (KiB|MiB|GiB))?\b")
# The status of words that are no command, which the contract of none has.
USAGE = 1
CASES = {"share": "EndsSharing", "serve": "EndsServing", "race": "EndsRacing", "crew": "EndsCrew", "crowd": "EndsCrowd"}


def constant(code, crate, path, name):
    """The value of a constant of a source file."""
    value = re.search(rf"const {name}: \w+ = ([\w ]+(?:<< \d+)?);", code.crates[crate].source[path])[1]
    return eval(value.replace("_", ""), {})  # a number, or one that is shifted


def definition(code, name):
    """The number that a file of specs has for a name."""
    text = code.crates["clfs_lsn"].specs["Limits.antt"]
    return int(re.search(rf"^{name} = (\d+)$", text, re.M)[1])


def quantities(text):
    """The numbers of a text, with their units."""
    return {int(number.replace(",", "")) * UNITS.get(unit, 1) for number, unit in QUANTITY.findall(text)}


# Commands


def forms(code):
    """The commands with the texts that the help has of their words."""
    text = code.crates["clfs_command"].source["commands.rt"]
    shared = dict(re.findall(r"^const (\w+): WordForm = (.*?)^\};", text, re.M | re.S))
    found = {}
    for body in re.findall(r"CommandForm = CommandForm \{(.*?)^\};", text, re.M | re.S):
        words = body + " ".join(shared.get(name, "") for name in re.findall(r"\b[A-Z_]+\b", body))
        found[re.search(r'name: "(\w+)"', body)[1]] = words
    return found


def commands(page, code):
    """The table of commands: each is there once, with all its options and the numbers of its help."""
    wanted, faults, seen, said = forms(code), [], {}, quantities(page.text)
    for part in page.of("table"):
        for number, cells in part.rows()[1:]:
            word = re.match(r"`(\w+)[ `]", cells[0])
            if word and word[1] in wanted and len(cells) == 2 and part.section == "Commands":
                seen.setdefault(word[1], []).append((number, " ".join(cells)))
    for name, words in wanted.items():
        if len(seen.get(name, [])) != 1:
            faults.append(f"{page.name}:1: the table of commands has `{name}` {len(seen.get(name, []))} times")
            continue
        number, text = seen[name][0]
        options = [f"--{option}" for option in re.findall(r'name: "([a-z-]+)"', words)[1:]]
        faults += [f"{page.name}:{number}: `{name}` has the option {option}" for option in options if option not in text]
        helps = re.findall(r'help: "([^"]*)"', re.sub(r", as [\d:]+", "", words))
        limits_ = {value for text in helps for value in quantities(text)}
        faults += [f"{page.name}:{number}: `{name}` has the limit {value:,}, which stands nowhere here" for value in sorted(limits_ - said)]
    return faults


# Refusals


def refusals(code):
    """Each refusal's number, with its name and how many fields it has."""
    found = {}
    for crate, path in (("clfs_script", "refusals.rt"), ("clfs_txn_script", "writing.rt")):
        text = code.crates[crate].source[path]
        for fields, number, name in re.findall(r"Refusal::\w+(?: \{([^}]*)\})? => [^\"]*?b\"(\d+) (\w+) ?\"", text):
            found[int(number)] = name, len([field for field in fields.split(",") if field.strip()])
    return found


def refusal_rows(page, code):
    wanted, faults, seen = refusals(code), [], set()
    for part in page.of("table"):
        for number, cells in part.rows():
            row = re.fullmatch(r"`(?:refused )?(\d+) ([A-Z]\w+)((?: [A-Z\d]+)*)`", cells[0])
            if row:
                name, fields = wanted.get(int(row[1]), ("nothing", 0))
                seen.add(int(row[1]))
                if (name, fields) != (row[2], len(row[3].split())):
                    faults.append(f"{page.name}:{number}: refusal {row[1]} is `{name}` with {fields} fields in the code")
    return faults + [f"{page.name}:1: no table has the refusal {number} {wanted[number][0]}" for number in sorted(set(wanted) - seen)]


# Statuses


def numbers_of(code, text):
    """The statuses that a field says, and the definitions that it names."""
    found = {int(number) for number in re.findall(r"status ≡ (\d+)", text)}
    for name in set(re.findall(r"\bIs\w*(?:Status|Done)\b", text)):
        for body in code.spec_files.values():
            it = re.search(rf"^{name} \w+ =(.*?)(?=^\S)", body + "\n--", re.M | re.S)
            if it:
                found |= numbers_of(code, it[1])
    return found


def statuses(code):
    """The statuses of each command, by its contract; of `share` also that of a path that can't be used, which the program tells before it asks."""
    found = {}
    for name in forms(code):
        record = code.records[CASES.get(name, f"Ends{name.capitalize()}")][0]
        field = next(field for field in record.fields if field.name == "statuses")
        found[name] = numbers_of(code, field.text)
    found["share"].add(constant(code, "clfs", "main.rt", "UNUSABLE_PATH"))
    return found


def helped(code):
    """The statuses of each command that the help names."""
    text = code.crates["clfs_command"].source["help.rt"]
    notes = dict(re.findall(r'^const (\w+): &str = "\\\n(.*?)";', text, re.M | re.S))
    found = {}
    for names, const in re.findall(r'^ +((?:"\w+"(?: \| )?)+) => (\w+),', text, re.M):
        said = re.search(r"Status (.*)", notes[const], re.S)[1]
        numbers = {int(number) for number in re.findall(r"(?:^|\. |\n)(\d+): ", said)}
        span = re.match(r"(\d+) to (\d+): as of", said)
        for name in re.findall(r"\w+", names):
            found[name] = numbers | (set(range(int(span[1]), int(span[2]) + 1)) if span else set())
    return found


def help_rows(code):
    """Statuses that the help names and that a command never ends with."""
    wanted = statuses(code)
    path = "crates/clfs_command/src/help.rt"
    return [f"{path}:1: `{name}` never ends with {one}" for name, said in helped(code).items() for one in sorted(said - wanted[name] - {USAGE})]


def matrix(page):
    """What SCRIPT says: the statuses of each command, and the line of each status with its number of line."""
    said, lines, start = {}, {}, 1
    for part in page.of("table"):
        (start_here, head), *rows = part.rows()
        if head[0] != "Status":
            continue
        columns = {at: names_in_backticks(cell)[0] for at, cell in enumerate(head) if names_in_backticks(cell)}
        for number, cells in rows:
            if cells[0].isdigit():
                lines[int(cells[0])] = number, " ".join(cell for at, cell in enumerate(cells) if at not in columns)
                for at, name in columns.items():
                    if at < len(cells) and cells[at]:
                        said.setdefault(name, set()).add(int(cells[0]))
                        start = start_here
    return said, lines, start


def status_rows(page, code):
    said, lines, start = matrix(page)
    faults = []
    for name, wanted in statuses(code).items():
        here = said.get(name, set()) - {USAGE}
        faults += [f"{page.name}:{start}: `{name}` can end with {one}" for one in sorted(wanted - here)]
        faults += [f"{page.name}:{start}: `{name}` never ends with {one}" for one in sorted(here - wanted)]
    sources = "\n".join(re.findall(r'"(?:[^"\\]|\\.)*"', "\n".join(text for crate in code.proved() for text in crate.specs.values())))
    for number, text in lines.values():
        for line in names_in_backticks(text):
            fixed = re.split(r" [A-Z]+\b(?! \w+ [a-z])| \.\.", line)[0]
            if len(fixed.split()) > 1 and fixed not in sources:
                faults.append(f"{page.name}:{number}: no source has the line `{line}`")
    return faults + usage(page, code) + help_rows(code)


def usage(page, code):
    """The line of usage, where it stands."""
    text = re.search(r'^usage_text = codes "(.*)\\n"', code.crates["clfs_operations"].specs["Serve.antt"], re.M)[1]
    found = []
    for number, line in enumerate(page.text.split("\n"), 1):
        found += [f"{page.name}:{number}: the line of usage is `{text}`" for it in re.findall(r"usage: clfs FOLDER [^`\n]*", line) if it != text]
    return found


# Limits


def limits(code):
    """Of each row of README's table, what it has to say: the row's first word, and numbers."""
    sector, payload = (constant(code, "clfs_lsn", "format.rt", name) for name in ("SECTOR", "SECTOR_PAYLOAD"))
    headers = sum(constant(code, "clfs_lsn", "format.rt", name) for name in ("BLOCK_HEADER", "RECORD_HEADER"))
    containers, container, block = (definition(code, name) for name in ("most_containers", "most_container_sectors", "most_block_sectors"))
    return {
        "log": {containers * container * sector, containers, container, sector},
        "record": {payload * block - headers, payload, headers},
        "streams": {definition(code, "most_streams")},
        "clients": {definition(code, name) for name in ("most_clients", "most_areas", "most_cursors")},
        "line": {constant(code, "clfs_lines", "answering.rt", "LONGEST_LINE"), constant(code, "clfs_operations", "serving.rt", "LONGEST_SCRIPT")},
        "archives": {constant(code, "clfs_archive_form", "draft.rt", "MOST_BYTES")},
        "processes": {constant(code, "clfs_command", "share.rt", "MOST_PATHS") // 2},
    }


def limit_rows(page, code):
    wanted, faults, seen = limits(code), [], set()
    for part in page.of("table"):
        if part.section != "Limits":
            continue
        for number, cells in part.rows():
            word = re.split(r"\W", cells[0])[0]
            if word in wanted:
                seen.add(word)
                missing = wanted[word] - quantities(" ".join(cells))
                faults += [f"{page.name}:{number}: the code has {value:,} here" for value in sorted(missing)]
    return faults + [f"{page.name}:1: the table of limits has no row `{word}`" for word in sorted(set(wanted) - seen)]


def check(top, names, code):
    found = []
    if SCRIPT in names:
        page = Page(top, SCRIPT)
        found += commands(page, code) + refusal_rows(page, code) + status_rows(page, code)
    if README in names:
        found += limit_rows(Page(top, README), code)
    return found
