"""Reads the checkout: its crates, with their files, contracts, records and edits. Nothing of it is proved or run."""
import functools
import pathlib
import re

from checks import contracts, specs

ROWS = "clfs_rows"
PROGRAM = "clfs"
TESTS = "_checks"


class Crate:
    """A crate with what it stands on, as crates.txt has it."""

    def __init__(self, top, name, words):
        self.name, self.folder, self.words = name, top / "crates" / name, words
        self.is_tests = name.endswith(TESTS)

    def below(self, crates):
        """The crates of the checkout that it stands on."""
        return [word for word in self.words if word in crates]

    def libraries(self, crates):
        return [word for word in self.words if word not in crates]

    def files(self, part, suffix):
        """Its files of a folder, by their names within it."""
        folder = self.folder / part
        return {str(path.relative_to(folder)): path.read_text() for path in sorted(folder.rglob(f"*{suffix}"))}

    @functools.cached_property
    def source(self):
        return self.files("src", ".rt")

    @functools.cached_property
    def specs(self):
        return {name: text for name, text in self.files("specs", ".antt").items() if name != "Lib.antt"}

    def edits(self, kind):
        """Its edits of must-fail or of wrong-bodies."""
        return {name.removesuffix(".edit"): text for name, text in self.files(kind, ".edit").items()}

    @functools.cached_property
    def exported(self):
        """The names that it gives to others."""
        text = self.source.get("lib.rt", self.source.get("main.rt", ""))
        names = set(re.findall(r"^pub (?:fn|struct|enum|trait|const|type) (\w+)", text, re.M))
        for path, group, one in re.findall(r"^pub use ([\w:]+?)::(?:\{([^}]*)\}|(\w+));", text, re.M):
            if not path.startswith(("clfs", "std")):
                names.update(word.split(" as ")[-1].strip() for word in (group or one).split(",") if word.strip())
        return names

    @functools.cached_property
    def calls(self):
        """All calls of its sources."""
        return [call for name, text in self.source.items() for call in contracts.calls_of(self.name, f"src/{name}", text)]

    @functools.cached_property
    def public_calls(self):
        """The calls that other crates can make and that have a contract."""
        return [call for call in self.calls if self.is_public(call) and (call.ensures or call.requires)]

    def is_public(self, call):
        return (call.owner or call.name) in self.exported and (call.is_public or call.is_of_trait)

    @functools.cached_property
    def records(self):
        found = [specs.records_of(self.name, f"specs/{name}", text) for name, text in self.specs.items()]
        return {record.name: record for group in found for record in group}


class Code:
    """The checkout."""

    def __init__(self, top):
        self.top = pathlib.Path(top)
        self.crates = {}
        for line in (self.top / "crates.txt").read_text().split("\n"):
            name, colon, words = line.split("#")[0].partition(":")
            if colon:
                self.crates[name.split()[0]] = Crate(self.top, name.split()[0], words.split())

    def proved(self):
        """The crates that have functions, lowest first."""
        return [crate for crate in self.crates.values() if not crate.is_tests]

    def needed(self, name):
        """The crates that one stands on, it among them."""
        found, left = set(), [name]
        while left:
            one = left.pop()
            if one not in found:
                found.add(one)
                left += self.crates[one].below(self.crates)
        return found

    def above(self, name):
        """The crates that stand on one directly, lowest first."""
        return [crate.name for crate in self.crates.values() if name in crate.words]

    def level(self, name):
        """How many crates stand below one another under it."""
        below = self.crates[name].below(self.crates)
        return 1 + max((self.level(one) for one in below), default=-1)

    def rows(self):
        """The worked rows: each call of the crate of rows, in the order of its files."""
        return self.crates[ROWS].public_calls

    @functools.cached_property
    def records(self):
        """All records by their names; a name that several crates have, has several."""
        found = {}
        for crate in self.proved():
            for record in crate.records.values():
                found.setdefault(record.name, []).append(record)
        return found

    @functools.cached_property
    def named_calls(self):
        """All calls with a contract, by `crate::function` and `crate::Type::method`."""
        found = {}
        for crate in self.proved():
            for call in crate.calls:
                if call.ensures or call.requires:
                    found.setdefault(f"{crate.name}::{call.title}", []).append(call)
        return found

    def lines_of(self, name):
        """The lines of a crate's sources."""
        return sum(text.count("\n") for text in self.crates[name].source.values())

    def call(self, title):
        return self.named_calls[title][0]

    @functools.cached_property
    def spec_files(self):
        """All files of specs by crate and name."""
        return {(crate.name, name): text for crate in self.proved() for name, text in crate.specs.items()}
