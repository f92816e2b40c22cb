"""Follows the definitions on which the statement of a call stands: those that its contract names, and all that these name in turn."""
import functools
import re

USE = re.compile(r"^ *(?:ghost )?(?:pub )?use Rattle\.(clfs\w*)\.specs\.([\w.]+?)(?:\.\{([^}]*)\}| as (\w+))?;?$")
HEAD = re.compile(r"((?:abbrev |unfoldable |pub |record |data |axiom )*)(\S+)( :)?")
WORD = re.compile(r"[A-Za-z_]\w*(?:-\w+)*")


class Uses:
    """What the `use` lines of a text bring: names, each with its file, and short names of files."""

    def __init__(self, lines):
        self.names, self.short = {}, {}
        for line in lines:
            use = USE.match(line)
            if use and not use[2].startswith("declared"):
                key = use[1], f"{use[2].replace('.', '/')}.antt"
                self.names.update((name.strip(), key) for name in (use[3] or "").split(",") if name.strip())
                if use[4]:
                    self.short[use[4]] = key

    def met(self, text):
        """The names of a text that were brought, each with its file."""
        words = set(WORD.findall(text))
        for name, key in self.names.items():
            if name in words or ("◌" in name and name.strip("◌") in text):
                yield key, name
        for short, key in self.short.items():
            yield from ((key, name) for name in re.findall(rf"\b{short}\.(\w+)", text))


class File:
    """A file of specs: its definitions, each with the lines that say something."""

    def __init__(self, text):
        lines = text.split("\n")
        self.uses, self.bodies, self.of = Uses(lines), [], {}
        for line in lines:
            if line.strip() and not re.match(r"\s*--|(pub )?use |infix", line):
                self.take(line)

    def take(self, line):
        head = HEAD.match(line)
        if line[0] in " }":
            self.bodies[-1].append(line)
            inner = re.match(r" +(?:abbrev |unfoldable |pub |record )*([A-Za-z]\S*)(?: \(.*\))* :", line)
            if inner and self.bodies[-1][0].startswith(("module", "pub data")):
                self.of.setdefault(inner[1], len(self.bodies) - 1)
        elif head[1] or head[3] or head[2] == "module":
            self.of.setdefault(head[2], len(self.bodies))
            self.bodies.append([line])
        else:
            self.bodies[self.of.get(head[2], len(self.bodies) - 1)].append(line)

    def own(self, text):
        """The definitions of the file that a text names."""
        words = set(WORD.findall(text))
        return [name for name in self.of if name in words or ("◌" in name and name.strip("◌") in text)]


class Closure:
    """All definitions of the files of specs of the checkout."""

    def __init__(self, code):
        self.code = code

    @functools.lru_cache(None)
    def file(self, key):
        return File(self.code.spec_files[key])

    def of_call(self, call):
        """The files on which a call's contract stands, each with how many lines of it."""
        source = self.code.crates[call.crate].source[call.path.removeprefix("src/")]
        contract = " ".join(clause.text for clause in [*call.requires, *call.ensures])
        left = list(Uses(source.split("\n")).met(contract))
        seen = set()
        while left:
            key, name = left.pop()
            if key not in self.code.spec_files:
                continue
            file = self.file(key)
            if name in file.of:
                left += self.meet(key, file, file.of[name], seen)
            elif name in file.uses.names:
                left.append((file.uses.names[name], name))
        found = {}
        for key, at in seen:
            found[key] = found.get(key, 0) + len(self.file(key).bodies[at])
        return dict(sorted(found.items()))

    @staticmethod
    def meet(key, file, at, seen):
        """Takes a definition, if it is new. What it names."""
        if (key, at) in seen:
            return []
        seen.add((key, at))
        text = "\n".join(file.bodies[at])
        return [*file.uses.met(text), *((key, name) for name in file.own(text))]
