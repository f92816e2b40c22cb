"""Checks that links, names of sections and names in backticks lead to something."""
import functools
import re

from checks.pages import Page, names_in_backticks

FOLDERS = ("crates", "clients", "docs", "start", "examples", "install", "include", ".ci")
PARTS = ("crates", "clients", "start", "examples", "install", "include", ".ci", "docs/checks")
SUFFIXES = {".rt", ".antt", ".py", ".c", ".h", ".rs", ".toml", ".txt", ".js", ".css", ".html", ".md", ".edit", ".cmake", ".in", ".1", ".bash", ""}
# Names of systems, languages and tools, which stand in no file here.
OUTSIDE = {"posix_fadvise", "copy_file_range", "ru_maxrss", "x86_64", "O_NONBLOCK", "O_EXCL"}
LOOKS_LIKE_CODE = re.compile(r"\w+(?:::\w+)+|\w*[a-z]\w*_\w+|_?[A-Z]+_[A-Z_]+|[A-Z][a-z0-9]+(?:[A-Z][a-z0-9]*)+")


def slug(heading):
    """The anchor that a heading gets."""
    text = re.sub(r"`|\*\*|\]\([^)]*\)|\[", "", heading).strip().lower()
    return re.sub(r"\s", "-", re.sub(r"[^\w\s-]", "", text))


@functools.lru_cache(None)
def headings(path):
    lines, inside = [], False
    for line in path.read_text().split("\n"):
        inside ^= line.strip().startswith("```")
        if line.startswith("#") and not inside:
            lines.append(line.lstrip("#").strip())
    return lines


@functools.lru_cache(None)
def vocabulary(top):
    """All words of the sources, the clients and the scripts, and the names of their files."""
    found = set(OUTSIDE)
    for name in ("clfs", "test", "crates.txt", "HANDLES"):
        found.update(re.findall(r"\w+", (top / name).read_text()) if (top / name).exists() else [])
    for part in PARTS:
        for path in (top / part).rglob("*"):
            if path.is_file() and "out" not in path.parts and "target" not in path.parts and path.suffix in SUFFIXES:
                found.update(re.findall(r"\w+", path.stem))
                found.update(re.findall(r"\w+", path.read_text(errors="replace")))
    return found


def links(page):
    """Links to a file or a heading that isn't there."""
    found = []
    for part in page.of("paragraph", "item", "table", "heading"):
        for row, line in enumerate(part.lines):
            for target in re.findall(r"\]\(([^)\s]+)\)", line):
                if not re.match(r"[a-z]+:", target) and not leads_somewhere(page, target):
                    found.append(f"{page.name}:{part.line + row}: the link to `{target}` leads nowhere")
    return found


def leads_somewhere(page, target):
    path, _, anchor = target.partition("#")
    file = (page.top / page.name).parent / path if path else page.top / page.name
    if not file.exists():
        return False
    return not anchor or anchor in [slug(one) for one in headings(file.resolve())]


def section_names(page):
    """Names of sections in quotation marks that are no heading: behind a link those of its page, alone in parentheses those of this one."""
    found = []
    for part in page.prose():
        text = re.sub(r"`[^`]*`", "`", part.text)
        for it in re.finditer(r'\[[^\]]*\]\(([^)#\s]+\.md)\),?\s+"([^"]+)"', text):
            file = (page.top / page.name).parent / it[1]
            if file.exists() and it[2] not in headings(file.resolve()):
                found.append(f"{page.name}:{part.line}: {it[1]} has no section `{it[2]}`")
        for it in re.finditer(r'\("([A-Z][^"]+)"\)', text):
            if it[1] not in page.headings():
                found.append(f"{page.name}:{part.line}: this page has no section `{it[1]}`")
    return found


def names(page):
    """Names in backticks that look like code and stand nowhere, and paths to nothing."""
    found, known = [], vocabulary(page.top)
    for part in page.of("paragraph", "item", "table", "heading"):
        for row, line in enumerate(part.lines):
            for text in names_in_backticks(line):
                unknown = [word for word in LOOKS_LIKE_CODE.findall(text) if not set(word.split("::")) <= known]
                if is_path(text) and not any((folder / text).exists() for folder in (page.top, page.top / "docs", (page.top / page.name).parent)):
                    unknown = [text]
                found += [f"{page.name}:{part.line + row}: `{word}` stands nowhere in the sources" for word in unknown]
    return found


def is_path(text):
    return re.fullmatch(r"[\w./-]+", text) is not None and text.split("/")[0] in FOLDERS and "/" in text


def check(top, names_of_pages):
    found = []
    for page in (Page(top, name) for name in names_of_pages):
        found += links(page) + section_names(page) + names(page)
    return found
