"""Checks the words of the pages: how many there are, how long sentences are, and words that aren't to come."""
import re

from checks.pages import Page, sentences

BUDGETS = {
    "README.md": 900,
    "docs/RECIPES.md": 3700,
    "clients/README.md": 1200,
    "docs/SCRIPT.md": 4600,
    "docs/RUNNING.md": 2000,
    "docs/MODEL.md": 4000,
    "docs/FORMAT.md": 4500,
    "docs/PROVED.md": 4800,
    "docs/EVIDENCE.md": 2000,
    "docs/ARCHITECTURE.md": 4000,
    "docs/WORKING.md": 2000,
    "docs/DECISIONS.md": 3000,
    "docs/SPEED.md": 1900,
    "docs/GLOSSARY.md": 900,
}
SUM = 40_000
SHORT = ["README.md", "docs/RECIPES.md", "docs/RUNNING.md"]
LONGEST = 40
DECISIONS = "docs/DECISIONS.md"

# What was, and isn't: git has it. Decisions may say what was rejected.
HISTORY = [
    r"\b(earlier|previous|former|last) (versions? of (this|the (program|page|code|kit|repository))|programs?|kits?|builds?|texts?)\b",
    r"\bbefore (this|that) (change|commit|version)\b",
    r"\b(it|they|this|that|there) used to\b",
    r"\b(no longer|since then|until now|up to now|formerly|nowadays|in the past|in earlier days|of earlier days)\b",
    r"\b(was|were|has been|have been) (tried|changed|replaced|rewritten|moved here|added later)\b",
    r"\b(on|by|of) (another|an older|an earlier) machine\b(?=[^.]*\d)",
    r"\b(now has|now takes|has now|is now a)\b",
    r"\bat first it (was|had|took)\b",
]
# Words of this house for which the field has one, and forms that are hard to read.
HOUSE = [
    r"\bso many\b",
    r"\bfront of\b",
    r"\bnothing is said\b",
    r"\b(is|are|was|were) told\b",
    r"\bbut for\b",
    r"\b(is|are) to be\b",
    r"\bwant of\b",
]
# What belongs to the work and not to the pages: rules of papers, issues, folders of a machine.
FOREIGN = [
    r"(?<![\w`.])[RDTW]\d{1,2}(\.\d+)?(?![\w.])",
    r"\bissue #?\d+\b",
    r"(?<![\w.])/(work|tmp|opt|root)/",
]


def count(text):
    return len(text.split())


def budgets(top):
    """Pages that have more words than they may have, and pages that have none to have."""
    found, total = [], 0
    for name, most in BUDGETS.items():
        if not (top / name).exists():
            found.append(f"{name}:1: it isn't there")
            continue
        words = count((top / name).read_text())
        total += words
        if words > most:
            found.append(f"{name}:1: it has {words:,} words and may have {most:,}")
    if total > SUM:
        found.append(f"docs:1: all pages have {total:,} words and may have {SUM:,}")
    others = {str(path.relative_to(top)) for path in (top / "docs").glob("*.md")} - set(BUDGETS)
    return found + [f"{name}:1: it has no budget" for name in sorted(others)]


def plain(text):
    """A sentence as it is read: code counts as a word."""
    return re.sub(r"`[^`]*`", "code", text)


def long_sentences(page):
    found = []
    for part in page.of("paragraph", "item"):
        for one in sentences(part):
            if count(plain(one)) > LONGEST:
                found.append(f"{page.name}:{part.line}: a sentence of {count(plain(one))} words begins with `{one[:60]}`")
    return found


def places(page, patterns, what):
    """The places in the text of a page where one of some patterns comes; code and links aside."""
    found = []
    for part in page.of("paragraph", "item", "table", "heading"):
        for row, line in enumerate(part.lines):
            text = re.sub(r"`[^`]*`|\]\([^)]*\)", " ", line)
            for pattern in patterns:
                found += [f"{page.name}:{part.line + row}: {what}: `{it[0].strip()}`" for it in re.finditer(pattern, text, re.I)]
    return found


def foreign(page):
    """The places of words that no page may have, code and blocks not aside."""
    found = []
    for number, line in enumerate(page.text.split("\n"), 1):
        for pattern in FOREIGN:
            found += [f"{page.name}:{number}: no page says this: `{it[0].strip()}`" for it in re.finditer(pattern, line)]
    return found


def of_pages(top, names):
    """What is wrong in some pages, whatever they have of words."""
    found = []
    for page in (Page(top, name) for name in names):
        if page.name in SHORT:
            found += long_sentences(page)
        if page.name != DECISIONS:
            found += places(page, HISTORY, "history")
        found += places(page, HOUSE, "a word of this house") + foreign(page)
    return found


def of_made(top):
    """What is wrong in the pages that are made."""
    pages = [Page(top, str(path.relative_to(top))) for path in sorted((top / "docs/made").rglob("*.md"))]
    return [fault for page in pages for fault in foreign(page)]


def check(top, names):
    return budgets(top) + of_pages(top, names)
