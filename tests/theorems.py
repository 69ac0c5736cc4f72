"""docs/THEOREMS.md names what there is: its paths exist, each name stands in the file that it is said to be in, and no public function is
left out."""

import re

from layout import CRATES, folders

TEXT = CRATES.parent / "docs" / "THEOREMS.md"
TOKEN = re.compile(r"`([^`]+)`")
PATH = re.compile(r"[\w./-]+/[\w./-]+\.(?:antt|rt)")
HEADING = re.compile(r"^## .*?(?:`crates/(\w+)`)?$", re.MULTILINE)
PUBLIC = re.compile(r'^(?:    )?pub (?:extern "C" )?fn (\w+)', re.MULTILINE)
NAME = r"(?<![\w-])%s(?![\w-])"


def sections():
    """The text's sections, each with the folder from which its paths begin."""
    text = TEXT.read_text()
    found = list(HEADING.finditer(text))
    for match, after in zip(found, [*found[1:], None]):
        yield (CRATES / match[1] if match[1] else CRATES), text[match.end() : after and after.start()]


def claims():
    """Each path that a cell of a table names, with the names before it, which should be in that file."""
    for folder, text in sections():
        for cell in re.split(r"[|\n]", text):
            names = []
            for token in TOKEN.findall(cell):
                if PATH.fullmatch(token):
                    base = folder if (folder / token).exists() else CRATES
                    yield base / token, names
                    names = []
                elif re.fullmatch(r"[\w-]+", token):
                    names.append(token)


def stale():
    wrong = []
    for path, names in claims():
        if not path.exists():
            wrong.append(f"there is no {path.relative_to(CRATES)}")
            continue
        text = path.read_text()
        wrong += [f"{path.relative_to(CRATES)} has no {name}" for name in names if not re.search(NAME % re.escape(name), text)]
    return wrong


def libraries():
    """The crates that are libraries."""
    return [name for name in folders() if (CRATES / name / "src" / "lib.rt").exists()]


def left_out():
    named = {(path, name) for path, names in claims() for name in names}
    return [
        f"{path.relative_to(CRATES)}: {name} is public and isn't named with its file"
        for crate in libraries()
        for path in sorted((CRATES / crate / "src").rglob("*.rt"))
        for name in PUBLIC.findall(path.read_text())
        if (path, name) not in named
    ]


TESTS = [
    ("docs/THEOREMS.md: each path exists, and each name stands in the file that it is said to be in", stale),
    ("docs/THEOREMS.md names the statement of every public function", left_out),
]
