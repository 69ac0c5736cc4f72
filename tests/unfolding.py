"""No crate opens the definitions of another: it uses laws about them. Vectors files (*Vectors.antt) may.

An abbreviation is open wherever it is used, with no `unfolding` line, so those that a crate takes from another's definitions are
listed here, each with its reason.
"""

import re

from layout import CRATES, folders

USE = re.compile(
    r"\b(?P<marks>(?:unfoldable )?(?:pub )?)use\s+(?P<path>[^\s{};]+?)"
    r"(?:\.\{(?P<names>[^}]*)\}|\s+as\s+(?P<alias>[^\s;]+))?(?=[\s;]|$)"
)
# an `unfolding` line with its further lines, which are indented more; `unfold a b in`; and what a function's tactic opens
LINE = re.compile(r"^( *)unfolding\b(?P<names>.*(?:\n\1 +.*)*)", re.MULTILINE)
TERM = re.compile(r"(?<![\w-])unfold\s(?P<names>.*?)\sin\b", re.DOTALL)
TACTIC = re.compile(r"#!?\[tactic\([^\]]*?\bunfolding\((?P<names>[^)]*)\)")
ABBREVIATION = re.compile(r"^ *(?:unfoldable )?abbrev pub (?P<name>\S+)", re.MULTILINE)

# Each as crate.module.name, or crate.module for all of a module's, with what it is open for.
OPEN = {
    "der.meaning.Bounds": "document 01's bounds, which arithmetic compares with and counts down from",
    "der.meaning.Refusal": "document 01's numbers",
    "der.steps.Refusal.refusal_number": "document 01's numbers, of the code's refusals",
    "editions.meaning.Edition": "document 01's numbers",
    "editions.meaning.TwoBatches": "the numbers that say whose refusal or part it is",
    "crmf.meaning.Kinds": "document 01's numbers",
    "crmf.meaning.Rows.width": "document 01's number, which arithmetic multiplies by",
    "crmf.meaning.Messages.proofs": "document 01's list of identifiers",
    "crmf.meaning.LeftOut.row_content": "a slice's name: the content octets of a row's element",
    "crmf.meaning.Messages.batch_header": "a number's name: the length of a header, which arithmetic adds and subtracts",
    "crmf.meaning.Rows.moved_row": "a record's name: its fields are read",
    "crmf.meaning.Rows.renumbered_row": "a record's name: its fields are read",
    "der.meaning.Fault.First": "a type's name: the relation of the first fault",
    "der.meaning.Fault.Any": "a type's name: the relation of any fault",
    "crmf.steps.explain.Walk.every": "the test that is always true",
    "crmf.steps.explain.Tally": "the names of numbers: what the code's tally notes, in numbers",
    "crmf.steps.explain.Walk.walked_of": "a walk's name: what the code's result answers",
    "crmf.meaning.Fields.StandsAt": "a type's name: an equation",
    "crmf.meaning.Pieces.piece_of": "a record's name: its fields are read",
    "editions.steps.Reading.accepted": "a record's name: its fields are read",
    "editions.steps.Reading.refusal": "a record's name: its fields are read",
    "editions.steps.Results": "the names of numbers and records: what the code's results and enums are in document 01's numbers",
    "compare.steps.Judging.part_answer_of": "a record's name: what the code's result answers, in document 01's numbers",
    "der.steps.Span.found_span": "a test's name: a span of no octets is none",
    "der.steps.Nest.nest_of": "an answer told in document 01's numbers, case by case",
    "verdict.steps.Results.judge_answer_of": "an answer told in document 01's numbers, case by case",
    "verdict.steps.Results.search_answer_of": "an answer told in document 01's numbers, case by case",
    "verdict.meaning.Verdict.misplaced_dh_mac": "document 01's number, the largest verdict",
    "cases.Reading.largest": "the largest `usize`, which arithmetic compares with and counts down from",
}


def crate_of(path, brought):
    """The crate of this repository that a path leads into, if any; `brought` has the crate of each name that the file brings."""
    if "::" in path:
        crate = path.split("::")[0]
    else:
        head, *inside = path.split(".")
        crate = inside[0] if head == "Rattle" and inside else brought.get(head)
    return crate if crate in folders() else None


def imports(text):
    """The names that a file brings from crates of this repository, each with its crate."""
    brought = {}
    for _ in range(2):  # a path may begin with a name that a later line brings
        for use in USE.finditer(text):
            crate = crate_of(use["path"], brought)
            if not crate:
                continue
            names = [use["alias"] or use["path"]] if use["names"] is None else use["names"].split(",")
            for name in names:
                brought[re.split(r"\s+as\s+|\.", name.strip())[-1]] = crate
    return brought


def without_comments(path):
    return re.sub(r"--.*" if path.suffix == ".antt" else r"//.*", "", path.read_text())


def opened_in(path):
    """What a file opens of other crates."""
    own = path.relative_to(CRATES).parts[0]
    text = without_comments(path)
    brought = imports(text)
    for use in USE.finditer(text):
        if use["marks"].startswith("unfoldable") and crate_of(use["path"], brought) not in (None, own):
            yield f"passes on the right to unfold {use['path']}"
    for match in [*LINE.finditer(text), *TERM.finditer(text), *TACTIC.finditer(text)]:
        for name in match["names"].replace(",", " ").split():
            crate = crate_of(name, brought)
            if crate not in (None, own):
                yield f"opens {name} of the crate {crate}"


def sources():
    """Every file of a crate that isn't one of vectors."""
    files = sorted(path for part in ("src", "specs", "proofs") for path in CRATES.glob(f"*/{part}/**/*") if path.suffix in (".antt", ".rt"))
    return [path for path in files if not path.name.endswith("Vectors.antt")]


def foreign():
    return [f"{path.relative_to(CRATES)} {what}" for path in sources() for what in opened_in(path)]


def abbreviations():
    """The abbreviations among the definitions of every crate, by module (crate.module)."""
    found = {}
    for path in sorted(CRATES.glob("*/specs/**/*.antt")):
        crate, _, *parts = path.relative_to(CRATES).with_suffix("").parts
        found[".".join([crate, *parts])] = set(ABBREVIATION.findall(path.read_text()))
    return found


def taken_in(path, found):
    """The abbreviations that a file takes from the definitions of other crates, whether it brings them or their module."""
    own = path.relative_to(CRATES).parts[0]
    text = without_comments(path)
    brought = {}
    for use in USE.finditer(text):
        module = use["path"].removeprefix("Rattle.").replace(".specs.", ".", 1)
        if module in found and use["names"] is None:
            brought[use["alias"] or use["path"].split(".")[-1]] = module
        for name in (use["names"] or "").split(","):
            name = re.split(r"\s+as\s+", name.strip())[0]
            if not module.startswith(own + ".") and name in found.get(module, ()):
                yield f"{module}.{name}"
    for alias, module in [*brought.items(), *((f"Rattle.{m.replace('.', '.specs.', 1)}", m) for m in found)]:
        if module.startswith(own + ".") or alias not in text:
            continue
        for name in re.findall(rf"(?<![\w.]){re.escape(alias)}\.([^\s(){{}},;]+)", text):
            if name in found[module]:
                yield f"{module}.{name}"


def unlisted():
    """Abbreviations that are taken from another crate and not listed, and those that are listed and not taken."""
    found = abbreviations()
    taken = {}
    for path in sources():
        for name in taken_in(path, found):
            taken.setdefault(name, path.relative_to(CRATES))
    return [
        f"{path} takes the abbreviation {name}, which is open there"
        for name, path in taken.items()
        if name not in OPEN and name.rpartition(".")[0] not in OPEN
    ] + [
        f"{entry} is listed as open for other crates, and none takes it"
        for entry in OPEN
        if not any(name == entry or name.rpartition(".")[0] == entry for name in taken)
    ]


def steps_in_meaning():
    """Files of specs/meaning that take something from a steps folder or a record of the code."""
    return [
        f"{path.relative_to(CRATES)} takes something from the code's steps"
        for path in sorted(CRATES.glob("*/specs/meaning/*.antt"))
        if re.search(r"^(?:pub )?use Rattle\.\w+\.specs\.(?:steps|declared)\.", path.read_text(), re.MULTILINE)
    ]


TESTS = [
    ("no crate unfolds a definition of another", foreign),
    ("every abbreviation that a crate takes from another is listed with its reason", unlisted),
    ("what a reader has to believe takes nothing from the code's steps", steps_in_meaning),
]
