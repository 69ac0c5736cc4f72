"""The must-fail edits: every wrong program is refused by its own proof, as the edits and what `rt check` says of each have it.

An edit is one wrong program, or several that don't touch each other, which saves a check of the crate for each. Each begins with the
comment that says what is wrong with it. A line `refused: proofs/..`, with a declaration's name after it if the file alone says too little,
names the proof that must refuse it; `refused: fn ..` names a function that Rattle proves by itself.

A caller relies on a function's contract alone, so a changed body breaks the proof of its own function, or of the cycle that it is in,
and no other. A constant reaches the functions that use it. Whatever reaches further, as a definition or a contract, may break any proof,
and a right program beside it could look refused: so it is changed in an edit of its own.
"""

import concurrent.futures
import re
import typing

import trying
from layout import CRATES

# Errors that show nothing of a fact: a file no longer fits, as when a name is gone, or it waits for what was refused elsewhere.
UNFIT = ("that can be named from here", "is not in scope", "has no field", "has no `", "is no name", "was not admitted",
    "so this cannot be checked")

# An error of a proof: the file in the crate, the declaration, and what is said, with the lines below that are indented.
ERROR = re.compile(r"^(?:\./)?(proofs/\S+?):[\d:]+: error: `([^`]*)`: (.*(?:\n .*)*)", re.MULTILINE)

# The files of a function's proof.
FILES = ("Answers.antt", "Invariants.antt")

# The items of a source file, each from its first line to its last; `rt fmt` begins them, and nothing else, at the margin, and the functions
# of an `impl` four characters after it. A function that a trait declares has no body, and is none of them.
FUNCTION = re.compile(
    r"^(?P<margin>(?:    )?)(?:#\[cycle\((?P<cycle>\w+)\)\]\n *)?"
    r'(?:pub(?:\(crate\))? )?(?:extern "C" )?fn (?P<name>\w+)(?:<[^{}]*?>)?'
    r"(?!\([^{}]*\)[^{};\n]*(?:\n +(?:requires|ensures|decreases) [^\n]*)*;$)\(.*?^(?P=margin)}$",
    re.MULTILINE | re.DOTALL,
)
IMPL = re.compile(
    r"^impl(?:<[^{}]*?>)? (?:(?P<trait>[\w:]+)(?P<given><[^{}]*?>)? for )?(?P<type>\w+)\b[^{}]*\{$.*?^}$", re.MULTILINE | re.DOTALL
)
CONSTANT = re.compile(r"^(?:pub(?:\(crate\))? )?const (\w+): .*?;$", re.MULTILINE | re.DOTALL)
TYPE = re.compile(r"^(?:pub(?:\(crate\))? )?(?:struct|enum) \w+.*?(?:^}|;)$", re.MULTILINE | re.DOTALL)


class Change(typing.NamedTuple):
    """A change of a file: a text that stands in it once, after the changes before it, and what comes in its place."""

    file: str
    old: str
    new: str


class Program(typing.NamedTuple):
    """A wrong program: its edit (crate/label), its comment, the proofs that must refuse it, and what it changes."""

    edit: str
    says: str
    proofs: list
    changes: list

    @property
    def crate(self):
        return CRATES / self.edit.partition("/")[0]


def wrong_programs(edit):
    """The wrong programs of an edit: a comment after anything else begins one."""
    programs = []
    file = old = above = ""
    for line in edit.read_text().splitlines():
        if line.startswith("#") and not above.startswith("#"):
            programs.append(Program(f"{edit.parent.parent.name}/{edit.stem}", line.removeprefix("#").strip(), [], []))
        elif line.startswith("refused: "):
            programs[-1].proofs.append(line.removeprefix("refused: "))
        elif line.startswith("file: "):
            file = line.removeprefix("file: ")
        elif line.startswith("old: "):
            old = line.removeprefix("old: ")
        elif line.startswith("new:"):
            programs[-1].changes.append(Change(file, old, line.removeprefix("new:").removeprefix(" ")))
        above = line
    return programs


def edits():
    """Every edit as its wrong programs."""
    return [wrong_programs(edit) for edit in sorted(CRATES.glob("*/must-fail/*.edit"))]


def facts(log):
    """The errors in a log that are for a fact: file, declaration and words of each."""
    return [
        (file, declared, words)
        for file, declared, words in ERROR.findall(log)
        if not any(unfit in words for unfit in UNFIT)
    ]


def parted(proof):
    """The proof that a line `refused:` names, without the declaration, and the declaration, if there is one."""
    if proof.startswith("fn "):
        return proof, ""
    file, _, declared = proof.partition(" ")
    return file, declared


def refusal(log, proof):
    """What a proof says to refuse a wrong program for a fact, or None."""
    if proof.startswith("fn "):
        said = re.search(rf"^{re.escape(proof)}: no proof: (.*`search` did not prove .*`(?:\w+-)?returns[^`]*`.*)", log, re.MULTILINE)
        return said and said[1]
    file, declared = parted(proof)
    return next((f"`{by}`: {words}" for where, by, words in facts(log) if where == file and declared in ("", by)), None)


def tried(programs):
    """The wrong programs of an edit that no proof which they name refuses, each with that proof, if all are tried at once. A function that
    Rattle proves by itself waits for what it calls: it is looked at again with its own wrong program alone."""
    log = trying.log(programs[0].crate, [change for program in programs for change in program.changes])
    missed = [(program, proof) for program in programs for proof in program.proofs if not refusal(log, proof)]
    if len(programs) == 1:
        return missed
    return [(program, proof) for program, proof in missed if not refusal(trying.log(program.crate, program.changes), proof)]


def unrefused():
    every = edits()
    fit = [edit for edit in every if not any(ill_made(program) for program in edit)]
    found = [f"{edit[0].edit}: not tried, since it doesn't fit" for edit in every if edit not in fit]
    found += [f"{program.edit}: no proof is named for: {program.says}" for edit in every for program in edit if not program.proofs]
    for crate in {edit[0].crate for edit in fit}:
        trying.prepare(crate)
    with concurrent.futures.ThreadPoolExecutor(trying.lanes()) as pool:
        for missed in pool.map(tried, fit):
            found += [f"{program.edit}: not refused by {proof}: {program.says}" for program, proof in missed]
    return found


def modules(crate, source):
    """The names of a source file's module, from the crate's root down."""
    parts = source.relative_to(crate / "src").with_suffix("").parts
    return [] if parts in (("lib",), ("main",)) else list(parts)


def around(crate, source, function):
    """The names above a function of a source file: its module's, and its type's, wherever the `impl` stands."""
    for item in IMPL.finditer(function.string):
        if not item.start() <= function.start() < item.end():
            continue
        if item["trait"]:
            given = "".join(word[0].upper() + word[1:] for word in re.findall(r"\w+", (item["given"] or "").replace("[", "Array ")))
            return [*modules(crate, source), item["type"] + item["trait"].rpartition("::")[2] + given]
        declared = re.compile(rf"^(?:pub(?:\(crate\))? )?(?:struct|enum) {item['type']}\b", re.MULTILINE)
        files = (path for path in sorted((crate / "src").rglob("*.rt")) if declared.search(path.read_text()))
        return [*modules(crate, next(files, source)), item["type"]]
    return modules(crate, source)


def folder(crate, above, function, cycle):
    """Where the proof of a function stands, if it has any file: its folder, or that of its cycle."""
    whole = "/".join(["proofs", *above])
    cyclic = f"{whole}/+{cycle or function}"
    return cyclic if cycle or (crate / cyclic).exists() else f"{whole}/{function}"


def proof_of(crate, source, item):
    """Where the proof of a function of a source file stands."""
    return folder(crate, around(crate, source, item), item["name"], item["cycle"])


def place(crate, proof):
    """Where the proof stands that a line `refused:` names: a function's folder, or a file of lemmas."""
    if proof.startswith("fn "):
        *above, function = proof.split("::")[1:]
        every = ((source, item) for source in sorted((crate / "src").rglob("*.rt")) for item in FUNCTION.finditer(source.read_text()))
        own = (item for source, item in every if item["name"] == function and around(crate, source, item) == above)
        return folder(crate, above, function, next(own)["cycle"])
    file = parted(proof)[0]
    where, _, name = file.rpartition("/")
    return where if name in FILES else file


def users(crate, constant):
    """The proofs of the functions that name a constant, or name one that is made of it; None if a type does."""
    found = set()
    for source in sorted((crate / "src").rglob("*.rt")):
        text = source.read_text()
        named = re.compile(rf"\b{constant}\b")
        if any(named.search(item[0]) for item in TYPE.finditer(text)):
            return None
        found |= {proof_of(crate, source, item) for item in FUNCTION.finditer(text) if named.search(item[0])}
        for other in (item[1] for item in CONSTANT.finditer(text) if named.search(item[0].partition("=")[2])):
            more = users(crate, other)
            if more is None:
                return None
            found |= more
    return found


def body(function):
    """Where the body of a function begins: after the contract, if it has one."""
    margin = function["margin"]
    contract = re.search(rf"^{margin}    (?:requires|ensures|decreases) ", function[0], re.MULTILINE)
    return function.start() + re.search(rf"^{margin}\{{$" if contract else r"\{$", function[0], re.MULTILINE).end()


def reach(crate, change, text):
    """The proofs that a change of this text can break; None if any could be."""
    where, _, name = change.file.rpartition("/")
    if where.startswith("proofs/") and name in FILES:
        return {where}
    if not change.file.startswith("src/"):
        return None
    at = text.index(change.old)
    for function in FUNCTION.finditer(text):
        if body(function) <= at < function.end():
            return {proof_of(crate, crate / change.file, function)}
    for constant in CONSTANT.finditer(text):
        if constant.start() <= at < constant.end():
            return users(crate, constant[1])
    return None


def steps(program):
    """Each change of a wrong program, with the text that it is made in."""
    texts = {}
    for change in program.changes:
        path = program.crate / change.file
        text = texts.get(change.file) or (path.read_text() if path.exists() else "")
        yield change, text
        texts[change.file] = text.replace(change.old, change.new)


def touched(program):
    """The proofs that a wrong program can break; None if any could be."""
    found = set()
    for change, text in steps(program):
        reached = reach(program.crate, change, text)
        if reached is None:
            return None
        found |= reached
    return found


def ill_made(program):
    """What is wrong with a wrong program before any proof is looked at."""
    found = []
    for change, text in steps(program):
        count = text.count(change.old)
        if count != 1:
            found.append(f"{program.edit}: {change.file} has {count} times {change.old!r}")
    if all(change.file.startswith("proofs/") for change in program.changes):
        found.append(f"{program.edit}: changes no code and no definition: {program.says}")
    return found


def unseen(program, own):
    """The proofs that a wrong program names and can't break."""
    named = [] if own is None else [proof for proof in program.proofs if place(program.crate, proof) not in own]
    return [f"{program.edit}: {proof} doesn't see this: {program.says}" for proof in named]


def shared(programs, own):
    """What the wrong programs of one edit touch together, or any of them everywhere."""
    found = []
    for n, program in enumerate(programs):
        if own[n] is None:
            found.append(f"{program.edit}: beside others, and it reaches further than the bodies of functions: {program.says}")
            continue
        for proof in sorted(own[n] & set().union(*(other for other in own[:n] if other))):
            found.append(f"{program.edit}: {proof} sees this and an earlier one: {program.says}")
    return found


def entangled():
    found = []
    for programs in edits():
        wrong = [fault for program in programs for fault in ill_made(program)]
        if not wrong:
            own = [touched(program) for program in programs]
            wrong = [fault for program, reached in zip(programs, own) for fault in unseen(program, reached)]
            wrong += shared(programs, own) if len(programs) > 1 else []
        found += wrong
    return found


TESTS = [
    ("no two wrong programs of a must-fail edit touch one proof", entangled),
    ("every wrong program is refused by its own proof, for a fact and not for a missing name", unrefused),
]
