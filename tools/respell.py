#!/usr/bin/env python3
"""Spells the repository's own definitions and lemmas as today's Rattle does: words in snake case, types and facts in camel case.

usage: tools/respell.py [--check] [FOLDER]

FOLDER is a checkout whose files port.py has turned; without it, the one that this script is in. It goes over the .antt and .rt files of crates/, the
must-fail edits and the code spans of the pages. A name turns if one of this repository's .antt files
declares it: a capital inside a word and a dash become an underscore, but a dash beside a capitalised part stays, as it joins a fact to a name.
A name that a file imports from a library, or that Rattle makes, stays. --check writes nothing and lists the names that fall together.
"""
import collections
import os
import re
import sys

ROOT = os.path.dirname(os.path.dirname(os.path.realpath(__file__)))
TOKEN = re.compile(r'[^\s(){}.;,@"«»`]+')
DECLARED = re.compile(r"^[ \t]*(?:(?:abbrev|unfoldable|pub|data|record) )*((?:[^\s(){}.;,@\"«»:]+ )+): ", re.M)
OPENING = re.compile(r"^[ \t]*(?:pub )?(?:data|record) (\S+)", re.M)
NEED = re.compile(r"^[ \t]*(\S+) : [\w'-]*\.Need-", re.M)
IMPORT = re.compile(r"\buse ([^\s;{]+?)(?:\.\{([^}]*)\}|(?: as \S+)?[;\s])")
LOCAL = "Rattle."
# Names that would fall together with another one otherwise, and what they are spelled as. Where a definition and a lemma, whose name has a dash, would
# fall together, the lemma gets `_lem`.
APART = {
    "allKnown": "are_all_known",
    "goesOn": "walk_goes_on",
    "isTrue": "is_true_octet",
    "issuerUID": "issuer_uid",
    "subjectUID": "subject_uid",
    "noRoom": "no_room_number",
    "tooLong": "too_long_number",
    "unknownEdition": "unknown_edition_number",
    "noRow": "absent_row",
    "readAt": "reading_at",
    "sameNumber": "is_same_number",
    "samePlace": "is_same_place",
}
# names of the source, which keep their spelling
KEPT = set()


def new_spelling(name):
    if name in APART:
        return APART[name]
    parts = name.split("-")
    turned = []
    for part in parts:
        if part[:1].isupper():
            turned.append(part)
        else:
            turned.append(re.sub(r"(?<=[a-z0-9₀-₉])([A-Z])", lambda m: "_" + m[1].lower(), part))
    out = turned[0]
    for before, part in zip(turned, turned[1:]):
        out += ("-" if before[:1].isupper() or part[:1].isupper() else "_") + part
    return out


def files(*endings):
    for folder, dirs, names in os.walk(os.path.join(ROOT, "crates")):
        dirs[:] = sorted(d for d in dirs if d != "out")
        for name in sorted(names):
            if name.endswith(endings):
                yield os.path.join(folder, name)


def read(path):
    with open(path, encoding="utf-8") as f:
        return f.read()


def own_crates():
    return set(os.listdir(os.path.join(ROOT, "crates")))


def declared():
    """The names that the .antt files declare, each with the files that do."""
    found = collections.defaultdict(set)
    for path in files(".antt"):
        text = read(path)
        needs = set(NEED.findall(text)) if path.endswith("Proof.antt") else set()
        for line in DECLARED.findall(text):
            for name in line.split():
                if name not in needs:
                    found[name].add(path)
        for name in OPENING.findall(text):
            found[name].add(path)
    return found


def from_libraries():
    """The names that some file imports from a library."""
    found = set()
    own = own_crates()
    for path in files(".antt", ".rt"):
        for module, items in IMPORT.findall(read(path)):
            parts = module.split(".")
            if parts[0] == "Rattle" and len(parts) > 1 and parts[1] in own:
                continue
            for item in (items or "").split(","):
                found.add(item.split(" as ")[0].strip())
    return found


def spellings():
    taken = from_libraries()
    rows = {}
    names = declared()
    for name in names:
        turned = new_spelling(name)
        if turned != name and (name not in taken or name in APART) and name not in KEPT:
            rows[name] = turned
            if name.startswith("◌") and name.endswith("◌"):
                rows[name.strip("◌")] = turned.strip("◌")
    definitions = {new for old, new in rows.items() if "-" not in old}
    for old, new in rows.items():
        if "-" in old and new in definitions:
            rows[old] = new + "_lem"
    return rows


def turn_code(text, rows, comment):
    """Turns each name of the code; of a comment, the code spans."""
    out = []
    for line in text.split("\n"):
        cut = line.find(comment)
        while cut > 0 and comment == "--" and line[cut - 1] not in " \t":
            cut = line.find(comment, cut + 2)
        code, said = (line, "") if cut < 0 else (line[:cut], line[cut:])
        code = "".join(part if i % 2 else TOKEN.sub(lambda m: rows.get(m[0], m[0]), part) for i, part in enumerate(re.split(r'("[^"]*")', code)))
        out.append(code + turn_spans(said, rows))
    return "\n".join(out)


def turn_spans(text, rows):
    return re.sub(r"`[^`\n]+`", lambda m: TOKEN.sub(lambda n: rows.get(n[0], n[0]), m[0]), text)


def main(argv):
    global ROOT
    for word in argv:
        if not word.startswith("-"):
            ROOT = os.path.realpath(word)
    rows = spellings()
    if "--check" in argv:
        report(rows)
        return 0
    for path in files(".antt"):
        put(path, turn_code(read(path), rows, "--"))
    for path in files(".rt"):
        put(path, turn_code(read(path), rows, "//"))
    for path in files(".edit"):
        put(path, turn_edit(read(path), rows))
    for path in pages():
        put(path, turn_spans(read(path), rows))
    return 0


def turn_edit(text, rows):
    return "\n".join(turn_code(line, rows, "\0") if line.startswith(("old:", "new:", "refused:")) else line for line in text.split("\n"))


def pages():
    for name in sorted(os.listdir(ROOT)):
        if name.endswith(".md"):
            yield os.path.join(ROOT, name)
    for folder, _, names in os.walk(os.path.join(ROOT, "docs")):
        for name in sorted(names):
            if name.endswith(".md") and not name.startswith("PORT"):
                yield os.path.join(folder, name)


def put(path, text):
    if text != read(path):
        with open(path, "w", encoding="utf-8") as f:
            f.write(text)


def report(rows):
    by_new = collections.defaultdict(list)
    for old, new in rows.items():
        by_new[new].append(old)
    print(len(rows), "names turn")
    for new, olds in sorted(by_new.items()):
        if len(olds) > 1:
            print("together:", new, olds)
    for path in files(".antt", ".rt"):
        words = set(TOKEN.findall(read(path)))
        for old in words & rows.keys():
            if rows[old] in words:
                print("met:", os.path.relpath(path, ROOT), old, rows[old])


if __name__ == "__main__":
    raise SystemExit(main(sys.argv[1:]))
