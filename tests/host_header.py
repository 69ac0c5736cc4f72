"""The header and the archive: names, numbers, types, symbols and stack."""

import functools
import re

import corpus
import host
import paper

MEASURED = 200  # inputs on which the stack is measured; the longest, the deepest and those with the most rows are among them

# What the header's examples leave to the caller, with document 01's S and a version of it; and what they show then
CALLER = """
static const uint8_t smallest[] = {0x30, 0x09, 0x30, 0x07, 0x30, 0x05, 0x02, 0x01, 0x00, 0x30, 0x00};
static const uint8_t changed[] = {0x30, 0x09, 0x30, 0x07, 0x30, 0x05, 0x02, 0x01, 0x01, 0x30, 0x00};
const uint8_t *bytes = smallest, *first = smallest, *second = changed;
size_t length = sizeof smallest, first_length = sizeof smallest, second_length = sizeof changed;

void show(size_t what, const uint8_t *part, size_t part_length)
{
    printf("%zu:", what);
    for (size_t i = 0; i < part_length; i++)
        printf(" %02X", part[i]);
    putchar('\\n');
}
"""
SHOWN = ["1: 30 07 30 05 02 01 00 30 00", "2: 30 05 02 01 00 30 00", "3: 02 01 00 30 00", "4: 00", "5:", "3: 02 01 00"]

# The header's structs, with their members in order: each is a number
STRUCTS = {
    "phagundro_answer": ["number", "place", "count"],
    "phagundro_verdict_answer": ["number", "place", "verdict", "from", "length"],
    "phagundro_duplicate_answer": ["number", "place", "found", "earlier", "later"],
    "phagundro_pair_answer": ["number", "place", "file", "count"],
    "phagundro_part": ["number", "place", "file", "from", "length"],
}

# The header's calls, with what each answers and takes
CALLS = {
    "phagundro_accept": ("size_t", "size_t, const uint8_t *, size_t"),
    "phagundro_read": ("phagundro_answer", "size_t, const uint8_t *, size_t, size_t *, size_t"),
    "phagundro_moment": ("int64_t", "const uint8_t *, size_t"),
    "phagundro_write": ("phagundro_answer", "size_t, const size_t *, size_t, const uint8_t *, size_t, uint8_t *, size_t"),
    "phagundro_verdict": ("phagundro_verdict_answer", "size_t, const uint8_t *, size_t, size_t"),
    "phagundro_verdict_number": ("size_t", "size_t, const uint8_t *, size_t, size_t"),
    "phagundro_duplicates": ("phagundro_duplicate_answer", "size_t, const uint8_t *, size_t"),
    "phagundro_join": ("phagundro_pair_answer", "size_t, const uint8_t *, size_t, const uint8_t *, size_t, uint8_t *, size_t"),
    "phagundro_cut": ("phagundro_answer", "size_t, const uint8_t *, size_t, size_t, uint8_t *, size_t"),
    "phagundro_compare": ("phagundro_pair_answer", "size_t, const uint8_t *, size_t, const uint8_t *, size_t, int64_t *, size_t"),
    "phagundro_compare_part": ("phagundro_part", "size_t, const uint8_t *, size_t, const uint8_t *, size_t, size_t"),
}


def numbers():
    """The header's names of the papers' numbers, with the numbers."""
    found = {f"PHAGUNDRO_{answer.name}": answer for answer in paper.Answer}
    found |= {f"PHAGUNDRO_KIND_{kind.name}": kind for kind in paper.Kind}
    found |= {f"PHAGUNDRO_VERDICT_{verdict.name}": verdict for verdict in paper.Verdict}
    found |= {"PHAGUNDRO_RFC2511": paper.EDITIONS[0], "PHAGUNDRO_RFC4211": paper.EDITIONS[1]}
    columns = ("KIND", "FIRST", "LENGTH", "PARENT", "CONTENT")
    found |= {f"PHAGUNDRO_ROW_{name}": column for column, name in enumerate(columns)}
    found |= {f"PHAGUNDRO_FILE_{name}": file for file, name in enumerate(("NEITHER", "FIRST", "SECOND"))}
    found |= {f"PHAGUNDRO_ENTRY_{name}": column for column, name in enumerate(("WHAT", "FIRST", "SECOND", "SECONDS", "NUMBERS"))}
    found |= {f"PHAGUNDRO_{name}": what for what, name in enumerate(("ONLY_FIRST", "ONLY_SECOND", "LEAVES_DIFFER"), 1)}
    found |= {"PHAGUNDRO_LONGEST": paper.LONGEST, "PHAGUNDRO_DEEPEST": paper.DEEPEST, "PHAGUNDRO_NO_MOMENT": paper.NO_MOMENT}
    return found | {"PHAGUNDRO_ROW_NUMBERS": paper.ROW_NUMBERS}


def examples():
    """The header's examples as functions, and what they leave to the caller, as declared."""
    blocks = re.findall(r"(?:^ \*     .*\n)+", host.HEADER.read_text(), re.MULTILINE)
    found = [re.sub(r"^ \*", "", block, flags=re.MULTILINE) for block in blocks if "phagundro_" in block]
    return ["extern const uint8_t *bytes, *first, *second;", "extern size_t length, first_length, second_length;",
            "void show(size_t what, const uint8_t *part, size_t part_length);", "void examples(void);",
            "void examples(void)", "{", *(f"{{\n{block}}}" for block in found), "}"]


def user():
    """A program that includes the header alone, has its examples and uses every call by the type that the manual gives."""
    lines = [f'#include "{host.HEADER}"', "#ifndef __cplusplus", "#define static_assert _Static_assert", "#endif"]
    for name, members in STRUCTS.items():
        lines.append(f'static_assert(sizeof({name}) == {len(members)} * sizeof(size_t), "numbers alone");')
        for place, member in enumerate(members):
            lines.append(f'static_assert(offsetof({name}, {member}) == {place} * sizeof(size_t), "{member}");')
    lines += [f'static_assert({name} == {number}, "{name}");' for name, number in numbers().items()]
    for name, (answer, taken) in CALLS.items():
        lines += [f"extern {answer} (*use_{name})({taken});", f"{answer} (*use_{name})({taken}) = {name};"]
    return "\n".join(lines + examples()) + "\n"


def misread(compiler, language):
    """What the compiler has against the header."""
    ended = host.run([*compiler, "-pedantic", "-fsyntax-only", "-x", language, "-"], input=user())
    return [] if ended.returncode == 0 else ended.stdout.splitlines() or [f"{compiler[0]} ended with status {ended.returncode}"]


def other_examples():
    """Where the header's examples, one after another, don't show what they should."""
    lines = [f'#include "{host.HEADER}"', "#include <stdio.h>", *examples(), CALLER, "int main(void) { examples(); return 0; }"]
    host.BUILT.mkdir(parents=True, exist_ok=True)
    host.did([*host.C11, "-o", host.BUILT / "header_examples", "-x", "c", "-", "-x", "none", host.archive()], input="\n".join(lines))
    shown = host.did([host.BUILT / "header_examples"]).splitlines()
    return [] if shown == SHOWN else [f"the examples show {shown}"]


def enumerators():
    """The header's constants, with the text of each value."""
    return dict(re.findall(r"(PHAGUNDRO_\w+) += ([^,}]*?),? *(?:/\*|\})", host.HEADER.read_text()))


def other_names():
    """Kinds, verdicts, columns, files and differences of the header that the papers don't have."""
    groups = re.compile(r"PHAGUNDRO_(KIND|VERDICT|ROW|FILE|ENTRY|ONLY|LEAVES)_")
    return [f"the header has {name}" for name in enumerators()
            if groups.match(name) and name not in numbers() and name != "PHAGUNDRO_VERDICT_REFUSED"]


def other_symbols():
    """The header's calls that the archive lacks; and what it has beside them and its own code and constants, as a name that it wants and
    the header doesn't tell of, or a state."""
    header = host.HEADER.read_text()
    declared = {("T", name) for name in re.findall(r"^\w+ (phagundro_\w+)\(", header, re.MULTILINE)}
    wanted = {("U", name) for name in re.search(r"calls nothing outside itself but ([\w ]+)\.", header)[1].split(" and ")}
    symbols = set(re.findall(r"(\w) (\S+)$", host.did(["nm", host.archive()]), re.MULTILINE))
    outward = {(kind, name) for kind, name in symbols if kind not in "tr"}
    return [f"the header has {name}, which the archive lacks" for _, name in sorted((declared | wanted) - outward)] + [
        f"the archive has {name} of kind {kind}" for kind, name in sorted(outward - declared - wanted)
    ] + [f"the header has the call {name}, whose type is not tested" for _, name in sorted(declared) if name not in CALLS]


def more_stack():
    """Calls that take more stack than the header tells a caller to have."""
    taken = host.did([host.built("stack", host.archive(), "-pthread"), MEASURED, host.SEED, *corpus.files()])
    wrong = []
    for name, took in re.findall(r"(\w+) (\d+)", taken):
        print(f"bytes of stack within {name}: {took}")
        if not 0 < int(took) <= int(enumerators()[name]):
            wrong.append(f"{took} bytes of stack are taken within {name}")
    missing = {name for name in enumerators() if name.startswith("PHAGUNDRO_STACK")} - set(re.findall(r"^\w+", taken, re.MULTILINE))
    return wrong + [f"no stack is measured for {name}" for name in sorted(missing)]


TESTS = [
    ("the header is C11, its numbers are the papers', its structs are numbers in order and its calls have the types that it says",
        functools.partial(misread, host.C11, "c")),
    ("the header is C++17, its numbers are the papers', its structs are numbers in order and its calls have the types that it says",
        functools.partial(misread, host.CPP17, "c++")),
    ("the header's examples show the fields of a batch, and what has changed in it", other_examples),
    ("the header names no other kinds, verdicts, columns, files and differences than the papers have", other_names),
    ("the archive has the header's calls, wants what the header says and keeps no state", other_symbols),
    ("the calls take no more stack than the header says", more_stack),
]
