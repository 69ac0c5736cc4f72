"""The command compare of the tool: the differences that it shows, their paths, and what it says of fields and of the file that is
refused."""

import functools
import itertools
import json

import changes_model
import corpus
import crmf_cases
import joining_cases
import moment_model
import tool
import tool_dates
import tool_texts
from paper import LONGEST, Answer, File, Kind, What
from tool_joining import EDITION_NAMES, SMALLEST, accepted, refused

# Exit statuses, which are those of cmp and diff
SAME, DIFFERENT, NOT_COMPARED = 0, 1, 2

SIDES = "first", "second"
SAYS = {What.ONLY_FIRST: "only in the first", What.ONLY_SECOND: "only in the second", What.LEAVES_DIFFER: "differs"}
LISTED = {Kind.BATCH: "message", Kind.CONTROLS: "control", Kind.REG_INFO: "item", Kind.EXTENSIONS: "extension"}
BEFORE, LINE = 8, 16  # octets shown before the first that differs, and all that are shown, at most
LONGEST_TEXT = 300  # bytes

# Further names of octets for the batches below, which are written as in crmf_cases.txt
NAMES = {
    "subject{_}": "template{A5{30{_}}}", "cn{_}": "31{30{06{550403} _}}", "c{_}": "31{30{06{550406} _}}",
    "type{_}": "template{A2{06{_}}}", "free{_}": "controls{30{06{2A03} _}}", "begins{_}": "template{A4{A0{_}}}",
}

ATTRIBUTES = {  # by the octets of their types
    "550403": "CN", "550405": "serialNumber", "550406": "C", "550407": "L", "550408": "ST", "550409": "STREET", "55040A": "O",
    "55040B": "OU", "0992268993F22C640101": "UID", "0992268993F22C640119": "DC", "2A864886F70D010901": "emailAddress", "2A03": "1.2.3",
}

# What the first field says that isn't the same in two batches: by the second batch, the first ones with their texts
TEXTS = {
    "s": [
        ("subject{}", ""), ('subject{c{13{"DE"}} cn{0C{"Zo" C3AB}}}', "C=DE, CN=Zoë"),
        ('template{A3{30{cn{0C{"CA"}}}}}', "CN=CA"),
        ('subject{31{30{06{550403} 0C{"a"}} 30{06{55040A} 0C{"b"}}} cn{0C{"c"}}}', "CN=a + O=b, CN=c"),
        (r'subject{cn{0C{"a,b+c\d=e"}}}', r"CN=a\,b\+c\\d=e"), ('subject{cn{0C{" a b "}}}', r"CN=\ a b\ "),
        ('subject{cn{0C{" "}}}', r"CN=\ "),
        ("subject{cn{0C{001B1F7F}}}", r"CN=\u0000\u001B\u001F\u007F"), ("subject{cn{0C{C280C29F C2A0}}}", "CN=\\u0080\\u009F\u00a0"),
        ("subject{cn{0C{C2AD D89C E2808B E2808F E280A8 E280AE E281A0 E281AF EFBBBF}}}",
            r"CN=\u00AD\u061C\u200B\u200F\u2028\u202E\u2060\u206F\uFEFF"),
        ('subject{cn{0C{E28090 E282AC F0909080}}}', "CN=\u2010\u20ac\U00010400"),
        ('subject{cn{13{"caf" E9}}}', r"CN=caf\xE9"), ("subject{cn{16{C3A9}}}", r"CN=\xC3\xA9"),
        ('subject{cn{12{"1 2"}}}', "CN=1 2"), ('subject{cn{1A{"a"}}}', "CN=a"), ("subject{cn{1E{0061}}}", "CN=#1E020061"),
        ("subject{cn{02{01}}}", "CN=#020101"), *((f'subject{{31{{30{{06{{{octets}}} 0C{{"x"}}}}}}}}', f"{name}=x")
            for octets, name in ATTRIBUTES.items()),
        ("template{80{02}}", "2"), ("template{81{FF}}", "-1"), ("template{81{7F FF*7}}", str(2**63 - 1)),
        ("template{81{80 00*7}}", str(-2**63)), ("template{81{00 FF*8}}", "#810900" + "FF" * 8), ("template{87{00}}", ""),
        ("proof{80{}}", ""),
        ("template{A6{30{06{2A8648CE3D0201} 06{2A8648CE3D030107}} bits}}", "1.2.840.10045.2.1; 1.2.840.10045.3.1.7"),
        ("template{A2{06{2A864886F70D01010B} 05{}}}", "1.2.840.113549.1.1.11"),
        ("type{00}", "0.0"), ("type{27}", "0.39"), ("type{28}", "1.0"), ("type{4F}", "1.39"), ("type{50}", "2.0"),
        ("type{883703}", "2.999.3"), ("type{2A FF*8 7F}", f"1.2.{2**63 - 1}"), ("type{FF*8 7F}", f"2.{2**63 - 81}"),
        ("type{2A 81 80*8 00}", "#060B2A81" + "80" * 8 + "00"),
    ],
    "controls{unknown}": [
        ("control1{0C{}}", '""'), ("control1{0C{6122625C63}}", r'"a\"b\\c"'), ('control2{0C{" x,+ " 0A}}', r'" x,+ \u000A"'),
        ("control3{30{02{01} 30{30{02{02}}}}}", "1; 2"), ('control5{30{A4{30{cn{0C{"CA"}}}} 02{1267}}}', "CN=CA; 4711"),
        ("control6{30{30{06{2A03}} 03{00}}}", "1.2.3"), ("free{02{05}}", "1.2.3; 5"), ("free{0A{FB}}", "1.2.3; -5"),
        ("free{01{00}}", "1.2.3; FALSE"), ("free{01{FF}}", "1.2.3; TRUE"), ("free{04{020105}}", "1.2.3"), ("free{1E{0061}}", "1.2.3"),
        ('free{16{"i"}}', '1.2.3; "i"'), ('free{17{"x" 0A}}', r"1.2.3; x\u000A"), ("free{31{}}", "1.2.3"),
        ('free{17{"240229120000Z"}}', "1.2.3; 240229120000Z"), ('free{A0{18{"20600229120000Z"}}}', "1.2.3; 20600229120000Z"),
        ("free{31{02{01} 02{02}}}", "1.2.3; 1; 2"),
        ('free{30{cn{0C{"a"}} 02{01} cn{0C{"b"}}}}', "1.2.3; CN=a; 1; CN=b"), ("free{A0{30{02{01}} 82{02}}}", "1.2.3; 1"),
        (f'control1{{0C{{"a"*{LONGEST_TEXT - 2}}}}}', f'"{"a" * (LONGEST_TEXT - 2)}"'),
        (f'control1{{0C{{"a"*{LONGEST_TEXT - 1}}}}}', f'"{"a" * (LONGEST_TEXT - 1)}..'),
        ("control1{0C{C3A9*200}}", f'"{"é" * 149}..'), ("control1{0C{1B*60}}", '"' + r"\u001B" * 49 + ".."),
        ("controls{30{06{2A 01*200} 02{01}}}", ".."),
    ],
    "infos{unknown}": [
        ('info1{04{"a?b%"}}', '"a?b%"'), ('infos{30{06{2A03} 0C{"x"}}}', '1.2.3; "x"'),
        ("info1{04{C080 E08080 EDA080 F4908080 F880 C3A9 E282}}",
            r'"\xC0\x80\xE0\x80\x80\xED\xA0\x80\xF4\x90\x80\x80\xF8\x80' + "é" + r'\xE2\x82"'),
    ],
    'template{A4{A1{17{"491231235959Z"}}}}': [
        ('begins{17{"240229120000Z"}}', "2024-02-29 12:00:00 UTC"), ('begins{18{"20600229120000Z"}}', "2060-02-29 12:00:00 UTC"),
    ],
    "template{A9{extension}}": [("template{A9{30{06{551D0F} 01{FF} 04{03}}}}", "2.5.29.15; TRUE")],
    "proof{A2{80{00}}}": [("proof{A2{81{01}}}", "1")],
    "proof{A1{alg bits}}": [('signed{A0{A4{30{cn{0C{"a"}}}}} key}', "CN=a; 1.2")],
}

# Two batches, and the lines of their differences with FIRST and SECOND as the files' names, without places
LINES = [
    ("30{m numbered{01}}", "30{numbered{02}}",
        ["message at position 0 / certReq / certReqId: differs", "message at position 1: only in FIRST"]),
    ("30{m}", "30{m m m}", ["message at position 1: only in SECOND", "message at position 2: only in SECOND"]),
    ("controls{30{06{2B06010505070501 01} 0C{}} unknown}", "controls{unknown 30{06{2A} 02{00}}}", [
        "message at position 0 / certReq / controls / control at position 0 (regToken): only in FIRST",
        "message at position 0 / certReq / controls / control at position 0 of an unknown type: only in SECOND",
        "message at position 0 / certReq / controls / control at position 1 of an unknown type: differs",
    ]),
    ("infos{octetpairs 30{06{2B06010505070502 02} 30{02{00} 30{}}}}", "infos{unknown 30{06{2B06010505070502 02} 30{02{01} 30{}}}}", [
        "message at position 0 / regInfo / item at position 0 (pairs as octets): only in FIRST",
        "message at position 0 / regInfo / item at position 0 of an unknown type: only in SECOND",
        "message at position 0 / regInfo / item at position 1 that carries a certReq / certReq / certReqId: differs",
    ]),
    ("template{A9{extension extension}}", 'template{A4{A0{17{"240229120000Z"}}} A9{30{06{2A} 04{00}}}}', [
        "message at position 0 / certReq / template / validity: only in SECOND",
        "message at position 0 / certReq / template / extensions / extension at position 0: differs",
        "message at position 0 / certReq / template / extensions / extension at position 1: only in FIRST",
    ]),
    ("proof{A2{81{00}}}", "proof{80{}}",
        ["message at position 0 / raVerified: only in SECOND", "message at position 0 / keyEncipherment: only in FIRST"]),
    ("proof{A1{alg bits}}", "proof{A1{30{06{2B}} bits}}", ["message at position 0 / signature / algorithm: differs"]),
]


def octets(written):
    return crmf_cases.built(written, {**joining_cases.names(), **NAMES})[0]


@functools.cache
def kind_names():
    return {kind: words.partition(",")[0] for kind, words in tool_texts.header_words(tool_texts.KINDS)[1].items()}


def step(parent, kind, position):
    """A field in words, by its parent's kind, its own and its position below that parent."""
    name, listed = kind_names()[kind], LISTED.get(parent)
    if listed is None:
        return name
    return f"{listed} at position {position}" + (name.removeprefix(listed) if name.startswith(listed) else f" ({name})")


@functools.cache
def fields(edition, name):
    """The fields of a file of the corpus that the edition accepts, in the order of the rows, each with its path."""
    found = changes_model.fields(edition, corpus.octets(name))
    found[0].path = []
    for field in found:
        for position, child in enumerate(field.below.values()):
            child.path = [*field.path, step(field.kind, child.kind, position)]
    return found


def shown(field, common):
    """What --json has to say of a field but its text. `common` is how many octets at its start are the other's too, if it differs."""
    if field.number == 0:
        return None
    found = {"row": field.number, "from": field.place, "length": len(field.octets)}
    if field.kind in tool_dates.KINDS:
        found["moment"] = moment_model.shown(field.octets)
    if common is None:
        return found
    start = max(0, common - BEFORE)
    around = field.octets[start:start + LINE].hex(" ").upper()
    return found | {"differs": field.place + common, "around": field.place + start, "octets": around}


def expected(first, second):
    """What --json has to say of the entries of two files, given by their fields, but their texts."""
    for what, row, other, seconds in changes_model.below(first[0], second[0]):
        named, common = first[row] if row else second[other], None
        if what == What.LEAVES_DIFFER:
            octet_pairs = zip(first[row].octets, second[other].octets)
            common = next(at for at, (left, right) in enumerate(octet_pairs) if left != right)
        yield {"what": what, "says": SAYS[what], "seconds": seconds, "kind": named.kind, "name": kind_names()[named.kind],
               "path": named.path, "first": shown(first[row], common), "second": shown(second[other], common)}


def without_texts(entry):
    """An entry of --json without the texts of its two sides, which containers don't have."""
    told = {side: entry[side] and dict(entry[side]) for side in SIDES}
    for side in filter(None, told.values()):
        if side["text"] == "" or entry["kind"] not in changes_model.CONTAINERS:
            del side["text"]
    return entry | told


def bracketed(side):
    """The line of octets around the first that differs."""
    line = list(f" {side['octets']} ")
    marked = len("30 ") * (side["differs"] - side["around"])
    line[marked], line[marked + len("30 ")] = "[]"
    return f"{side['around']:8} {''.join(line).rstrip()}"


def words_of(entry, names):
    """The lines that the tool has to show of an entry, by what --json says of it."""
    names = list(names)
    places = {name: f"{side['length']} bytes from byte {side['from']}" + (f": {side['text']}" if side["text"] else "")
              for name, side in zip(names, map(entry.get, SIDES), strict=True) if side}
    path = " / ".join(entry["path"])
    if entry["what"] != What.LEAVES_DIFFER:
        return [f"{path}: only in {name}, {place}" for name, place in places.items()]
    lines = [f"{path}: differs" + (f", {tool_dates.interval(entry['seconds'])} in {names[-1]}" if entry["seconds"] else "")]
    for (name, place), side in zip(places.items(), SIDES, strict=True):
        lines += [f"  {name}: {place}", bracketed(entry[side])]
    return lines


def compared(edition, first, second, *words):
    """The status of a comparison of two files, what it says in words, and what --json says."""
    status, out, said = tool.call("compare", "--edition", edition, *words, first, second)
    in_json = tool.call("compare", "--edition", edition, "--json", *words, first, second)
    if (in_json[0], in_json[2], said) != (status, "", ""):
        raise RuntimeError(f"{first} and {second}: status {status} and {in_json[0]}, {said}{in_json[2]}")
    return status, out.decode(), json.loads(in_json[1])


def pairs():
    """Two files of the corpus that an edition accepts: neighbours, either way round, and each with itself."""
    for edition, names in accepted().items():
        for first, second in itertools.pairwise(names):
            yield from ((edition, first, second), (edition, second, first), (edition, first, first))


def other_comparisons():
    """Files of the corpus whose comparison doesn't have the model's entries, with their paths, places and octets, or whose words don't say
    what --json says."""
    wrong, seen = [], set()
    for edition, *names in pairs():
        status, words, answer = compared(edition, *map(tool.path, names))
        entries = list(expected(*(fields(edition, name) for name in names)))
        seen.update(entry["what"] for entry in entries)
        first, second = map(corpus.octets, names)
        if status != (SAME if first == second else DIFFERENT) or list(map(without_texts, answer["entries"])) != entries:
            wrong.append(f"{names}, edition {edition}: status {status}, other entries")
        counted = {0: "no difference", 1: "1 difference"}.get(len(entries), f"{len(entries)} differences")
        heading = f"edition {edition}{EDITION_NAMES[edition]}: both accepted, {counted}"
        if words.splitlines() != [heading, *(line for entry in answer["entries"] for line in words_of(entry, map(tool.path, names)))]:
            wrong.append(f"{names}, edition {edition}: other words than --json has")
        about = {name: value for name, value in answer.items() if name != "entries"}
        if about != {"edition": edition, "number": 0, "meaning": "accepted", "place": 0, "file": 0, "count": len(entries)}:
            wrong.append(f"{names}, edition {edition}: {about}")
    return wrong if seen == set(What) else wrong + [f"only {seen}"]


@tool.scratch
def other_texts(folder):
    """Fields of which another text is shown."""
    wrong = []
    first, second = folder / "first", folder / "second"
    for other, batches in TEXTS.items():
        second.write_bytes(octets(other))
        for batch, text in batches:
            first.write_bytes(octets(batch))
            _, words, answer = compared(1, first, second)
            field = next(entry["first"] for entry in answer["entries"] if entry["first"])
            line = f" {field['length']} bytes from byte {field['from']}{': ' if text else ''}{text}"
            if field["text"] != text or not any(shown.endswith(line) for shown in words.splitlines()):
                wrong.append(f"{batch}: {field['text']}")
    return wrong


@tool.scratch
def other_lines(folder):
    """Differences that are shown in other lines, or in another order."""
    wrong = []
    files = folder / "first", folder / "second"
    for *batches, lines in LINES:
        for path, batch in zip(files, batches, strict=True):
            path.write_bytes(octets(batch))
        _, words, _ = compared(1, *files)
        for path, name in zip(files, ("FIRST", "SECOND"), strict=True):
            words = words.replace(str(path), name)
        shown = [line.partition(", ")[0] for line in words.splitlines()[1:] if not line.startswith(" ")]
        if shown != lines:
            wrong.append(f"{batches}: {shown}")
    return wrong


@tool.scratch
def other_inputs(folder):
    """Where files, hex and standard input are not compared alike."""
    names = ["openssl-sig-p256", "openssl-batch-10-ec-sig"]
    files, hexed, given = ([of(name) for name in names] for of in (tool.path, folder.joinpath, corpus.octets))
    for path, content in zip(hexed, given, strict=True):
        path.write_text(content.hex(" "))
    said = tool.call("compare", "--edition", 2, *files)[1].decode()
    wrong = []
    for words, content, shown in [
        (["--hex", *hexed], b"", hexed), (["--hex", hexed[0], "-"], given[1].hex().encode(), [hexed[0], "standard input"]),
        (["-", files[1]], given[0], ["standard input", files[1]]), ([files[0], "-"], given[1], [files[0], "standard input"]),
    ]:
        right = said.replace(str(files[0]), str(shown[0])).replace(str(files[1]), str(shown[1])).encode()
        if tool.call("compare", "--edition", 2, *words, octets=content) != (DIFFERENT, right, ""):
            wrong.append(f"{words}")
    return wrong


@tool.scratch
def other_refusals(folder):
    """Refusals that don't name their file, number, place and meaning, in words or as JSON, or whose status is another."""
    batches = {"smallest": SMALLEST, "trailing": SMALLEST + b"\0", "empty": b"", "none": b"\x30\0", "long": bytes(LONGEST + 1)}
    for name, content in batches.items():
        (folder / name).write_bytes(content)
    after, around = (Answer.TRAILING_BYTES, len(SMALLEST)), "       0  30 09 30 07 30 05 02 01 00 30 00[00]\n"
    wrong = []
    for edition, names, file, (number, place), line in [
        (2, "trailing smallest", File.FIRST, after, around), (1, "smallest trailing", File.SECOND, after, around),
        (2, "trailing empty", File.FIRST, after, around), (2, "trailing trailing", File.FIRST, after, around),
        (2, "none empty", File.FIRST, (Answer.NOT_IN_GRAMMAR, 0), "       0 [30]00\n"),
        (2, "smallest empty", File.SECOND, (Answer.TRUNCATED, 0), "       0 [end]\n"),
        (2, "long smallest", File.FIRST, (Answer.TOO_LONG, 0), ""), (2, "smallest long", File.SECOND, (Answer.TOO_LONG, 0), ""),
        (3, "smallest smallest", File.FIRST, (Answer.UNKNOWN_EDITION, 0), ""),
        (0, "empty empty", File.FIRST, (Answer.UNKNOWN_EDITION, 0), ""),
    ]:
        files = [folder / name for name in names.split()]
        said = tool.call("compare", "--edition", edition, *files)
        if said != (NOT_COMPARED, b"", refused(files[file - File.FIRST], edition, number, place) + line):
            wrong.append(f"{names}, edition {edition}: {said}")
        status, out, said = tool.call("compare", "--edition", edition, "--json", *files)
        meaning = tool_texts.meanings()[number][0]
        answer = {"edition": edition, "number": number, "meaning": meaning, "place": place, "file": file, "count": 0, "entries": []}
        if (status, json.loads(out), said) != (NOT_COMPARED, answer, ""):
            wrong.append(f"{names}, edition {edition}: status {status}, {out}")
    return wrong


@tool.scratch
def other_longest(folder):
    """Where long batches with as many differences as fields are not compared whole."""
    files = folder / "first", folder / "second"
    items = (LONGEST - 100) // len(octets("unknown"))
    for path, batch in zip(files, (f"controls{{unknown*{items}}}", f"controls{{30{{06{{2B}} 05{{}}}}*{items}}}"), strict=True):
        path.write_bytes(octets(batch))
    status, _, answer = compared(2, *files)
    last = answer["entries"][-1]["path"][-1] if answer["entries"] else None
    if (status, answer["count"], last) != (DIFFERENT, items, f"control at position {items - 1} of an unknown type"):
        return [f"{items} controls: status {status}, {answer['count']} entries, {last}"]
    return []


TESTS = [
    ("phagundro compare shows the differences of neighbours in the corpus, with paths, places and octets, in words and as JSON",
        other_comparisons),
    ("phagundro compare shows names, numbers, times, types and texts, and nothing that steers a terminal", other_texts),
    ("phagundro compare shows each difference by its path and its file, in the order of the walk", other_lines),
    ("phagundro compare takes files, hex and standard input", other_inputs),
    ("phagundro compare says which file is refused, with the status of trouble", other_refusals),
    ("phagundro compare shows every difference of the longest batches", other_longest),
]
