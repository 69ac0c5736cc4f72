"""The commands join and cut of the tool: what they write, and what they say of the file that is refused."""

import corpus
import tool
import tool_texts
from host_texts import CERT_REQ_ID_AND_TEMPLATE, REG_TOKEN
from paper import EDITIONS, LONGEST, Answer

SEQUENCE, UTF8_STRING = 0x30, 0x0C
EDITION_NAMES = {1: " (RFC 2511)", 2: " (RFC 4211)"}
SMALLEST = tool.SMALLEST
LEFT_BY_SMALLEST = LONGEST - len(SMALLEST) + 2  # bytes of a batch that it can be joined with; one header of two octets falls away


def element(identifier, content):
    """An element with the shortest length."""
    length = len(content)
    octets = length.to_bytes((length.bit_length() + 7) // 8, "big")
    return bytes([identifier, length] if length < 0x80 else [identifier, 0x80 + len(octets), *octets]) + content


def header_length(octets):
    return 2 if octets[1] < 0x80 else 2 + octets[1] - 0x80


def content(batch):
    return batch[header_length(batch) :]


def messages(batch):
    """The messages of an accepted batch."""
    rest, found = content(batch), []
    while rest:
        header = header_length(rest)
        end = header + (rest[1] if header == 2 else int.from_bytes(rest[2:header], "big"))
        found.append(rest[:end])
        rest = rest[end:]
    return found


def join(batches):
    return element(SEQUENCE, b"".join(map(content, batches)))


def token_batch(length):
    """A batch of one message that is so many bytes long. Its six headers have four octets each."""
    text = b"a" * (length - 6 * 4 - len(CERT_REQ_ID_AND_TEMPLATE) - len(REG_TOKEN))
    control = element(SEQUENCE, REG_TOKEN + element(UTF8_STRING, text))
    return element(SEQUENCE, element(SEQUENCE, element(SEQUENCE, CERT_REQ_ID_AND_TEMPLATE + element(SEQUENCE, control))))


def accepted():
    """The names of the corpus that an edition accepts, by edition."""
    return {edition: [name for name in corpus.names() if corpus.expected()[name, edition][0] == Answer.ACCEPTED] for edition in EDITIONS}


def refused(name, edition, number, place=0):
    """How the tool's words on a refused file begin."""
    edition_name = EDITION_NAMES.get(edition, "")
    return f"{name}: edition {edition}{edition_name}: refused with {tool.refusal(number, place)}{tool_texts.meanings()[number][0]}\n"


def too_long(name, edition=2):
    return refused(f"the join up to {name}", edition, Answer.TOO_LONG)


def joined(edition, names):
    """What the tool has to answer for these files of the corpus: the status, the join and its words."""
    for count in range(2, len(names) + 1):
        octets = join(map(corpus.octets, names[:count]))
        if len(octets) > LONGEST:
            return tool.REFUSED, b"", too_long(tool.path(names[count - 1]), edition)
    return tool.ACCEPTED, octets, ""


def other_joins():
    """Two and three neighbours of the corpus whose join is not the batch of their messages, or isn't read with their rows."""
    wrong, seen = [], set()
    for edition, accepted_names in accepted().items():
        for names in [accepted_names[i : i + count] for count in (2, 3) for i in range(len(accepted_names) - count + 1)]:
            answer = tool.call("join", "--edition", edition, *map(tool.path, names))
            seen.add((len(names), answer[0]))
            if answer != joined(edition, names):
                wrong.append(f"{names}, edition {edition}: status {answer[0]}, {len(answer[1])} bytes, {answer[2]}")
            rows = tool.call("read", "--edition", edition, "--numbers", octets=answer[1])[1].count(b"\n")
            if answer[0] == tool.ACCEPTED and rows != 1 + sum(corpus.expected()[name, edition][2] - 1 for name in names):
                wrong.append(f"{names}, edition {edition}: the join has {rows} rows")
    return wrong if len(seen) == 4 else wrong + [f"only {seen}"]


@tool.scratch
def other_join_files(folder):
    """Where files, hex and standard input are not joined alike, into a file or to standard output."""
    wrong = []
    names = ["openssl-minimal", "nss-id-65535", "openssl-batch-10-ec-sig"]
    octets = join(map(corpus.octets, names))
    hexed = [folder / name for name in names]
    for name, path in zip(names, hexed, strict=True):
        path.write_text(corpus.octets(name).hex(" "))
    output = folder / "join"
    output.write_bytes(b"longer than the join" * len(octets))
    ways = [["--output", output, *map(tool.path, names)], ["--hex", "--output", output, *hexed], [*map(tool.path, names), "--output", "-"]]
    for words in ways:
        status, out, said = tool.call("join", "--edition", 2, *words)
        if (status, said) != (tool.ACCEPTED, "") or (out or output.read_bytes()) != octets:
            wrong.append(f"{words}: status {status}, {said}")
    for standard, name in enumerate(names):
        words = [tool.path(other) if other != name else "-" for other in names]
        if tool.call("join", "--edition", 2, *words, octets=corpus.octets(name)) != (tool.ACCEPTED, octets, ""):
            wrong.append(f"standard input as the file {standard}")
    return wrong


def refusals(folder):
    """Files that can't be joined: the edition, the files, and what the tool has to say of them."""
    batches = {"smallest": SMALLEST, "trailing": SMALLEST + b"\0", "empty": b"", "none": element(SEQUENCE, b""),
               "long": bytes(LONGEST + 1), "longest": token_batch(LONGEST), "left": token_batch(LEFT_BY_SMALLEST)}
    for name, octets in batches.items():
        (folder / name).write_bytes(octets)
    smallest, trailing, empty, none, long, longest, left = (folder / name for name in batches)
    after = refused(trailing, 2, Answer.TRAILING_BYTES, len(SMALLEST)) + "       0  30 09 30 07 30 05 02 01 00 30 00[00]\n"
    return [
        (2, [trailing, smallest], after), (2, [smallest, trailing], after), (2, [smallest, smallest, trailing], after),
        (2, [smallest, trailing, empty], after), (2, [trailing, trailing], after),
        (2, [none, empty], refused(none, 2, Answer.NOT_IN_GRAMMAR) + "       0 [30]00\n"),
        (2, [smallest, empty], refused(empty, 2, Answer.TRUNCATED) + "       0 [end]\n"),
        (2, [smallest, long], refused(long, 2, Answer.TOO_LONG)), (2, [long, smallest], refused(long, 2, Answer.TOO_LONG)),
        (3, [smallest, empty], refused(smallest, 3, Answer.UNKNOWN_EDITION)),
        (2, [smallest, longest], too_long(longest)), (2, [longest, longest], too_long(longest)),
        (2, [longest, trailing], after), (2, [smallest, left, smallest, trailing], too_long(smallest)),
    ]


@tool.scratch
def other_join_refusals(folder):
    """Refusals of a join that don't name their file, number, place and meaning, or don't leave the output as it was."""
    wrong = []
    output = folder / "output"
    output.write_bytes(b"kept")
    for edition, files, words in refusals(folder):
        status, out, said = tool.call("join", "--edition", edition, "--output", output, *files)
        if (status, out, said, output.read_bytes()) != (tool.REFUSED, b"", words, b"kept"):
            wrong.append(f"{[path.name for path in files]}: status {status}, {said}")
    status, _, said = tool.call("join", "--edition", 2, folder / "smallest", "-", octets=b"\x1f")
    if status != tool.REFUSED or not said.startswith(refused("standard input", 2, Answer.BAD_IDENTIFIER)):
        wrong.append(f"standard input: status {status}, {said}")
    status, out, said = tool.call("join", "--edition", 2, folder / "smallest", folder / "left")
    if (status, out, said) != (tool.ACCEPTED, join([SMALLEST, token_batch(LEFT_BY_SMALLEST)]), "") or len(out) != LONGEST:
        wrong.append(f"a join of {LONGEST} bytes: status {status}, {said}")
    return wrong


def other_cuts():
    """Messages of the corpus, the first, the last and one in the middle of each file, that cut doesn't give as a batch of their own."""
    wrong = []
    for edition, names in accepted().items():
        for name in names:
            there = messages(corpus.octets(name))
            for position in {0, len(there) // 2, len(there) - 1}:
                cut = tool.call("cut", "--edition", edition, "--position", position, tool.path(name))
                if cut != (tool.ACCEPTED, element(SEQUENCE, there[position]), ""):
                    wrong.append(f"{name}, edition {edition}, position {position}: status {cut[0]}, {cut[2]}")
            status, out, said = tool.call("cut", "--edition", edition, "--position", len(there), tool.path(name))
            if (status, out) != (tool.REFUSED, b"") or tool.refusal(Answer.NO_SUCH_MESSAGE) not in said:
                wrong.append(f"{name}, edition {edition}: {len(there)} messages, status {status}, {said}")
    return wrong


@tool.scratch
def other_cut_files(folder):
    """Where a message is not cut alike out of hex and standard input, into a file, or a refusal doesn't leave the file as it was."""
    wrong = []
    output = folder / "output"
    octets = corpus.octets("openssl-batch-10-ec-sig")
    words = ["cut", "--edition", 2, "--hex", "--output", output, "--position"]
    ended = tool.call(*words, 7, octets=octets.hex().encode())
    if ended != (tool.ACCEPTED, b"", "") or output.read_bytes() != element(SEQUENCE, messages(octets)[7]):
        wrong.append(f"position 7 of hex: {ended}")
    output.write_bytes(b"kept")
    for position, given, answer in ((10, octets, (Answer.NO_SUCH_MESSAGE, 0)), (0, octets + b"\0", (Answer.TRAILING_BYTES, len(octets))),
            (2**64 - 1, octets, (Answer.NO_SUCH_MESSAGE, 0)), (10, bytes(LONGEST + 1), (Answer.TOO_LONG, 0))):
        status, out, said = tool.call(*words, position, octets=given.hex().encode())
        if (status, out, output.read_bytes()) != (tool.REFUSED, b"", b"kept") or tool.refusal(*answer) not in said:
            wrong.append(f"position {position}: status {status}, {said}")
    return wrong


@tool.scratch
def other_cuts_of_all(folder):
    """Files of the corpus that cut --all doesn't take apart into a file for each message, or that these don't give again by join."""
    wrong = []
    for edition, names in accepted().items():
        for name in names:
            parts = folder / f"{name}-{edition}"
            ended = tool.call("cut", "--edition", edition, "--all", "--output-dir", parts, tool.path(name))
            files = sorted(parts.iterdir())
            there = messages(corpus.octets(name))
            if ended != (tool.ACCEPTED, b"", "") or [path.name for path in files] != [f"message-{i:04}.der" for i in range(len(there))]:
                wrong.append(f"{name}, edition {edition}: {len(files)} files of {len(there)} messages, {ended}")
            if [path.read_bytes() for path in files] != [element(SEQUENCE, message) for message in there]:
                wrong.append(f"{name}, edition {edition}: other messages")
            if len(files) > 1 and tool.call("join", "--edition", edition, *files) != (tool.ACCEPTED, corpus.octets(name), ""):
                wrong.append(f"{name}, edition {edition}: not joined again")
    return wrong


@tool.scratch
def other_folders(folder):
    """Where cut --all doesn't replace the files that are there and leave the others alone, or makes a folder for a refused batch."""
    wrong = []
    parts, absent = folder / "parts", folder / "absent"
    parts.mkdir()
    kept = {"message-0000.der": SMALLEST, "message-0002.der": b"kept", "other": b"kept"}
    for name in kept:
        (parts / name).write_bytes(b"kept")
    tool.call("cut", "--edition", 2, "--all", "--output-dir", parts, octets=join([SMALLEST, SMALLEST]))
    if {path.name: path.read_bytes() for path in parts.iterdir()} != kept | {"message-0001.der": SMALLEST}:
        wrong.append("a folder that was there has other files")
    for octets, status in ((SMALLEST + b"\0", tool.REFUSED), (b"", tool.REFUSED)):
        ended = tool.call("cut", "--edition", 2, "--all", "--output-dir", absent, octets=octets)
        if (ended[:2], absent.exists()) != ((status, b""), False):
            wrong.append(f"a refused batch: {ended}")
    for place, said in ((absent / "absent", "No such file"), (parts / "other", "Not a directory")):
        ended = tool.call("cut", "--edition", 2, "--all", "--output-dir", place, octets=SMALLEST)
        if ended[:2] != (tool.TROUBLE, b"") or said not in ended[2]:
            wrong.append(f"{place}: {ended}")
    return wrong


TESTS = [
    ("phagundro join gives two and three files of the corpus as one batch, with their rows, and refuses what is too long", other_joins),
    ("phagundro join takes files, hex and standard input, and writes a file or standard output", other_join_files),
    ("phagundro join says which file is refused, or up to which the join is too long, and writes nothing then", other_join_refusals),
    ("phagundro cut gives messages of the corpus as batches, and refuses a position past the last", other_cuts),
    ("phagundro cut takes hex and standard input, writes a file, and writes nothing after a refusal", other_cut_files),
    ("phagundro cut --all gives a file for each message of the corpus, and joining them gives the batch again", other_cuts_of_all),
    ("phagundro cut --all replaces the files that are there, leaves others alone, and makes no folder for a refused batch", other_folders),
]
