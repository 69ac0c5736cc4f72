"""The command line tool: its answers, its files and what it says of a wrong command line."""

import functools
import json
import pathlib
import re
import subprocess
import tempfile

import corpus
import host
from layout import ROOT
from paper import EDITIONS, LONGEST, ROW_NUMBERS, Answer, Row, numbers_of

# Exit statuses
ACCEPTED, REFUSED, TROUBLE = 0, 1, 2

SMALLEST = bytes.fromhex("3009300730050201003000")  # document 01's S, and its rows
SMALLEST_ROWS = "1 0 11 0 2\n2 2 9 0 4\n3 4 7 1 6\n4 6 3 2 8\n5 9 2 2 11\n"
OLD_ROWS = "1 0 11 0\n2 2 9 0\n3 4 7 1\n4 6 3 2\n5 9 2 2\n"  # as version 0.1 had them, four numbers a row
OLD_ROW_NUMBERS = 4


def made(*words):
    host.archive()
    host.did(["make", "-s", *words])


@functools.cache
def tool():
    made()
    return ROOT / "target/tool/phagundro"


def version():
    """The version, which the header alone has."""
    return re.search(r'^#define PHAGUNDRO_VERSION "(\S+)"$', host.HEADER.read_text(), re.MULTILINE)[1]


def call(*words, octets=b"", program=None, **more):
    """The status, standard output and standard error of a call of the tool."""
    command = [str(program or tool()), *map(str, words)]
    ended = subprocess.run(command, cwd=ROOT, input=octets, stdout=subprocess.PIPE, stderr=subprocess.PIPE, timeout=60, **more)
    return ended.returncode, ended.stdout, ended.stderr.decode()


def status_of(number):
    return ACCEPTED if number == Answer.ACCEPTED else REFUSED


def refusal(number, place=0):
    """What the tool says of a refusal, before its meaning."""
    return f"number {number}, place {place}: "


def path(name):
    return corpus.FOLDER / f"{name}.der"


def scratch(test):
    """A test that is lent an empty folder."""

    @functools.wraps(test)
    def lent(*words):
        with tempfile.TemporaryDirectory() as folder:
            return test(pathlib.Path(folder), *words)

    return lent


def other_readings():
    """Where read, as JSON and in numbers, from a file, a pipe and hex, is not what is expected of the corpus."""
    wrong = []
    for (name, edition), (number, place, count) in corpus.expected().items():
        octets = corpus.octets(name)
        status, out, _ = call("read", "--edition", edition, "--json", path(name))
        answer = json.loads(out)
        rows = [Row(row["kind"], row["first"], row["length"], row["parent"], row["content"]) for row in answer["rows"]]
        found = [answer[member] for member in ("edition", "number", "place", "count")]
        if (status, found) != (status_of(number), [edition, number, place, count]) or len(rows) != count:
            wrong.append(f"{name}, edition {edition}: {found} with status {status}")
        if number == Answer.ACCEPTED and count <= corpus.SHOWN and rows != corpus.rows(name):
            wrong.append(f"{name}, edition {edition}: other rows")
        plain = "".join(f"{row}\n" for row in rows).encode()
        hexed = octets.hex(" ").upper().encode()
        if call("read", f"--edition={edition}", "--numbers", octets=octets)[:2] != (status, plain):
            wrong.append(f"{name}, edition {edition}: other numbers of standard input")
        if call("read", "--edition", edition, "--numbers", "--hex", "-", octets=hexed)[:2] != (status, plain):
            wrong.append(f"{name}, edition {edition}: other numbers of hex")
    return wrong


@scratch
def other_writings(folder):
    """Accepted batches of the corpus that the rows of read --numbers don't give again."""
    wrong = []
    for (name, edition), (number, _, _) in corpus.expected().items():
        if number != Answer.ACCEPTED:
            continue
        _, rows, _ = call("read", "--edition", edition, "--numbers", path(name))
        if call("write", "--edition", edition, "-", path(name), octets=rows) != (ACCEPTED, corpus.octets(name), ""):
            wrong.append(f"{name}, edition {edition}: not written again")
    (folder / "rows").write_text(SMALLEST_ROWS)
    slice_in_hex = {"octets": SMALLEST.hex().encode()}
    output = folder / "batch"
    status = call("write", "--edition", 2, "--hex", "--output", output, folder / "rows", "-", **slice_in_hex)
    if status != (ACCEPTED, b"", "") or output.read_bytes() != SMALLEST:
        wrong.append(f"the smallest batch: {status}")
    output.write_bytes(b"kept")
    status, out, said = call("write", "--edition", 2, "--output", output, "-", path("openssl-minimal"), octets=b"1 0 11")
    if (status, out, output.read_bytes()) != (REFUSED, b"", b"kept") or refusal(Answer.NO_SUCH_BATCH) not in said:
        wrong.append(f"three numbers: {status}, {said}")
    return wrong


def other_trees():
    """Rows of the corpus that read doesn't show as a line with the row's number, first byte, whole length and content's first byte."""
    wrong = []
    for (name, edition), (number, _, count) in corpus.expected().items():
        if number == Answer.ACCEPTED and count <= corpus.SHOWN:
            heading, columns, *lines = call("read", "--edition", edition, path(name))[1].decode().splitlines()
            shown = [line.split()[:4] for line in lines]
            if columns.split() != ["row", "byte", "length", "content", "field"] or shown != [
                [str(i), str(row.first), str(row.whole), str(row.content)] for i, row in enumerate(corpus.rows(name))
            ]:
                wrong.append(f"{name}, edition {edition}: {columns}: {shown}")
    return wrong


def in_lines(numbers, each):
    """Numbers as a file of rows, so many to a line."""
    return "".join(" ".join(map(str, numbers[i:i + each])) + "\n" for i in range(0, len(numbers), each)).encode()


@scratch
def other_old_rows(folder):
    """Where rows of four numbers a line are not answered with TROUBLE and what has changed, or rows of five are refused for their lines."""
    wrong = []
    output = folder / "batch"
    output.write_bytes(b"kept")
    told = "standard input: rows of four numbers", "since version 0.2 a row has a fifth number, the content's first byte", "read --numbers"
    for rows in (OLD_ROWS, OLD_ROWS.rstrip("\n"), "\n" + OLD_ROWS.replace("\n", " \r\n\n"), OLD_ROWS.splitlines()[0]):
        status, out, said = call("write", "--edition", 2, "--output", output, "-", path("openssl-minimal"), octets=rows.encode())
        if (status, out, output.read_bytes()) != (TROUBLE, b"", b"kept") or any(words not in said for words in told):
            wrong.append(f"{rows!r}: status {status}, {said}")
    for (name, edition), (number, _, count) in corpus.expected().items():
        if number == Answer.ACCEPTED and count <= corpus.SHOWN:
            numbers = numbers_of(corpus.rows(name))
            for each in (1, OLD_ROW_NUMBERS, OLD_ROW_NUMBERS * ROW_NUMBERS, len(numbers)):
                written = call("write", "--edition", edition, "-", path(name), octets=in_lines(numbers, each))
                if written != (ACCEPTED, corpus.octets(name), ""):
                    wrong.append(f"{name}, edition {edition}: not written from lines of {each} numbers")
    return wrong


@scratch
def other_verdicts(folder):
    """Where verdict and duplicates are not what is expected of the corpus, or the signed part is not those bytes."""
    wrong = []
    part = folder / "part"
    for (name, edition), (verdict, length, pair) in corpus.judged().items():
        where = f"{name}, edition {edition}"
        status, out, _ = call("verdict", "--edition", edition, "--position", 0, "--part", part, "--json", path(name))
        answer = json.loads(out)
        signed = corpus.octets(name)[answer["from"] :][: answer["length"]]
        if (status, answer["verdict"], answer["length"]) != (ACCEPTED, verdict, length) or part.read_bytes() != signed:
            wrong.append(f"{where}: {answer}")
        words = call("verdict", "--edition", edition, "--position", 0, path(name))[1].decode()
        if f"verdict {verdict}, " not in words or (length > 0) != (f"signed part: {length} bytes from byte {answer['from']}\n" in words):
            wrong.append(f"{where}: {words}")
        status, out, _ = call("duplicates", "--edition", edition, "--json", path(name))
        answer = json.loads(out)
        if (status, (answer["earlier"], answer["later"]) if answer["found"] else None) != (ACCEPTED, pair):
            wrong.append(f"{where}: {answer}")
        said = call("duplicates", "--edition", edition, path(name))[1].decode()
        if ("positions %d and %d have" % pair if pair else "no two messages have") not in said:
            wrong.append(f"{where}: {said}")
    part.write_bytes(b"kept")
    status, _, said = call("verdict", "--edition", 2, "--position", 1, "--part", part, path("openssl-minimal"))
    if (status, part.read_bytes()) != (REFUSED, b"kept") or refusal(Answer.NO_SUCH_MESSAGE) not in said:
        wrong.append(f"position 1 of one message: {status}, {said}")
    return wrong


def other_editions():
    """Where editions doesn't show both expected answers, or its status is not ACCEPTED exactly if one of them is."""
    wrong = []
    for name in corpus.names():
        answers = [corpus.expected()[name, edition] for edition in EDITIONS]
        status, out, _ = call("editions", "--json", path(name))
        found = [(answer["number"], answer["place"], answer["count"]) for answer in json.loads(out)]
        if (status, found) != (min(status_of(number) for number, _, _ in answers), answers):
            wrong.append(f"{name}: status {status}, {found}")
        said = [line for line in call("editions", path(name))[1].decode().splitlines() if line.startswith("edition ")]
        shown = [f"accepted, {count} rows" if number == Answer.ACCEPTED else refusal(number, place) for number, place, count in answers]
        if [line.split()[1] for line in said] != list(map(str, EDITIONS)):
            wrong.append(f"{name}: not two answers: {said}")
        elif any(words not in line for words, line in zip(shown, said, strict=True)):
            wrong.append(f"{name}: {said}")
    return wrong


def other_limits():
    """Where an input that is one byte too long is not refused as TOO_LONG, or the longest is; of a file, a pipe and hex."""
    wrong = []
    whole = corpus.octets("pyasn1-batch-150-size-65535")
    if len(whole) != LONGEST:
        wrong.append(f"the longest file has {len(whole)} bytes")
    for octets, number in ((whole, Answer.ACCEPTED), (whole + b"\0", Answer.TOO_LONG), (whole + bytes(200_000), Answer.TOO_LONG)):
        for words, given in (([], octets), (["--hex"], octets.hex().encode())):
            for command in (["read"], ["verdict", "--position", 0], ["duplicates"]):
                status, out, _ = call(*command, "--edition", 2, "--json", *words, octets=given)
                if (status, json.loads(out)["number"]) != (status_of(number), number):
                    wrong.append(f"{command[0]} {words} of {len(octets)} bytes: {out[:100]}")
    return wrong


def wrong_lines():
    """Command lines that are wrong, each with a part of what the tool should say."""
    minimal = path("openssl-minimal")
    return [
        ([], "phagundro read "), (["count"], "no such command"), (["--hex"], "no such command"),
        (["read", minimal], "--edition 1 (RFC 2511) or --edition 2 (RFC 4211)"), (["write", "-", minimal], "--edition 1"),
        (["duplicates", minimal], "--edition 1"), (["verdict", "--edition", 2, minimal], "--position"),
        (["verdict", "--position", 0, minimal], "--edition 1"), (["editions", "--edition", 2, minimal], "no such option"),
        (["read", "--edition"], "--edition wants 1 or 2 after it"), (["read", "--edition", "two", minimal], "not a whole number"),
        (["read", "--edition", "-1", minimal], "not a whole number"),
        (["read", "--edition", "18446744073709551616", minimal], "not a whole number"),
        (["read", "--edition", 1, "--edition", 2, minimal], "given twice"), (["read", "--edition", 2, "--hex=1"], "takes no value"),
        (["read", "--edition", 2, "--numbers", "--json", minimal], "only one"), (["read", "--edition", 2, minimal, minimal], "too many"),
        (["read", "--edition", 2, "-x", minimal], "no such option"), (["read", "--edition", 2, "absent.der"], "absent.der: No such file"),
        (["read", "--edition", 2, "tests"], "tests: Is a directory"), (["read", "--edition", 2, "--hex", minimal], "not hex"),
        (["write", "--edition", 2, minimal], "two files"), (["write", "--edition", 2, "-", "-"], "only one"),
        (["write", "--edition", 2, minimal, minimal], "not a row's number"),
        (["verdict", "--edition", 2, "--position", 0, "--part", "absent/part", minimal], "absent/part: No such file"),
        (["verdict", "--edition", 2, "--position", 0, "--part", "-", minimal], "--part wants a file"),
        *wrong_joins(minimal), *wrong_comparisons(minimal),
    ]


def wrong_joins(minimal):
    """Those of join and cut."""
    cut, absent, full = ["cut", "--edition", 2], "absent/folder", "/dev/full"
    return [
        (["join", minimal, minimal], "--edition 1"), (["join", "--edition", 2], "two files or more"),
        (["join", "--edition", 2, minimal], "two files or more"), (["join", "--edition", 2, "-", minimal, "-"], "only one of the files"),
        (["join", "--edition", 2, minimal, "absent.der"], "absent.der: No such file"),
        (["join", "--edition", 2, "--hex", minimal, minimal], "not hex"), (["join", "--edition", 2, "--json", minimal], "no such option"),
        (["join", "--edition", 2, "--output", "absent/join", minimal, minimal], "absent/join: No such file"),
        (["join", "--edition", 2, "--output", full, minimal, minimal], "No space left"),
        (["join", "--edition", 2, "--position", 0, minimal, minimal], "no such option"),
        (["cut", "--position", 0, minimal], "--edition 1"), ([*cut, minimal], "say --position N: which message, counted from 0; or --all"),
        ([*cut, "--position", "last", minimal], "not a whole number"), ([*cut, "--position", 0, minimal, minimal], "too many"),
        ([*cut, "--all", minimal], "say --output-dir DIR"), ([*cut, "--output-dir", absent, minimal], "or --all"),
        ([*cut, "--all", "--output-dir"], "--output-dir wants a folder after it"), ([*cut, "--all=1", minimal], "takes no value"),
        ([*cut, "--all", "--position", 0, "--output-dir", absent, minimal], "--all and --position: only one"),
        ([*cut, "--all", "--output", absent, minimal], "--all and --output: only one"),
        ([*cut, "--all", "--output", absent, "--output-dir", absent, minimal], "--all and --output: only one"),
        ([*cut, "--position", 0, "--output-dir", absent, minimal], "--position and --output-dir: only one"),
        ([*cut, "--all", "--output-dir", "-", minimal], "--output-dir wants a folder"),
        ([*cut, "--all", "--output-dir", absent, minimal], "absent/folder: No such file"),
        ([*cut, "--position", 0, "--output", "absent/cut", minimal], "absent/cut: No such file"),
    ]


def wrong_comparisons(minimal):
    """Those of compare."""
    compare = ["compare", "--edition", 2]
    return [
        (["compare", minimal, minimal], "--edition 1"), (compare, "two files"), ([*compare, minimal], "two files"),
        ([*compare, minimal, minimal, minimal], "too many"), ([*compare, "-", "-"], "only one of the files"),
        ([*compare, minimal, "absent.der"], "absent.der: No such file"), ([*compare, "absent.der", minimal], "absent.der: No such file"),
        ([*compare, "--hex", minimal, minimal], "not hex"), ([*compare, "--numbers", minimal, minimal], "no such option"),
        ([*compare, "--output", "differences", minimal, minimal], "no such option"), ([*compare, "--json=1", minimal], "takes no value"),
    ]


def other_troubles():
    """Command lines and files that are not answered with TROUBLE and a word on what is wrong."""
    wrong = []
    for words, said in wrong_lines():
        status, out, error = call(*words)
        if (status, out) != (TROUBLE, b"") or said not in error:
            wrong.append(f"{words}: status {status}, {error[:200]}")
    for octets in (b"3", b"30 0", b"30:00", b"0x30"):
        if call("read", "--edition", 2, "--hex", octets=octets)[0] != TROUBLE:
            wrong.append(f"{octets} is taken as hex")
    with open("/dev/full", "wb") as full:
        words = [tool(), "read", "--edition", "2", path("openssl-minimal")]
        status = subprocess.run(words, stdout=full, stderr=subprocess.DEVNULL).returncode
        if status != TROUBLE:
            wrong.append(f"an output that can't be written: status {status}")
    status, _, said = call("read", "--edition", 3, path("openssl-minimal"))
    if status != REFUSED or refusal(Answer.UNKNOWN_EDITION) not in said:
        wrong.append(f"edition 3: status {status}, {said}")
    return wrong


TESTS = [
    ("phagundro read gives the expected answers and rows of the corpus, from files, pipes and hex", other_readings),
    ("phagundro read shows where each row and its content begin", other_trees),
    ("phagundro write gives the batches of the corpus again, and writes nothing after a refusal", other_writings),
    ("phagundro write says of rows of four numbers a line what has changed, and takes rows of five in lines of any length", other_old_rows),
    ("phagundro verdict and duplicates give the expected answers of the corpus, and the signed part", other_verdicts),
    ("phagundro editions shows both expected answers of the corpus", other_editions),
    ("phagundro refuses 65,536 bytes as TOO_LONG and accepts 65,535", other_limits),
    ("phagundro answers what is wrong with a command line or a file, and status 2", other_troubles),
]
