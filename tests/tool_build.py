"""The tool as make builds it: its memory, the targets of the Makefile and the benchmarks."""

import functools
import re

import corpus
import host
import host_header
import tool
from layout import ROOT

SANITIZED = 20  # corpus files that the tool built with AddressSanitizer runs on: the shortest, and a long one beside them
WATCHED = 2  # those that it runs on under valgrind
LONG_FILE = "openssl-batch-259-ec-sig-near-64k"
OTHER_FILE = "openssl-batch-10-ec-sig"  # what each is compared with
MEASURED = ("openssl-minimal", "openssl-sig-rsa2048")
COUNTED = {  # what the benchmarks show of these and of the batches that they make, and how often
    ("", "openssl-minimal", "one RSA", "names", "validity"): 4,
    ("bytes", "11", "651", "65452", "65278"): 1,
    ("rows", "5", "10", "2021", "3097"): 1,
    ("messages", "1", "1", "202", "258"): 1,
    ("duplicates found", "no", "no", "no", "no"): 1,
}
NOT_TIMED = {"phagundro_moment": ("-", "-", "-")}  # calls with nothing to do on the first batches, and what is shown there
TIMED = {  # rows of times, and how often
    **dict.fromkeys(("memcpy", "least walk", "strict walk", "strict walk, compiled by gcc"), 2),
    **dict.fromkeys(("phagundro_read, rows cleared first", "phagundro_write, leaves elsewhere", "accepting both, memcpy"), 2),
    **dict.fromkeys(("reading both", "phagundro_compare, same bytes"), 2),
    **dict.fromkeys(("write / read", "write, leaves elsewhere / read", "duplicates / accept", "read / strict walk"), 1),
    **dict.fromkeys(("join / accepting both, memcpy", "cut / accept"), 1),
    **dict.fromkeys((f"{call} / reading both" for call in ("compare", "compare, same bytes", "compare_part")), 1),
    **{f"phagundro_{call}, {fault}": 1 for call in ("accept", "read") for fault in ("accepted", "nest (3)", "grammar (8)", "other edition (9)")},
}
TEXTS = ("ASCII", *(f"ASCII, {which} another" for which in ("the last character", "every 100th character", "every 9th character")), "Cyrillic")


@functools.cache
def sanitized():
    flags = "-g -O1 -fsanitize=address,undefined -fno-sanitize-recover=all"
    tool.made("BUILD=target/tool-sanitized", f"CFLAGS={flags}")
    return ROOT / "target/tool-sanitized/phagundro"


@tool.scratch
def other_targets(folder):
    """Where the Makefile's targets don't do what the README's table of commands says."""
    wrong = []
    built = f"BUILD={folder / 'build'}"
    tool.made("install", built, f"DESTDIR={folder / 'package'}", "PREFIX=/usr")
    described = (folder / "package/usr/lib/pkgconfig/phagundro.pc").read_text()
    wrong += [f"the pkg-config file of a package has no {line}" for line in ("prefix=/usr", f"Version: {tool.version()}")
              if line not in described.splitlines()]
    host.did(["make", "clean", built])
    if (folder / "build").exists():
        wrong.append("make clean leaves the tool")
    if "cd crates/capi && rt lib\n" not in host.did(["make", "-n", "ARCHIVE=target/absent.a"]):
        wrong.append("make doesn't build an archive that isn't there")
    if host.did(["make", "-n", "test"]) != ".ci/run\n":
        wrong.append("make test is not .ci/run")
    targets = re.search(r"^\.PHONY: (.*)$", (ROOT / "Makefile").read_text(), re.MULTILINE)[1].split()
    if [line.split()[1] for line in host.did(["make", "help"]).splitlines()] != targets:
        wrong.append("make help doesn't list the targets")
    return wrong


def chosen(count):
    """The shortest files of the corpus, and one near 64 KiB."""
    by_length = sorted(corpus.names(), key=lambda name: (len(corpus.octets(name)), name))
    return [*by_length[: count - 1], LONG_FILE]


@tool.scratch
def every_call(folder, name, *program):
    """What every command answers for a file: the statuses and what is written."""
    rows = tool.call("read", "--edition", 2, "--numbers", tool.path(name))[1]
    words = [["read", "--edition", 1], ["read", "--edition", 2, "--json"], ["verdict", "--edition", 2, "--position", 0],
             ["duplicates", "--edition", 2], ["editions"], ["write", "--edition", 2, "-"],
             ["join", "--edition", 2, *[tool.path("openssl-minimal")] * 2], ["cut", "--edition", 2, "--position", 0],
             ["cut", "--edition", 2, "--all", "--output-dir", folder], ["compare", "--edition", 2, tool.path(OTHER_FILE)],
             ["compare", "--edition", 2, "--json", tool.path(OTHER_FILE)]]
    answers = [tool.call(*program[1:], *some, tool.path(name), octets=rows, program=program[0]) for some in words]
    return answers, {path.name: path.read_bytes() for path in folder.iterdir()}


def unsound_memory():
    """Files on which the tool built with AddressSanitizer, or the tool under valgrind, doesn't answer as the tool alone does."""
    wrong = [f"{name}: another answer under AddressSanitizer" for name in chosen(SANITIZED)
             if every_call(name, sanitized()) != every_call(name, tool.tool())]
    valgrind = ["valgrind", "-q", "--error-exitcode=99", "--leak-check=full", "--main-stacksize=8388608"]
    return wrong + [f"{name}: another answer under valgrind" for name in chosen(WATCHED)
                    if every_call(name, *valgrind, tool.tool()) != every_call(name, tool.tool())]


def other_demo():
    """What make demo leaves out of the sample that it shows."""
    shown = host.did(["make", "demo"])
    wanted = ["edition 1 (RFC 2511): accepted, 10 rows", "certReqId 2", "verdict 2, signature over the certReq", "signed part: 158 bytes"]
    return [f"make demo doesn't show: {words}" for words in wanted if words not in shown]


def cells(line):
    return tuple(cell.strip() for cell in line.strip("|").split("|"))


def timed(name, times):
    """The cells of a row that must have a time; all of them, if the others aren't as they should be."""
    others = NOT_TIMED.get(name, ())
    return times[len(others):] if tuple(times[:len(others)]) == others else times


@tool.scratch
def other_benchmarks(folder):
    """Inputs, calls and texts of which the benchmarks show nothing. What they take is not looked at."""
    tool.made(f"BUILD={folder}", f"{folder}/bench")
    shown = host.did([folder / "bench", *map(tool.path, MEASURED)])
    rows = [cells(line) for line in shown.splitlines() if line.startswith("|")]
    names = [name for name, *times in rows if all(re.fullmatch(r"\d+\.\d+", time) for time in timed(name, times))]
    wanted = TIMED | dict.fromkeys(host_header.CALLS, 2) | dict.fromkeys(TEXTS, 1)
    return [f"{row}: {shown[-500:]}" for row, times in COUNTED.items() if rows.count(row) != times] + [
        f"{name}: {shown[-500:]}" for name, times in wanted.items() if names.count(name) != times
    ]


TESTS = [
    ("phagundro is sound under AddressSanitizer and valgrind", unsound_memory),
    ("make demo shows a sample batch", other_demo),
    ("the benchmarks show each call on each batch and each text, whatever time it takes", other_benchmarks),
    ("make installs under a package's root, cleans, tests, lists its targets, and builds an archive that isn't there", other_targets),
]
