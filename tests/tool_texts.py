"""What the tool says: its help, its meanings, the differences between the editions, and the examples that the README and the man page
print."""

import json
import os
import re
import subprocess

import corpus
import crmf_cases
import grammar_model
import host
import tool
from layout import ROOT
from paper import Answer

README = ROOT / "README.md"
CHANGELOG = ROOT / "CHANGELOG.md"
MANUAL = ROOT / "tools/phagundro.1"
MEANINGS = ROOT / "tools/meanings.c"
NUMBERS, VERDICTS, KINDS = "The number of an answer", "The verdict on a message's proof", "The kind of a row"  # headings of the header
COMMANDS = ["read", "write", "verdict", "duplicates", "editions", "join", "cut", "compare"]
ENUMERATOR = re.compile(r"(PHAGUNDRO_\w+) += (\d+),? +/\* (.*) \*/")

# Batches, written as in crmf_cases.txt, that one edition refuses with 9: that edition, the place, and the difference with its form; none
# where the other edition refuses the batch with 10
PUBLISHED = "location beside method 0 in pkiPublicationInfo"
DIFFERENCES = [
    ("proof{A2{A3{alg bits}}}", 1, 13, 1, "agreeMAC in a proof"), ("proof{A3{A4{}}}", 1, 13, 1, "encryptedKey in a proof"),
    ("info1{0C{}}", 1, 26, 2, "pairs as UTF-8 in regInfo"), ("info1{04{}}", 2, 26, 2, "pairs as octets in regInfo"),
    ("published{30{02{00} 86{}}}", 2, 38, 3, PUBLISHED), ("published{30{02{00} 81{01}}}", 2, 38, 3, PUBLISHED),
    ("template{80{00}}", 2, 11, 4, "version other than 2 in a template"), ("template{81{01}}", 2, 11, 4, "serialNumber in a template"),
    ("template{A2{06{2A}}}", 2, 11, 4, "signingAlg in a template"), ("template{87{00}}", 2, 11, 4, "issuerUID in a template"),
    ("template{88{00}}", 2, 11, 4, "subjectUID in a template"), ("template{80{02} 81{01}}", 2, 14, 4, "serialNumber in a template"),
    ("template{80{01} 81{01}}", 2, 11, 4, "version other than 2 in a template"),
    ("info2{30{02{00} 30{87{00}}}}", 2, 33, 4, "issuerUID in a template"),
    ("30{30{30{02{00} 30{81{01}}} 30{octetpairs}}}", 2, 11, 4, "serialNumber in a template"),
    ("30{30{request 30{octetpairs}} 30{30{02{00} 30{81{01}}}}}", 2, 26, 2, "pairs as octets in regInfo"),
    ("30{30{30{02{01*9} 30{}} A2{A4{}}}}", 1, 21, None, None), ("30{30{30{02{01*9} 30{88{00}}}}}", 2, 19, None, None),
]


def other_help():
    """Help that is missing, leaves out an option that its synopsis has, or whose synopsis is not the man page's; and the version."""
    wrong = []
    status, general, _ = tool.call("--help")
    synopsis = MANUAL.read_text().split(".SH DESCRIPTION")[0]
    plain = re.sub(r"\\f[BIR]", "", synopsis).replace("\\-", "-")
    if status != tool.ACCEPTED:
        wrong.append(f"--help: status {status}")
    for command in COMMANDS:
        status, out, _ = tool.call(command, "--help")
        lines, text = out.decode().split("\n\n", 1)
        for line in lines.splitlines():
            known = f"  {line}\n" in re.sub(r"(?<=\w) +", " ", general.decode()) and line in plain.splitlines()
            if status != tool.ACCEPTED or not known:
                wrong.append(f"{command} --help: status {status}, {line}")
        wrong += [f"{command} --help is silent on {option}" for option in re.findall(r"--[a-z-]+", lines)
                  if not re.search(rf"^  {option}\b(?!-)", text, re.MULTILINE)]
    if tool.call("--version") != (tool.ACCEPTED, f"phagundro {tool.version()}\n".encode(), ""):
        wrong.append(f"--version: {tool.call('--version')}")
    return wrong


def other_version():
    """Where the changelog doesn't begin with the header's version."""
    newest = re.search(r"^## \[(.*?)\]", CHANGELOG.read_text(), re.MULTILINE)[1]
    return [] if newest == tool.version() else [f"the changelog begins with {newest}, the header has {tool.version()}"]


def header_words(heading):
    """From the enum of the header after a heading: the names, and by number the words of each comment."""
    body = re.search(rf"{heading}.*?enum \{{(.*?)\}};", host.HEADER.read_text(), re.DOTALL)[1]
    found = ENUMERATOR.findall(body)
    return [name for name, _, _ in found], {int(number): words for _, number, words in found}


def meanings():
    """The header's meaning and place of each number that comes back."""
    split = {number: words.rpartition("; ") for number, words in header_words(NUMBERS)[1].items()}
    return {number: (meaning, place) for number, (meaning, _, place) in split.items()}


def after_meaning(octets, edition, number):
    """What follows a refusal's meaning: the difference that the model of the grammar meets first, if it is for one."""
    if number != Answer.OTHER_EDITION:
        return "\n"
    _, met = grammar_model.walk(octets, {3 - edition})
    return f" (D{min(met.differences)[2]}: "


def other_refusals():
    """Where a refusal in words lacks its number, place, meaning or difference, or the byte at its place in brackets."""
    wrong, seen = [], set()
    for (name, edition), (number, place, _) in corpus.expected().items():
        if number == Answer.ACCEPTED:
            continue
        seen.add(number)
        status, out, said = tool.call("read", "--edition", edition, tool.path(name))
        octets = corpus.octets(name)
        byte = f"[{octets[place]:02X}]"
        words = f"refused with {tool.refusal(number, place)}{meanings()[number][0]}{after_meaning(octets, edition, number)}"
        if status != tool.REFUSED or out or words not in said or byte not in said:
            wrong.append(f"{name}, edition {edition}: status {status}, {said[:300]}")
    return wrong if len(seen) > 3 else wrong + [f"only the numbers {seen}"]


def asked(edition):
    """Commands that take a batch from standard input and refuse it in an edition, each with whether it has --json."""
    chosen, message, minimal = ["--edition", edition], ["--position", 0], tool.path("openssl-minimal")
    return [
        (["read", *chosen], True), (["verdict", *chosen, *message], True), (["duplicates", *chosen], True), (["editions"], True),
        (["join", *chosen, "-", minimal], False), (["join", *chosen, minimal, "-"], False), (["cut", *chosen, *message], False),
        (["compare", *chosen, "-", minimal], True), (["compare", *chosen, minimal, "-"], True),
    ]


def other_differences():
    """Refusals with 9 that don't name their difference, or name one that isn't known, in words or as JSON."""
    wrong, meaning = [], meanings()[Answer.OTHER_EDITION][0]
    for batch, edition, place, number, form in DIFFERENCES:
        octets = crmf_cases.built(batch)[0]
        words = f" (D{number}: {form}, edition {3 - edition} only)" if number else ""
        line = f"refused with {tool.refusal(Answer.OTHER_EDITION, place)}{meaning}{words}\n"
        for command, has_json in asked(edition):
            _, out, said = tool.call(*command, octets=octets)
            if line not in out.decode(errors="replace") + said:
                wrong.append(f"{batch}: {command[0]} says {out}, {said}")
            if has_json:
                answer = json.loads(tool.call(*command, "--json", octets=octets)[1])
                answer = answer[edition - 1] if command[0] == "editions" else answer
                found = [answer.get(member) for member in ("number", "place", "difference", "form")]
                if found != [Answer.OTHER_EDITION, place, number, form]:
                    wrong.append(f"{batch}: {command[0]} --json has {found}")
    return wrong


def other_lists():
    """Where the header, the man page and the help don't list the same differences, or the tool's table has one that isn't listed so."""
    header = re.findall(r"^ \*     (D\d)  (.*)$", host.HEADER.read_text(), re.MULTILINE)
    manual = re.findall(r"^\.B (D\d)\n(.*)$", MANUAL.read_text().replace("\\-", "-"), re.MULTILINE)
    shown = re.findall(r"^  (D\d)  (.*)$", tool.call("editions", "--help")[1].decode(), re.MULTILINE)
    wrong = [f"the {name} lists {found}" for name, found in (("man page", manual), ("help", shown)) if found != header]
    table = re.findall(r'= \{(D\d), PHAGUNDRO_RFC(\d+), "(.*) in (.*)"\},', MEANINGS.read_text())
    for number, document, what, where in table:
        parts = [part for part in dict(header)[number].split("; ") if what in part]
        if len(parts) != 1 or not parts[0].endswith(f" in {where}: edition {1 if document == '2511' else 2} only"):
            wrong.append(f"{number}: {what} in {where} is not listed")
    return wrong if {number for number, *_ in table} == set(dict(header)) else wrong + [f"only {table}"]


def other_meanings():
    """Where the tool's tables or the README's table of numbers are not the header's."""
    wrong = []
    source = MEANINGS.read_text()
    told = re.findall(r'\[(PHAGUNDRO_\w+)\] = \{"(.*)", (true|false)\},', source)
    names, _ = header_words(NUMBERS)
    if told != [(name, words, str(place != "place 0").lower()) for name, (words, place) in zip(names, meanings().values(), strict=True)]:
        wrong.append("the tool's meanings are not the header's")
    section = README.read_text().split("## Numbers that come back")[1].split("\n## ")[0]
    if re.findall(r"^\| (\d+) \| (.*) \| (.*) \|$", section, re.MULTILINE) != [
        (str(number), words, place.removeprefix("place ")) for number, (words, place) in meanings().items()
    ]:
        wrong.append("the README's table of numbers is not the header's")
    names, verdicts = header_words(VERDICTS)
    told = re.findall(r'\[(PHAGUNDRO_VERDICT_\w+)\] = "(.*)",', source)
    if [name for name, _ in told] != names or any(not verdicts[number].startswith(words) for number, (_, words) in enumerate(told)):
        wrong.append("the tool's verdicts are not the header's")
    names, kinds = header_words(KINDS)
    named = {name: words.partition(",")[0] for name, words in zip(names, kinds.values(), strict=True)}
    if dict(re.findall(r'\[(PHAGUNDRO_KIND_\w+)\] = "(.*)",', source)) != named:
        wrong.append("the tool's names of the kinds are not the header's")
    return wrong


def printed():
    """The examples of the README and of the man page: a command, and what is printed below it."""
    text = "\n".join(re.findall(r"^```console\n(.*?)^```$", README.read_text(), re.DOTALL | re.MULTILINE))
    manual = MANUAL.read_text().split(".SH EXAMPLES")[1]
    text += "\n" + "\n".join(re.findall(r"^\.nf\n(.*?)^\.fi$", manual, re.DOTALL | re.MULTILINE)).replace("\\-", "-")
    return [(command, below.strip("\n")) for command, below in re.findall(r"^\$ (.*)\n((?:(?!\$ ).*\n?)*)", text, re.MULTILINE)]


@tool.scratch
def other_examples(folder):
    """Where an example, run with the installed tool, library and man page in a folder of its own, prints something else."""
    prefix = folder / "installed"
    tool.made("install", f"PREFIX={prefix}")
    wrong = [f"{name} is not installed" for name in (
        "bin/phagundro", "include/phagundro.h", "lib/libphagundro.a", "lib/pkgconfig/phagundro.pc", "share/man/man1/phagundro.1"
    ) if not (prefix / name).is_file()]
    (folder / "tests").symlink_to(ROOT / "tests")
    (folder / "example.c").write_text(re.search(r"^```c\n(.*?)^```$", README.read_text(), re.DOTALL | re.MULTILINE)[1])
    around = dict(os.environ, PATH=f"{prefix / 'bin'}:{os.environ['PATH']}", PKG_CONFIG_PATH=str(prefix / "lib/pkgconfig"))
    for command, below in printed():
        ended = subprocess.run(["bash", "-c", command.replace("-std=c11", "-std=c11 -Wall -Wextra -Werror")], cwd=folder, env=around,
            stdout=subprocess.PIPE, stderr=subprocess.STDOUT, text=True, timeout=60)
        if ended.stdout.strip("\n") != below:
            wrong.append(f"{command}: {ended.stdout[:300]}")
    return wrong if len(printed()) > 12 else wrong + [f"only {len(printed())} examples"]


TESTS = [
    ("phagundro shows a refusal's number, place, meaning and byte", other_refusals),
    ("phagundro names the difference between the editions that a refusal with 9 is for, in words and as JSON", other_differences),
    ("the header, the man page and the help list the same differences between the editions, and the tool's table has them", other_lists),
    ("phagundro has help for every command as the man page has it, and its version", other_help),
    ("the changelog begins with the header's version", other_version),
    ("the tool's meanings and the README's numbers are the header's", other_meanings),
    ("the examples of the README and the man page run as printed, with what make install puts in place", other_examples),
]
