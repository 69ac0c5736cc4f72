"""The stored files of each program (stdin, stdout, args) are those that its script here builds: tests/PROGRAM.py, function files()."""

import functools
import importlib

from layout import CRATES, programs

STORED = ("stdin", "stdout", "args")


def built(program):
    return importlib.import_module(program).files()


def differences(program):
    files = built(program)
    found = [] if "stdout" in files else [f"tests/{program}.py builds no stdout"]
    for name in STORED:
        path = CRATES / program / name
        stored = path.read_bytes() if path.exists() else None
        if stored != files.get(name):
            found.append(f"crates/{program}/{name} is not what tests/{program}.py builds")
    return found


def write(program):
    for name, content in built(program).items():
        (CRATES / program / name).write_bytes(content)


TESTS = [
    (f"{program}: the stored files are those that its script builds", functools.partial(differences, program)) for program in programs()
]
