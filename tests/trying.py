"""Wrong programs tried: what `rt check` says of a copy of a crate in which changes are made.

`rt ci` tries each must-fail edit too, but it tells one refusal of each and keeps no log. The copies stand outside the repository, since
`rt ci` refuses a file of a crate anywhere else in it, and begin with what a check of the crate as it is has kept.
"""

import contextlib
import functools
import os
import pathlib
import shutil
import subprocess
import tempfile

from layout import CRATES, beneath, crate_lines

READ = ("src", "specs", "proofs", "out")  # what a check of a crate reads
MEMORY = 4 << 30  # bytes that a check may take


def checked(folder, *flags):
    """What a check of the crate in a folder says, and whether it is proved."""
    both = {"stdout": subprocess.PIPE, "stderr": subprocess.STDOUT, "text": True, "errors": "replace"}
    ended = subprocess.run(["rt", "check", *flags], cwd=folder, **both)
    return ended.stdout, ended.returncode == 0


@functools.cache
def prepare(crate):
    """Checks a crate as it is, so that a wrong program needs little more than its own proof."""
    said, proved = checked(crate)
    if not proved:
        raise RuntimeError(f"{crate.name} is not proved as it is: {said[-2000:]}")


def named_again(one, other):
    """Gives a file of kept work, which a check replaces and never writes into, a second name; other files are copied."""
    with contextlib.suppress(OSError):
        if one.endswith(".oantt"):
            return os.link(one, other)
    return shutil.copy2(one, other)


@contextlib.contextmanager
def copied(crate):
    """A copy of a crate with those beneath it, which is gone afterwards."""
    with tempfile.TemporaryDirectory(prefix="wrong-program-") as room:
        top = pathlib.Path(room)
        names = [*beneath(crate.name), crate.name]
        (top / "crates.txt").write_text("".join(crate_lines()[name] + "\n" for name in names))
        for name in names:
            for part in READ:
                if (CRATES / name / part).exists():
                    shutil.copytree(CRATES / name / part, top / "crates" / name / part, copy_function=named_again)
        yield top / "crates" / crate.name


def log(crate, changes):
    """What is said of a crate in which these changes are made, one after another."""
    prepare(crate)
    with copied(crate) as copy:
        for change in changes:
            path = copy / change.file
            path.write_text(path.read_text().replace(change.old, change.new))
        return checked(copy, "--jobs", "1")[0]


def lanes():
    """How many checks are run side by side: no more than there are processors, and memory for."""
    return max(1, min(os.cpu_count(), os.sysconf("SC_PAGE_SIZE") * os.sysconf("SC_PHYS_PAGES") // MEMORY))
