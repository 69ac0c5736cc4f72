"""Each wrong program of the must-fail edits by itself, in a copy of its crate: which proof refuses it, and how."""

import concurrent.futures

import must_fail
import trying

# What the log of a crate that is still proved has.
PROVED = "\nlogic=proved "


def line(program):
    return f"{program.edit}: {program.says}"


def programs(names=()):
    """The wrong programs whose line has one of the names in it, in any case; without a name, all."""
    every = [program for edit in must_fail.edits() for program in edit]
    return [program for program in every if not names or any(name.lower() in line(program).lower() for name in names)]


def judged(program):
    """Whether a wrong program is refused by the proof that it names, and what that proof says, or what is wrong."""
    log = trying.log(program.crate, program.changes)
    if PROVED in log:
        return False, "the crate is proved with it"
    for proof in program.proofs:
        said = must_fail.refusal(log, proof)
        if said:
            return True, f"{must_fail.parted(proof)[0]}: {said.splitlines()[0][:200]}"
    named = ", ".join(program.proofs) or "a proof that it names"
    others = ", ".join(sorted({file for file, _, _ in must_fail.facts(log)})) or "no proof, for a fact"
    return False, f"not refused by {named}, but by {others}"


def run(chosen, jobs):
    """Tries wrong programs, prints a line and a refusal for each, and answers how many failed."""
    failed = 0
    for crate in {program.crate for program in chosen}:
        trying.prepare(crate)
    with concurrent.futures.ThreadPoolExecutor(jobs) as pool:
        for program, (refused, said) in zip(chosen, pool.map(judged, chosen)):
            failed += not refused
            print(f"{'refused' if refused else 'FAILED'} {line(program)}\n    {said}", flush=True)
    print(f"{len(chosen) - failed} refused by their own proof, {failed} failed")
    return failed
