"""The stored files of a program that reads cases by the crate `cases`."""

from paper import ROW_NUMBERS

TEXT = 65536  # characters of input that such a program reads, unless it reads them all
ROOM = 70000  # octets of a case that it keeps
NUMBERS = ROW_NUMBERS * 30000  # numbers of the table that it lends, which has room for 30,000 rows


def files(cases, most=TEXT):
    """From each case's octets, how they are written for the program, and the answer; `most` is None for a program that reads all."""
    stdin = "".join(written + "\n" for _, written, _ in cases)
    stdout = "".join(answer + "\n" for _, _, answer in cases)
    if most and len(stdin) > most:
        raise ValueError(f"the cases have {len(stdin)} characters")
    for octets, written, _ in cases:
        if len(octets) > ROOM:
            raise ValueError(f"{len(octets)} octets: {written[:60]}")
    return {"stdin": stdin.encode(), "stdout": stdout.encode()}
