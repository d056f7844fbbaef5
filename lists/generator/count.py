"""Prints how many cases a list has, by kind and answer: count.py FILE.. The tables are those of lists/README.md."""

import sys
from collections import Counter

from list_format import JOB, KINDS, decode


def answer_of(case):
    """The number of the case's answer, or None for a kind that has none. A job's text is `done n` or `refused number ..`."""
    if case.kind == JOB:
        word, number = bytes(case.result["text"]).split()[:2]
        return int(number) if word == b"refused" else 0
    return case.result["answer"].number if "answer" in case.result else None


def describe(path):
    with open(path, "rb") as file:
        bytes_ = file.read()
    cases = list(decode(bytes_))
    counts = Counter((case.kind, answer_of(case)) for case in cases)
    numbers = sorted({number for _, number in counts if number is not None})
    print(f"{path}: {len(bytes_):,} bytes, {len(cases):,} cases")
    print("\n| kind | call | cases |" + "".join(f" {number or 'accepted'} |" for number in numbers))
    print("|---|---|" + "---|" * (1 + len(numbers)))
    for kind in sorted({kind for kind, _ in counts}):
        total = sum(many for (k, _), many in counts.items() if k == kind)
        row = "".join(f" {counts[kind, number] or ''} |" for number in numbers)
        print(f"| {kind} | `{KINDS[kind].name}` | {total:,} |{row}")
    print()


if __name__ == "__main__":
    for argument in sys.argv[1:]:
        describe(argument)
