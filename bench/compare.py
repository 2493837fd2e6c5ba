"""Compares the answers of two programs to one list, line by line.

    python3 bench/compare.py LIST EXACT OTHER

EXACT has the right answers. Says how many lines of OTHER differ from them, by how many steps at most, and shows the first few.
"""

import sys

SHOWN = 4


def lines(path):
    with open(path, "rb") as file:
        parts = file.read().split(b"\r\n")
    if parts.pop() != b"":
        sys.exit(f"compare: {path} does not end CRLF")
    return [part.decode("ascii", "replace") for part in parts]


def temperature(answer):
    """The step of an answer line, or None for a refusal."""
    fields = answer.split(",")
    return int(fields[2]) if fields[3] == "0" else None


def main():
    if len(sys.argv) != 4:
        sys.exit("usage: python3 bench/compare.py LIST EXACT OTHER")
    # Each program answers the header by one line and each reading by one.
    readings, exact, other = (lines(path)[1:] for path in sys.argv[1:])
    if not len(readings) == len(exact) == len(other):
        sys.exit(f"compare: {len(readings)} lines have {len(exact)} and {len(other)} answers")

    differing = [row for row in zip(readings, exact, other) if row[1] != row[2]]
    print(f"  {len(differing)} of {len(exact)} answers of the peer are not the exact ones", end="")
    by_steps = {}
    otherwise = 0
    for _, right, wrong in differing:
        steps = temperature(right), temperature(wrong)
        if None in steps:
            otherwise += 1
        else:
            off = steps[1] - steps[0]
            by_steps[off] = by_steps.get(off, 0) + 1
    if by_steps:
        most = max(map(abs, by_steps))
        each = ", ".join(f"{by_steps[off]} by {off:+}" for off in sorted(by_steps))
        print(f"; off by at most {most} step{'s' if most > 1 else ''} of 0.1 mK: {each}", end="")
    if otherwise:
        print(f"; {otherwise} differ in being refused", end="")
    print()
    for reading, right, wrong in differing[:SHOWN]:
        print(f"    {reading}\n      exact {right}\n      peer  {wrong}")


if __name__ == "__main__":
    main()
