#!/usr/bin/env python3
"""Summarises rounds of a bench: rounds.py NAME [RECORDS] < ROUNDS

A round is a line `NAME A B C D`: nanoseconds by the wall, of the library's calls and of the bare ones, and then the same of the processor.
It prints the medians, and the median of the rounds' quotients; with a count of records in its place what each of them takes beside the
bare calls.
"""

import statistics
import sys


def main():
    name = sys.argv[1]
    lines = [line.split() for line in sys.stdin]
    rounds = [tuple(map(int, line[1:])) for line in lines if len(line) == 5 and line[0] == name]
    for clock, part in (("wall", slice(0, 2)), ("processor", slice(2, 4))):
        pairs = [numbers[part] for numbers in rounds]
        own, bare = (statistics.median(side) / 1000 for side in zip(*pairs))
        if len(sys.argv) > 2:
            each = statistics.median(own - bare for own, bare in pairs) / 1000 / int(sys.argv[2])
            told = f"{each:.3f} us a record beside the bare"
        else:
            told = f"quotient {statistics.median(own / max(bare, 1) for own, bare in pairs):.3f}"
        print(f"{name}, {clock}: {own:.1f} us, bare {bare:.1f} us, {told}, {len(rounds)} rounds")


main()
