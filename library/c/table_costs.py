#!/usr/bin/env python3
"""Counts the instructions of a table's calls and of the same calls on a pass: library/c/table_costs.py PROGRAM.

PROGRAM is made of table_costs.c. callgrind counts the instructions of its loops, of two numbers of rounds each. By the
thread's own place a get, an insert, a remove and a take may take at most MOST times those of a pass of a growing heap.
An insert that opens a chunk takes many more, so the rounds of inserts are few.
"""
import re
import subprocess
import sys

MOST = 1.15
LOOPS = ["get", "insert", "remove", "take"]


def count(program, loop, rounds):
    words = ["valgrind", "--tool=callgrind", "--callgrind-out-file=/dev/null", program, loop, str(rounds)]
    said = subprocess.run(words, text=True, capture_output=True, check=True).stderr
    return int(re.search(r"Collected : (\d+)", said)[1])


def of_a_round(program, loop):
    return (count(program, loop, 300) - count(program, loop, 100)) / 200


def main(program):
    is_more, inserts = False, {}
    for loop in LOOPS:
        by = {side: of_a_round(program, f"{loop}_{side}") for side in ("table", "pass")}
        # (a round of these inserts first)
        if loop == "insert":
            inserts = by
        by = {side: it - (inserts[side] if loop in ("remove", "take") else 0) for side, it in by.items()}
        ratio = by["table"] / by["pass"]
        is_more = is_more or ratio > MOST
        print(f"table_costs: {loop}: {by['pass']:.1f} instructions by a pass, {by['table']:.1f} by a table, {ratio:.3f}")
    return is_more


if __name__ == "__main__":
    sys.exit(main(*sys.argv[1:]))
