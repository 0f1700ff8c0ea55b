#!/usr/bin/env python3
"""Counts the instructions of a call through the C++ header and through the C header: library/cpp/costs.py PROGRAM.

PROGRAM is made of costs.cpp. callgrind counts the instructions of its loops, of two numbers of rounds each. A get with
its release must take at most HOOKS more by C++ than by C, since each of the two looks whether its pass has a hook, and
the other loops at most MORE more.
"""
import re
import subprocess
import sys

HOOKS = 4
MORE = 15
LOOPS = ["get", "try_get", "load", "read", "insert"]


def count(program, loop, rounds):
    words = ["valgrind", "--tool=callgrind", "--callgrind-out-file=/dev/null", program, loop, str(rounds)]
    said = subprocess.run(words, text=True, capture_output=True, check=True).stderr
    return int(re.search(r"Collected : (\d+)", said)[1])


def of_a_round(program, loop):
    return (count(program, loop, 3000) - count(program, loop, 1000)) / 2000


def main(program):
    more = False
    for loop in LOOPS:
        by_c, by_cpp = of_a_round(program, f"{loop.removeprefix('try_')}_c"), of_a_round(program, f"{loop}_cpp")
        more = more or by_cpp > by_c + (HOOKS if loop.endswith("get") else MORE)
        print(f"costs: {loop}: {by_c:.1f} instructions by C, {by_cpp:.1f} by C++")
    return more


if __name__ == "__main__":
    sys.exit(main(*sys.argv[1:]))
