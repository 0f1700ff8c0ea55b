#!/usr/bin/env python3
"""Runs threads of a table that take turns under seeds: library/c/table_turns.py OUT SEEDS OBJECT..

It compiles table_turns.c with library/src/table.c to the folder OUT, links the objects and archives, and runs it:
nothing may be found under as many seeds. Then it plants each fault of FAULTS in places.h beside a copy of table.c: it
must be found, as what it is, under at least half of 20 seeds.
"""
import pathlib
import shutil
import subprocess
import sys

TOP = pathlib.Path(__file__).resolve().parent.parent.parent
SOURCE = TOP / "library/src"
FLAGS = ["-std=c11", "-D_DEFAULT_SOURCE", "-g", "-O1", "-I", TOP / "library/include"]
WARNINGS = ["-Wall", "-Wextra", "-Wpedantic", "-Wconversion", "-Werror"]
WRAPS = "-Wl," + ",".join(f"--wrap=shardheap_raw_{it}" for it in ("insert", "remove", "load", "next_live"))

# What is planted, what of places.h it replaces, by what, and what the program says.
FAULTS = [
    ("a place is given to two threads",
     "    } while (!atomic_compare_exchange_weak_explicit(of, &free_ones, free_ones & (free_ones - 1), "
     "memory_order_acquire,\n                                                    memory_order_relaxed));\n",
     "    } while (0);\n    atomic_store(of, free_ones & (free_ones - 1));\n", "two threads use one place"),
    ("a resting place is lost",
     "    atomic_fetch_or_explicit(of, bit(number), memory_order_release);\n",
     "    uint64_t before = atomic_load(of);\n    SHARDHEAP_MARK();\n"
     "    (void)atomic_compare_exchange_strong(of, &before, before | bit(number));\n",
     "a resting place is lost"),
]


def compiled(source, program, objects):
    with_source = f'-DTABLE="{source / "table.c"}"'
    sources = [TOP / "library/c/table_turns.c", *objects]
    subprocess.run(["gcc", *FLAGS, *WARNINGS, with_source, *sources, WRAPS, "-lpthread", "-o", program], check=True)
    return program


def ran(program, first, last):
    return subprocess.run([program, str(first), str(last)], text=True, capture_output=True, timeout=120)


def main(out, seeds, *objects):
    out = pathlib.Path(out)
    plain = ran(compiled(SOURCE, out / "table_turns", objects), 1, seeds)
    print(plain.stdout + plain.stderr, end="")
    missed = plain.returncode != 0
    for number, (name, old, new, said) in enumerate(FAULTS):
        text = (SOURCE / "places.h").read_text()
        assert old in text, f"places.h has no longer what is replaced: {name}"
        planted = out / f"planted_{number}"
        planted.mkdir()
        shutil.copy(SOURCE / "table.c", planted)
        (planted / "places.h").write_text(text.replace(old, new))
        program = compiled(planted, out / f"table_turns_{number}", objects)
        found = sum(said in ran(program, seed, seed).stderr for seed in range(1, 21))
        print(f"table_turns: {name}: found under {found} of 20 seeds")
        missed = missed or found < 10
    return missed


if __name__ == "__main__":
    sys.exit(main(*sys.argv[1:]))
