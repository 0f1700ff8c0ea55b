#!/usr/bin/env python3
"""Runs random calls of passes beside a shadow of their heap: library/c/seeded.py OUT SEEDS OBJECT..

It compiles seeded.c to the folder OUT, links the objects and archives, and runs it: nothing may be found under as many
seeds. Then it plants each fault of FAULTS in a copy. Some are in what the shadow says, and others stand for a fault of
the library. Each must be found under at least half of 20 seeds, in a heap of a fixed shape, in one that grows, or both.
"""
import pathlib
import shutil
import subprocess
import sys

HERE = pathlib.Path(__file__).resolve().parent
FLAGS = ["-std=c11", "-D_DEFAULT_SOURCE", "-g", "-O1", "-I", HERE.parent / "include"]
WARNINGS = ["-Wall", "-Wextra", "-Wpedantic", "-Wconversion", "-Werror"]
FIXED, GROWING = 0, 4  # numbers of layouts

GOES = "    bool stays = by->owns && !grows();\n"
GONE = "    if (stays) return;\n"

# What is planted, in which file, what it replaces, by what, and in which heaps it is found.
FAULTS = [
    ("the last of 16 words is not stored", "seeded.c", [
        ("words, length, &key)", "words, length - length / WORDS, &key)")], [FIXED, GROWING]),
    ("5 words are taken for those of a slot of 4", "shadow.h", [
        ("{1, 2, 3, 4, 6,", "{1, 2, 3, 5, 6,")], [FIXED, GROWING]),
    ("a page that was emptied keeps its class", "shadow.h", [
        ("        if (is_empty(&(*page)[n])) continue;\n        if (class",
         "        if (is_empty(&(*page)[n]) && (*page)[n].key == 0) continue;\n        if (class"),
        ("        left--;\n", "        if (!is_empty(&(*page)[n])) left--;\n")], [FIXED, GROWING]),
    ("the shadow forgets the holds of a pass that goes home", "seeded.c", [
        (GONE, GONE + "    for (uint64_t n = 0; n < RECENT && n < made; n++) *holds_by(by, recent[n]) = 0;\n")],
     [FIXED, GROWING]),
    ("a pass that goes home gives a hold back", "seeded.c", [
        (GOES, GOES + "    if (made > 0 && !stays) (void)shardheap_release(&by->pass, held_key(by));\n")],
     [FIXED, GROWING]),
    ("an owner that is given back leaves its shard", "seeded.c", [
        (GOES, GOES + "    if (stays) (void)shardheap_leave(&by->pass);\n")], [FIXED]),
    ("a caller that is given back keeps its shards", "seeded.c", [
        ("    IS(any(2) ? shardheap_give", "    if (!grows()) IS(any(2) ? shardheap_give"),
        ("    IS(shardheap_take(&heap, &by->pass)", "    if (!by->pass.full) IS(shardheap_take(&heap, &by->pass)")],
     [GROWING]),
    ("the shadow forgets the shards of other callers", "shadow.h", [
        ("users[n].away && users[n].owns;", "users[n].away && users[n].owns && !grows();")], [GROWING]),
]


def compiled(source, program, objects):
    files = [source / "seeded.c", *objects]
    subprocess.run(["gcc", *FLAGS, *WARNINGS, *files, "-lpthread", "-o", program], check=True)
    return program


def ran(program, first, last, *layout):
    words = [program, str(first), str(last), *map(str, layout)]
    return subprocess.run(words, text=True, capture_output=True, timeout=120)


def planted(out, file, changes):
    """A copy of the sources with a fault."""
    out.mkdir()
    for name in ("seeded.c", "shadow.h", "check.h"):
        shutil.copy(HERE / name, out)
    text = (out / file).read_text()
    for old, new in changes:
        assert text.count(old) == 1, f"{file} has not once what is replaced: {old}"
        text = text.replace(old, new)
    (out / file).write_text(text)
    return out


def main(out, seeds, *objects):
    out = pathlib.Path(out)
    plain = ran(compiled(HERE, out / "seeded", objects), 1, seeds)
    print(plain.stdout + plain.stderr, end="")
    missed = plain.returncode != 0
    for number, (name, file, changes, layouts) in enumerate(FAULTS):
        source = planted(out / f"seeded_{number}_source", file, changes)
        program = compiled(source, out / f"seeded_{number}", objects)
        for layout in layouts:
            found = sum(ran(program, seed, seed, layout).returncode == 1 for seed in range(1, 21))
            where = "fixed" if layout == FIXED else "growing"
            print(f"seeded: {where}: {name}: found under {found} of 20 seeds")
            missed = missed or found < 10
    return missed


if __name__ == "__main__":
    sys.exit(main(*sys.argv[1:]))
