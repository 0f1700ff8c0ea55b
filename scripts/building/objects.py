"""Object files of a program without a proof, for schedule, tsan and locked-steps of scripts/compiled.

`whole.o` and `broken.o`, which has the heaps of broken.py, have calls of ThreadSanitizer, which clang puts in at the
end of its own passes. `steps.o` has none, but each function of STEPS and of LOOK is kept as a function.
"""
import concurrent.futures
import contextlib
import pathlib
import re
import shutil
import subprocess
import tempfile

import tree
from building import module
from compiled import broken

HERE = tree.TOP / "scripts/compiled"
# The C functions that a program under the scheduler calls in another form.
WRAPPED = "pthread_create pthread_join pthread_detach pthread_self sched_yield syscall _exit".split()
WARNINGS = ["-std=gnu11", "-O2", "-Wall", "-Wextra", "-Werror"]
# The steps of a pass: these functions of sh_table's file table.rt.
STEPS = "add sub or set_present swap store exchange load".split()
STEP = re.compile(r'@"sh_table::table::[^"\n]*?\b(' + "|".join(STEPS) + r')(?:::<[^"\n]*)?"')
# The looks of passes and of owners of shards.
LOOK = re.compile(r'@"sh_pass::calls::look_key(?:::<[^"\n]*)?"')
# By these flags functions of the same instructions may be one function.
MERGING = "-Xclang -fmerge-functions -mllvm -mergefunc-use-aliases"


def with_steps(text):
    """The module in which each step and each look stays a function."""

    def kept(found):
        line = found[0]
        name = line.split("(")[0]
        if not STEP.search(name) and not LOOK.search(name):
            return line
        return line.removesuffix("#0 {").replace(" alwaysinline ", " ") + "noinline #0 {"

    return re.sub(r"(?m)^define internal [^\n]*#0 \{$", kept, text)


def made(top, crate, is_broken):
    """The modules of the object files, and the flags of each."""
    text, with_tsan = module.text_of(crate, top), [*module.FLAGS, "-fsanitize=thread"]
    if is_broken:
        return {"broken": (broken.with_selectors(module.with_calls(text)), with_tsan)}
    unmerged = " ".join(module.FLAGS).replace(MERGING, "").split()
    return {"whole": (module.with_calls(text), with_tsan), "steps": (with_steps(text), unmerged)}


def objects_of(crate, is_broken=False):
    """The folder with the object files, which are made if the sources are others than those of the last ones."""
    folder = tree.CRATES / crate / "out/scheduling"
    folder.mkdir(parents=True, exist_ok=True)
    stamp = folder / ("broken.stamp" if is_broken else "whole.stamp")
    wanted = module.sum_of(crate, *[HERE / "broken.py"] * is_broken)
    if stamp.exists() and stamp.read_text() == wanted:
        return folder
    stamp.unlink(missing_ok=True)
    with contextlib.ExitStack() as stack:
        top = tree.TOP
        if is_broken:
            top = pathlib.Path(stack.enter_context(tempfile.TemporaryDirectory(prefix="broken-heaps-")))
            shutil.copytree(tree.CRATES, top / "crates", ignore=shutil.ignore_patterns("out"))
            shutil.copy(tree.TOP / "crates.txt", top)
            broken.break_sources(top / "crates")
        pool = stack.enter_context(concurrent.futures.ThreadPoolExecutor())
        for one in [pool.submit(module.compiled, text, folder / f"{name}.o", flags)
                    for name, (text, flags) in made(top, crate, is_broken).items()]:
            one.result()
    stamp.write_text(wanted)
    return folder


def linked(object_file, to, sources, words):
    """Links the object file with the toolchain's C and these C files."""
    subprocess.run(["gcc", *WARNINGS, object_file, *sources, *module.C, *words, "-o", to], check=True)


def scheduled(object_file, to):
    """The program under the scheduler of turns.c."""
    wraps = [f"-Wl,--wrap={name}" for name in WRAPPED]
    linked(object_file, to, [HERE / "turns.c", HERE / "copies.c"], wraps)
