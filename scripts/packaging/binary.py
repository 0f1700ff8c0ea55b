"""The two forms of the library that a package has, of one archive: libshardheap.a and libshardheap.so.

Both have the memory functions of library/src/memory.c and the tables of library/src/table.c inside, and the headers'
calls by library/src/checked_calls.c. Both show these calls and those that they check, named .._raw_.., and nothing
else, so that no name of theirs meets one of the program.
"""
import re
import sys

import abi
from checks import written
from record import TOP

MAP = TOP / "library/shardheap.map"
# What the library takes from the C library.
TAKEN = {"malloc", "aligned_alloc", "realloc", "free", "madvise", "memcpy", "memmove", "memset", "memcmp", "bcmp"}
# And what tables take of it besides, and of the linker for what a thread has.
TAKEN |= {"_GLOBAL_OFFSET_TABLE_"} | {f"pthread_{it}" for it in ("key_create", "setspecific")}
TAKEN |= {f"pthread_mutex_{it}" for it in ("init", "destroy", "lock", "trylock", "unlock")}
WARNINGS = ["-Wall", "-Wextra", "-Wpedantic", "-Wconversion", "-Werror"]


def declared():
    """The calls that the headers declare, and those that they have with checks."""
    return {abi.name_of(it) for it in abi.calls(abi.HEADERS)}


def shown(file, *words):
    """The names that an object, an archive (`-g`) or a shared library (`-D`) defines for others."""
    return set(re.findall(r"^\w+ [B-Z] (\w+)", written("nm", "--defined-only", *words, file), re.M))


def compare(file, found, wanted):
    for name in sorted(found ^ wanted):
        sys.exit(f"package: {file.name} {'shows' if name in found else 'does not show'} {name}, "
                 f"which {'no header declares' if name in found else 'a header declares'}")


def take_nothing_else(compiled):
    """Stops if the library takes more from elsewhere than memory and what tables need of threads."""
    more = set(re.findall(r"^ +U (\w+)$", written("nm", "-u", compiled), re.M)) - TAKEN
    if more:
        sys.exit(f"package: the library would need {', '.join(sorted(more))} of the program that links it")


def static(archive, made, room):
    """Makes libshardheap.a: one relocatable object of the archive, the memory functions, the tables and the checked
    calls."""
    whole, compiled, names = (room / it for it in ("whole.o", "shardheap.o", "names"))
    how = ["-std=c11", *WARNINGS, "-O2", "-march=x86-64", "-fPIC", "-I", TOP / "library/include"]
    ours = {TOP / f"library/src/{it}.c": room / f"{it}.o" for it in ("memory", "table", "checked_calls")}
    for source, made_of_it in ours.items():
        written("gcc", *how, "-c", source, "-o", made_of_it)
    written("ld", "-r", "--whole-archive", archive, "--no-whole-archive", *ours.values(), "-o", whole)
    names.write_text("\n".join(sorted(declared())))
    written("objcopy", f"--keep-global-symbols={names}", "--strip-debug", "--remove-section=.comment", whole, compiled)
    take_nothing_else(compiled)
    made.unlink(missing_ok=True)
    written("ar", "rcsD", made, compiled)
    compare(made, shown(made, "-g"), declared())


def shared(archive, made, name):
    """Makes the shared library of libshardheap.a, under the name that programs look for."""
    how = [f"-Wl,-soname,{name}", f"-Wl,--version-script={MAP}", "-Wl,--no-undefined", "-Wl,--build-id=sha1"]
    how += ["-Wl,-z,relro", "-Wl,-z,now", "-Wl,-z,noexecstack"]
    # (the end of a thread calls into it, so that it stays as long as the process)
    how += ["-Wl,-z,nodelete"]
    written("gcc", "-shared", *how, "-Wl,--whole-archive", archive, "-Wl,--no-whole-archive", "-o", made)
    written("strip", "--strip-unneeded", "--remove-section=.comment", made)
    made.chmod(0o644)
    compare(made, shown(made, "-D"), declared())


def newest_of_libc(file):
    found = re.findall(r"GLIBC_([0-9.]+)", written("objdump", "-T", file))
    return max(found, key=lambda it: [int(part) for part in it.split(".")], default="2.2.5")
