"""Lays a package out below a prefix: the header, both libraries, what finds them, the Rust crates and the documents."""
import shutil

import abi
import binary
import crates
import licences
import record
from checks import said
from common import SONAME, TEMPLATES, TOP, filled, version

DOCUMENTS = "share/doc/libshardheap-dev"
# The programs in C that a user may copy. Those in Rust are in the crate.
EXAMPLES = ["session.c", "growing_table.c", "connections.c"]
PYTHON = "share/shardheap/python"


def libraries(archive, folder, room):
    """Puts both libraries into the folder. They are built once in the room, for all packages."""
    built = room / "built"
    if not built.exists():
        built.mkdir()
        binary.static(archive, built / "libshardheap.a", room)
        binary.shared(built / "libshardheap.a", built / "libshardheap.so", SONAME)
    shutil.copytree(built, folder)
    (folder / "libshardheap.so").rename(folder / f"libshardheap.so.{version()}")
    (folder / SONAME).symlink_to(f"libshardheap.so.{version()}")
    (folder / "libshardheap.so").symlink_to(SONAME)


def headers(folder):
    folder.mkdir()
    for file in (*abi.HEADERS, TOP / "library/cpp/shardheap.hpp"):
        shutil.copy(file, folder)
    shutil.copytree(TOP / "library/cpp/gearlongan", folder / "gearlongan")


def finders(prefix, lib, values, at):
    """The pkg-config file and the CMake package. Each finds the prefix from its own place, unless it is installed."""
    up = "/".join(".." for _ in lib.split("/"))
    pkg_config, cmake = prefix / lib / "pkgconfig", prefix / lib / "cmake/shardheap"
    pkg_config.mkdir()
    cmake.mkdir(parents=True)
    values = {**values, "LIB": lib, "PREFIX": at or f"${{pcfiledir}}/{up}/..", "UP": f"{up}/../.."}
    (pkg_config / "shardheap.pc").write_text(filled(TOP / "library/shardheap.pc.in", values))
    for name in ("shardheap-config.cmake", "shardheap-config-version.cmake"):
        (cmake / name).write_text(filled(TEMPLATES / f"{name}.in", values))


def build(archive, built):
    """How the package was made: the archive, its record, and the sums of both libraries."""
    made = record.read(archive)
    lines = {"version": version(), **made, "sha256 of libc_exports.a": made["sha256"], "package": record.commit(".")}
    del lines["sha256"]
    lines.setdefault("tests", "none is recorded")
    lines["compiler of memory.c and checked_calls.c"] = said("gcc", "--version").splitlines()[0]
    for name in ("libshardheap.a", "libshardheap.so"):
        lines[f"sha256 of {name}"] = record.sha256(built / name)
    return record.text_of(lines)


def documents(archive, prefix, lib, values, debian):
    folder = prefix / DOCUMENTS
    folder.mkdir(parents=True)
    for file in [*TOP.glob("LICENSE-*"), TOP / "CHANGELOG.md"]:
        shutil.copy(file, folder)
    (folder / "examples").mkdir()
    for name in EXAMPLES:
        shutil.copy(TOP / "library/c" / name, folder / "examples")
    (folder / "copyright").write_text(licences.copyright(debian))
    (folder / "README").write_text(filled(TEMPLATES / "README.in", values))
    (folder / "BUILD").write_text(build(archive, prefix / lib))


def fill(archive, prefix, lib, room, values, at=""):
    """Fills an empty prefix, whose libraries are in the folder lib below it. `at` is where it is installed, or nothing
    if it may be moved."""
    libraries(archive, prefix / lib, room)
    headers(prefix / "include")
    finders(prefix, lib, values, at)
    crates.below(prefix)
    (prefix / PYTHON).mkdir(parents=True)
    shutil.copy(TOP / "library/python/shardheap.py", prefix / PYTHON)
    documents(archive, prefix, lib, values, debian=bool(at))
