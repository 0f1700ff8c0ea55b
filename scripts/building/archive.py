"""The archive libc_exports.a of crates/c_exports: proved, or without a proof, for any processor of x86-64.

A program links the one as the other, with the memory functions of library/src/memory.c.

`rt ci` leaves no archive, and each library below c_exports without the stamp by which `rt lib` would know it. The
proved archive takes these libraries as `rt ci` itself takes them for the crates above: c_exports alone is checked, and
LLVM compiles what was proved.

`rt try` compiles a program and no archive. So the one without a proof is made of a copy of the crates, of which
c_exports has a `main` that calls each function `shardheap_raw_..`. LLVM drops that `main`, which nothing calls.
"""
import os
import pathlib
import re
import shutil
import subprocess
import sys
import tempfile

import tree
from building import module
from checks import written

sys.path.insert(0, str(tree.TOP / "scripts/packaging"))

import record

NAME = "c_exports"
# What fills and copies memory in instrumented code. Not every runtime of ThreadSanitizer has it.
COPIES = tree.TOP / "scripts/compiled/copies.c"
EXPORT = re.compile(r'pub extern "C" fn (shardheap_raw_\w+)\(([^)]*)\)')
# A value for each kind of parameter, in the order in which they are tried.
VALUES = [
    (r"Global", "alloc"), (r"&mut \[(\w+)\]", "&mut [0{0}; 16][..]"), (r"&\[(\w+)\]", "&[0{0}; 16][..]"),
    (r"&mut ([ui](?:\d+|size))", "&mut 0{0}"), (r"[ui](?:\d+|size)", "0"), (r"bool", "false"),
]


def proved():
    """Proves and builds crates/c_exports/out/libc_exports.a over the libraries that `rt ci` has proved. The last line
    is the prover's verdict, which has the words of `rt ci` except the processor's level."""
    crates = tree.listed()
    crate, libraries = crates[NAME], crates[NAME].below(crates)
    missing = [it for it in libraries if not crates[it].is_built()]
    if missing:
        sys.exit(f"build: {missing[0]} is not built, or has changed since: run rt ci")
    kit, made = tree.kit(), crate.folder / f"out/lib{NAME}.a"
    made.parent.mkdir(exist_ok=True)
    words = [*crate.words(crates, kit), "--crate-type", "staticlib", "--jobs", str(len(os.sched_getaffinity(0)))]
    words += ["--toolchain", kit / "toolchain", "--backend", "llvm", "--cpu", "x86-64", "-o", f"out/{made.name}"]
    ran = subprocess.run([kit / "bin/rattle", "build", *words], cwd=crate.folder, stdout=subprocess.PIPE,
                         stderr=subprocess.STDOUT, text=True)
    verdict = ran.stdout.rstrip("\n").rpartition("\n")[2]
    if ran.returncode or not verdict.startswith("logic=proved"):
        sys.exit(f"{ran.stdout}build: {NAME} is not proved, so there is no archive")
    record.write(made, "scripts/build proved", verdict)
    print(f"build: {NAME} is proved, over the {len(libraries)} libraries that rt ci proved\n{verdict}")


def records(source):
    """The structs that C shares, each with a literal of zeros. (An array that C shares has the words of a value.)"""
    found = re.findall(r"#\[repr\(C\)\]\n(?:#\[[^\n]*\]\n)*pub struct (\w+) \{(.*?)\n\}", source, re.S)
    fields = {name: re.findall(r"pub (\w+): (\[?)", body) for name, body in found}
    return {name: f"{name} {{ {', '.join(f'{it}: ' + ('[0; 16]' if array else '0') for it, array in its)} }}"
            for name, its in fields.items()}


def value_of(kind, structs):
    struct = re.fullmatch(r"&mut (\[?)(\w+)\]?", kind)
    if struct and struct[2] in structs:
        return f"&mut [{structs[struct[2]]}][..]" if struct[1] else f"&mut {structs[struct[2]]}"
    for pattern, value in VALUES:
        found = re.fullmatch(pattern, kind)
        if found:
            return value.format(*found.groups())
    raise SystemExit(f"build: it knows no value of the type {kind}")


def program(folder):
    """The text of a `main` that calls each export of the crate in this folder."""
    root, uses, lines, handles = (folder / "lib.rt").read_text(), [], [], 0
    for name in re.findall(r"(?m)^(?:pub )?mod (\w+);", root):
        source = (folder / f"{name}.rt").read_text()
        structs, exports = records(source), EXPORT.findall(source)
        uses += [f"use crate::{name}::{it};" for it in [*structs, *(export for export, _ in exports)]]
        for export, parameters in exports:
            arguments = []
            for kind in (it.partition(":")[2].strip() for it in parameters.split(",") if it.strip()):
                handle = re.fullmatch(r"(&(?:mut )?)(\w+Handle)", kind)
                if handle:
                    # Each parameter has a handle of its own.
                    handles += 1
                    lines.append(f"    let mut handle_{handles} = {handle[2]}::empty(alloc);")
                arguments.append(f"{handle[1]}handle_{handles}" if handle else value_of(kind, structs))
            lines.append(f"    let _ = {export}({', '.join(arguments)});")
    head = [line for line in root.splitlines() if not line.startswith("//!")]
    return "\n".join([
        "//! A program that calls each function of the archive.", *head, *uses,
        "use c_handles::{HeapHandle, PassHandle, ReceiptHandle};", "use std::process::ExitCode;",
        "fn main(rt: HostRuntime) -> ExitCode {", "    let alloc = rt.alloc();",
        *lines, "    ExitCode::SUCCESS", "}", "",
    ])


def text_of(copy):
    """The module of a copy of the crates in which c_exports is a program. What they were built into is left out."""
    for name in ("crates.txt", "HANDLES"):
        shutil.copy(tree.TOP / name, copy)
    shutil.copytree(tree.CRATES, copy / "crates", ignore=shutil.ignore_patterns("out"))
    listed = copy / "crates.txt"
    listed.write_text(re.sub(rf"(?m)^{NAME} staticlib:", f"{NAME}:", listed.read_text()))
    source = copy / "crates" / NAME / "src"
    (source / "main.rt").write_text(program(source))
    (source / "lib.rt").unlink()
    return module.text_of(NAME, copy, cpu="x86-64")


def exported(text):
    """The module with its functions for C under their own names, for others to call, and these names."""
    text = re.sub(r"(?m)^define ([^\n]*)@main\(", r"define internal \1@main(", text)
    text = re.sub(r'define internal ([^\n]*)@"c_exports::\w+::(shardheap_raw_\w+)"\(', r"define \1@\2(", text)
    text = re.sub(r'@"c_exports::\w+::(shardheap_raw_\w+)"', r"@\1", text)
    return text, sorted(set(re.findall(r"(?m)^define [^\n]*@(shardheap_raw_\w+)\(", text)))


def archived(folder, text, flags=(), with_c=None):
    """Compiles the module, and puts it into folder/libc_exports.a with what is written in C."""
    folder.mkdir(parents=True, exist_ok=True)
    text, names = exported(text)
    flags = [*("-fPIC" if flag == "-fPIE" else flag for flag in module.FLAGS), *flags]
    with tempfile.TemporaryDirectory(prefix="archive-") as room:
        objects, globals_ = [pathlib.Path(room, f"{NAME}.o")], pathlib.Path(room, "globals")
        globals_.write_text("\n".join(names))
        module.compiled(text, objects[0], flags)
        written("objcopy", f"--keep-global-symbols={globals_}", objects[0])
        if with_c:
            objects.append(pathlib.Path(room, "memory.o"))
            written("gcc", "-O1", "-fno-builtin", "-fPIC", "-c", with_c, "-o", objects[-1])
        made = folder / f"lib{NAME}.a"
        made.unlink(missing_ok=True)
        written("ar", "rcs", made, *objects)
    # (the crates that have a function in the module, since the compiled archive shows few of them)
    crates = sorted(set(re.findall(r'(?m)^define [^\n(]*@"?(\w+)::', text)))
    record.write(made, "scripts/build archive", verdict="", crates=crates)
    print(f"{made}: {len(names)} functions, {made.stat().st_size} bytes, not proved")


def without_proof(out, with_tsan):
    """Builds out/plain/libc_exports.a, and out/tsan/libc_exports.a with the calls of ThreadSanitizer."""
    with tempfile.TemporaryDirectory(prefix="archive-") as copy:
        text = text_of(pathlib.Path(copy))
    archived(out / "plain", text)
    if with_tsan:
        archived(out / "tsan", module.with_calls(text), ["-fsanitize=thread"], COPIES)
