"""The licences of a package: ours, and those of the toolchain's crates that the archive is built over.

A crate counts if a crate below c_exports names it in crates.txt, or another such crate of the toolchain uses it. What
of it is in the machine code cannot be seen, since functions are merged into their callers. So all of them are named,
and `compare` looks whether the archive shows a function of another one.
"""
import re
import shutil
import sys

import record
import tree
from checks import said, written
from record import TOP

# What a machine has of its own in Debian, so that packages need not repeat it.
COMMON = "/usr/share/common-licenses/Apache-2.0"


def toolchain():
    if not shutil.which("rt"):
        sys.exit("package: there is no Rattle toolchain, whose licences belong in the package")
    return tree.kit()


def used(kit):
    """The crates of the toolchain that c_exports and the crates below it use."""
    ours, found, left = tree.listed(), set(), ["c_exports", "std"]
    while left:
        name = left.pop()
        if name not in found:
            found.add(name)
            format_of_kit = kit / f"rlibs/{name}.rlib/format"
            left += [*ours[name].own, *ours[name].kit] if name in ours else re.findall(
                r"(?m)^dep (\w+)$", format_of_kit.read_text())
    return sorted(found - ours.keys())


def shown(archive):
    """The crates whose functions an archive shows: those of its symbols, and those that its record has of the module
    that it was compiled from."""
    symbols = written("nm", archive)
    of_module = record.read(archive).get("crates", "").split()
    return {*re.findall(r"(?m)^\w+ \w (\w+)::", symbols), *re.findall(r"::(\w+)\+\+", symbols), *of_module}


def compare(archive):
    """Stops if the archive has code of a crate that the copyright would not name."""
    more = shown(archive) - set(used(toolchain())) - tree.listed().keys()
    if more:
        sys.exit(f"package: the archive has code of {', '.join(sorted(more))}, which its copyright would not name")


def paragraph(text):
    """A text as debian/copyright has one: each line behind a blank, and an empty one as a dot."""
    return "".join(f" {it.rstrip() or '.'}\n" for it in text.strip("\n").splitlines())


def holders(text):
    found = re.findall(r"(?m)^\s*Copyright (?:\(c\) )?(?!\[)(.*\d{4}.*?)\s*$", text)
    return "; ".join(found) or "its authors, whom its licence does not name"


def short_name(file):
    text = file.read_text()
    return "Apache-2.0" if "Apache License" in text[:400] else f"MIT-{file.parent.name}"


def of_crate(name, kit, texts):
    """The paragraph of a toolchain's crate with licences, whose texts are added to `texts`."""
    files = sorted((kit / "rattle" / name).glob("LICENSE*"))
    mine = {short_name(it): it.read_text() for it in files}
    texts |= {it: text for it, text in mine.items() if it not in texts}
    whose = holders("\n".join(text for it, text in mine.items() if it != "Apache-2.0"))
    return f"Files: toolchain/{name}/*\nCopyright: {whose}\nLicense: {' or '.join(sorted(mine))}\n"


def copyright(debian):
    """The file copyright: our licences, and the crates of the toolchain with the licence that each comes with. In
    Debian a text that every machine has is named alone."""
    kit, template = toolchain(), (TOP / "scripts/packaging/copyright.in").read_text()
    licensed = [it for it in used(kit) if list((kit / "rattle" / it).glob("LICENSE*"))]
    without = [it for it in used(kit) if it not in licensed]
    texts = {"MIT": (TOP / "LICENSE-MIT").read_text(), "Apache-2.0": (TOP / "LICENSE-APACHE").read_text()}
    crates = "\n".join(of_crate(it, kit, texts) for it in licensed)
    if debian:
        texts["Apache-2.0"] = f"The text is in {COMMON}."
    bodies = "\n".join(f"License: {it}\n{paragraph(text)}" for it, text in texts.items())
    values = {"KIT": said("rt", "version").split()[0], "CRATES": crates.strip("\n"), "TEXTS": bodies.strip("\n")}
    values |= {"WITHOUT": "\n ".join(f"toolchain/{it}/*" for it in without)}
    return re.sub(r"@([A-Z]+)@", lambda it: values[it[1]], template)
