"""The tree: its crates, as crates.txt lists them."""
import os
import pathlib
import re
import subprocess

TOP = pathlib.Path(__file__).resolve().parent.parent
CRATES = TOP / "crates"
PARTS = ("src", "specs", "proofs")
ROW = re.compile(r"(\w+)(?: staticlib)?:([^#]*)")
# A heading of crates.txt, under which a group of crates is listed, and the one from which on they are the lab.
HEADING, LAB = re.compile(r"# ([^:]*)\."), "# The lab:"
# The door of the gate that looks at this tree; none if the whole gate does (.ci/run).
DOOR = os.environ.get("DOOR")


class Crate:
    """A crate: its door and group, and the libraries of the tree and of the toolchain that it uses."""

    def __init__(self, name, libraries, names, door, group):
        self.name, self.folder, self.door, self.group = name, CRATES / name, door, group
        self.own = [it for it in libraries if it in names]
        self.kit = [it for it in libraries if it not in names]

    def files(self, parts=PARTS):
        return sorted(it for part in parts for it in (self.folder / part).rglob("*") if it.is_file())

    def is_program(self):
        return (self.folder / "src/main.rt").is_file()

    def rlib(self):
        return CRATES / self.name / "out/rlib" / f"{self.name}.rlib"

    def is_built(self):
        """Whether its library is there, and newer than its files."""
        return self.rlib().is_dir() and self.rlib().stat().st_mtime >= max(it.stat().st_mtime for it in self.files())

    def below(self, crates):
        """The libraries of the tree that it stands on, each after those that it uses itself."""
        found = []
        for it in self.own:
            found += [name for name in [*crates[it].below(crates), it] if name not in found]
        return found

    def words(self, crates, kit):
        """What the prover needs to know of this crate, in whatever folder its files are."""
        words = ["--crate-name", self.name, "src/main.rt" if self.is_program() else "src/lib.rt"]
        for it in ["std", *self.kit]:
            words += ["--extern", f"{it}={kit}/rlibs/{it}.rlib"]
        words += ["-L", f"dependency={kit}/rlibs"]
        for it in self.own:
            words += ["--extern", f"{it}={crates[it].rlib()}"]
        for it in self.below(crates):
            words += ["-L", f"dependency={crates[it].rlib().parent}"]
        words += ["--antt-project", f"{kit}/rattle/logic/antt-project.json", "--logic-built", f"{kit}/logic_built"]
        return [*words, "--links", f"{self.name}="]


def listed(kind=Crate):
    rows, door, group = [], "heap", ""
    for line in (TOP / "crates.txt").read_text().splitlines():
        heading, row = HEADING.fullmatch(line), ROW.fullmatch(line)
        if line.startswith(LAB):
            door = "lab"
        elif heading:
            group = heading[1]
        elif row:
            rows.append((row[1], row[2].split(), door, group))
    names = {name for name, *_ in rows}
    return {name: kind(name, libraries, names, door, group) for name, libraries, door, group in rows}


def are_here(*names):
    """Whether these crates are there to be looked at. Behind a door only its crates and those below them are."""
    return not DOOR or all(it in listed() for it in names)


def given(name):
    """The program of this crate in the folder that the variable PROGRAMS names, or None."""
    file = pathlib.Path(os.environ.get("PROGRAMS") or "/dev/null", name)
    return file if file.is_file() else None


def program(name):
    """The program of this crate: the one that is given, or else the one that was built."""
    return given(name) or CRATES / name / "out" / name


def kit():
    page = subprocess.run(["rt", "doc"], capture_output=True, text=True, check=True).stdout.strip()
    return pathlib.Path(page).parent
