"""Whether each name and path that a document has in backticks, and each target of a link, is in the tree, and each
commit that it cites in the history:

- a word of four letters or more is a name somewhere in the tree's code, scripts, examples or file names;
- a path, and the target of a link, is a file or a folder, from the top, from the document's folder or from crates/;
  a path in backticks may also begin within a crate, and leave out the ending of its file;
- the part of a link after `#` is a heading of the document it leads to;
- a commit that is cited, as in "commit 294d93ff", is HEAD or an ancestor of it, if git has the whole history.

ELSEWHERE has the names of other projects and of the field, which the tree need not have. A document of BEGINNINGS may
name a test by the beginning of its name.
"""
import functools
import pathlib
import posixpath
import re

from checks import told, tried
from texts.markdown import CODE, FENCED, git, tracked
from tree import TOP

# Names of other projects, of tools and of the field.
ELSEWHERE = set("""
    loom herd7 crossbeam epoch dashmap slotmap ArcSwap parking_lot perf linux qemu glibc GLIBC_TUNABLES hugetlb tunables
    transparent_hugepage enabled madvise kernel memcpy memset cmpxchg xchg rustdoc clippy tidy plant
    get_unchecked try_get
""".split())
BEGINNINGS = {"library/rust/mutants.md"}
SUFFIXES = {f".{ending}" for ending in
            "rt antt rs h c cpp hpp txt edit script toml py in map trace output error control".split()}
NAME = re.compile(r"[A-Za-z_][A-Za-z0-9_]{3,}")
ANY_NAME = re.compile(r"[A-Za-z_][A-Za-z0-9_']*")
LINK = re.compile(r"\]\(([^)\s]+)\)")
HEADING = re.compile(r"^#+\s+(.*?)\s*$", re.M)
COMMIT = re.compile(r"\bcommit ([0-9a-f]{7,40})\b")


@functools.cache
def history():
    """HEAD and all its ancestors. None are known where git has not the whole history."""
    return git("rev-list", "HEAD") if git("rev-parse", "--is-shallow-repository") == ["false"] else []


@functools.cache
def paths():
    found = set()
    for name in tracked():
        path = pathlib.PurePath(name)
        found |= {str(path), *(str(parent) for parent in path.parents)}
    return found


@functools.cache
def known():
    """All names of the tree: in its code, in its scripts, and of its files."""
    names = {part for path in paths() for piece in pathlib.PurePath(path).parts for part in ANY_NAME.findall(piece)}
    for name in tracked():
        path = TOP / name
        if path.suffix in SUFFIXES or name.startswith(("scripts/", ".ci/")):
            names |= set(ANY_NAME.findall(path.read_text(errors="replace")))
    return names | ELSEWHERE


def anchors(path):
    return {re.sub(r"[^\w\- ]", "", re.sub(r"[`*]", "", heading).lower()).replace(" ", "-")
            for heading in HEADING.findall(FENCED.sub("", path.read_text()))}


def is_there(path, base):
    """Whether a path is in the tree, from the top, from a folder or from crates/."""
    return any(posixpath.normpath(posixpath.join(start, path)) in paths() for start in ("", base, "crates"))


@functools.cache
def is_in_some_crate(path):
    endings = tuple(f"/{path.rstrip('/')}{ending}" for ending in ("", ".antt", ".rt", ".rs"))
    return any(name.endswith(endings) for name in paths())


def code_faults(code, base, by_beginning):
    """What is wrong with a text in backticks, a path or names. (What a build leaves is not tracked. Two dots say that a
    part of the name is left out.)"""
    if re.fullmatch(r"[\w.\-]+(?:/[\w.\-]+)+/?", code):
        if "/out/" not in code and not is_in_some_crate(code) and not is_there(code, base):
            yield f"`{code}`: there is no such path"
        return
    for name in NAME.findall(code) if ".." not in code else ():
        is_known = name in known() or by_beginning and any(one.startswith(name) for one in known())
        if not is_known:
            yield f"`{code}`: the tree has no name {name}"


def link_faults(target, document, base):
    path, _, anchor = target.partition("#")
    if re.match(r"[a-z]+:", target):
        return
    if path and not is_there(path, base):
        yield f"({target}): there is no such path"
    elif anchor and anchor not in anchors(document.parent / path if path else document):
        yield f"({target}): there is no such heading"


def faults(document, base="", by_beginning=False):
    text = " ".join(FENCED.sub("", document.read_text()).split())
    for code in CODE.findall(text):
        yield from code_faults(code, base, by_beginning)
    for target in LINK.findall(text):
        yield from link_faults(target, document, base)
    for cited in COMMIT.findall(text):
        if history() and not any(commit.startswith(cited) for commit in history()):
            yield f"commit {cited}: it is no ancestor of HEAD"


PLANTED = {
    # (in two parts, so that this file does not have the name)
    "name.md": "The function `refines_" + "no_map_at_all` is absent.\n",
    "path.md": "See `docs/NOWHERE.md`.\n",
    "link.md": "See [it](docs/NOWHERE.md).\n",
    "anchor.md": "# A heading\n\nSee [it](#another-heading).\n",
    "commit.md": "Measured on one day,\ncommit 0000000, of one machine.\n",
}
CLEAN = ("# A `heading`\n\nSee [it](#a-heading), `refines_map`, `docs/DECISIONS.md`, and commit 294d93ff.\n\n"
         "```\n`no_such_name_here`, commit 0000000\n```\n")


def self_test():
    planted = {name: text for name, text in PLANTED.items() if name != "commit.md" or history()}
    return tried("names", planted, {"clean.md": CLEAN}, faults)


def check(files=()):
    names = files or tracked("*.md")
    found = [f"{name}: {fault}" for name in names
             for fault in faults(TOP / name, posixpath.dirname(name), name in BEGINNINGS)]
    if not history():
        print("names: git has not the whole history here, so the commits that are cited were not looked for")
    return told("names", found, f"{len(names)} documents")
