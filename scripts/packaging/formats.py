"""The files that users download: a tarball of a prefix, the Rust crates, and of one prefix the packages for Debian,
which are libshardheap0, libshardheap-dev and librust-gearlongan-dev.

The same archive and commit give the same bytes: names are sorted, owners are root, and all times are the commit's.
"""
import email.utils
import gzip
import hashlib
import os
import re
import shutil
import subprocess
import tarfile
import textwrap

import abi
import binary
import crates
import licences
import prefix
from checks import written
from common import TEMPLATES, filled, moment, version

# What each package has of the prefix. That without a list has the rest.
PARTS = {"libshardheap0": ["lib/*/libshardheap.so.*"],
         "librust-gearlongan-dev": ["share/cargo", "share/shardheap/rust"], "libshardheap-dev": []}


def settle(folder):
    """Gives the folder, and each file and folder in it, the same rights and the same time, whatever the umask is."""
    for path in [folder, *sorted(folder.rglob("*"))]:
        if not path.is_symlink():
            path.chmod(0o755 if path.is_dir() else 0o644)
        os.utime(path, (moment(), moment()), follow_symlinks=False)


def without_owner(member):
    member.uid = member.gid = 0
    member.uname = member.gname = "root"
    return member


def packed(folder, name, file):
    settle(folder)
    with open(file, "wb") as raw, gzip.GzipFile("", "wb", mtime=moment(), fileobj=raw) as stream:
        with tarfile.open(fileobj=stream, mode="w", format=tarfile.GNU_FORMAT) as tar:
            for path in sorted(folder.rglob("*")):
                tar.add(path, f"{name}/{path.relative_to(folder)}", recursive=False, filter=without_owner)


def tarball(archive, out, room, values):
    folder = room / "tarball"
    folder.mkdir()
    prefix.fill(archive, folder, "lib", room, values)
    (folder / "INSTALL").write_text(filled(TEMPLATES / "INSTALL.in", values))
    name = "-".join(["shardheap", values["VERSION"], *values["MARKS"], values["TRIPLET"]])
    packed(folder, name, out / f"{name}.tar.gz")


def crate_files(archive, out, room, values):
    built = room / "built"
    texts = prefix.build(archive, built), licences.copyright(debian=False)
    for folder in crates.unpacked(room / "crates", values, built / "libshardheap.a", *texts):
        packed(folder, folder.name, out / f"{folder.name}.crate")


def moved(whole, usr, patterns):
    for path in sorted(it for pattern in patterns for it in whole.glob(pattern)):
        target = usr / path.relative_to(whole)
        target.parent.mkdir(parents=True, exist_ok=True)
        path.rename(target)


def compressed(file, text):
    """Writes a text as Debian wants it: as small as it gets, and without a time."""
    file.write_bytes(gzip.compress(text.encode(), 9, mtime=0))


def changelog(values):
    said = textwrap.fill(values["STATUS"], 76, initial_indent="  * ", subsequent_indent="    ")
    return (f"gearlongan ({values['DEB']}) unstable; urgency=medium\n\n{said}\n"
            f"  * libshardheap-dev has the changes of each version.\n\n"
            f" -- {values['MAINTAINER']}  {email.utils.formatdate(moment())}\n")


def documents(name, whole, usr, values):
    """Puts into each package what each has: the licences, how it was made, and the changes. Licences are in the file
    copyright alone."""
    source, folder = whole / prefix.DOCUMENTS, usr / f"share/doc/{name}"
    folder.mkdir(parents=True, exist_ok=True)
    if source != folder:
        for it in ("copyright", "BUILD"):
            shutil.copy(source / it, folder)
    compressed(folder / "changelog.Debian.gz", changelog(values))
    (usr / "share/lintian/overrides").mkdir(parents=True)
    (usr / f"share/lintian/overrides/{name}").write_text(filled(TEMPLATES / "overrides.in", {"NAME": name}))


def rest(whole):
    folder = whole / prefix.DOCUMENTS
    compressed(folder / "changelog.gz", (folder / "CHANGELOG.md").read_text())
    crates = [it for where in ("cargo/registry", "shardheap/rust") for it in whole.rglob(f"share/{where}/*/LICENSE-*")]
    for file in [folder / "CHANGELOG.md", *folder.glob("LICENSE-*"), *crates]:
        # (one crate is there by a link, too)
        file.unlink(missing_ok=True)


def stanza(name, values):
    said = textwrap.fill(values["STATUS"], 78, initial_indent=" ", subsequent_indent=" ")
    text = filled(TEMPLATES / "control.in", {**values, "STATUS": said.strip()})
    found = re.search(rf"^Package: {name}\n(?:.+\n)+", text, re.M)[0]
    return re.sub(r"(?m)^\w+:\n", "", found)


def control(name, folder, values):
    """Writes the folder DEBIAN: what dpkg reads, the sums of the files, and of a library what others depend on."""
    files = [path for path in sorted((folder / "usr").rglob("*")) if path.is_file() and not path.is_symlink()]
    sums = [f"{hashlib.md5(path.read_bytes()).hexdigest()}  {path.relative_to(folder)}\n" for path in files]
    kib = -(-sum(path.stat().st_size for path in files) // 1024)
    own = folder / "DEBIAN"
    own.mkdir()
    (own / "control").write_text(stanza(name, {**values, "KIB": str(kib)}))
    (own / "md5sums").write_text("".join(sums))
    if name == "libshardheap0":
        names = "".join(f" {it}@SHARDHEAP_0 {since}~\n" for it, since in sorted(abi.since().items()))
        names = f" SHARDHEAP_0@SHARDHEAP_0 {version()}~\n{names}"
        head = "libshardheap.so.0 libshardheap0 #MINVER#\n* Build-Depends-Package: libshardheap-dev\n"
        (own / "symbols").write_text(head + names)
        (own / "shlibs").write_text(f"libshardheap 0 libshardheap0 (>= {version()}~)\n")
        (own / "triggers").write_text("activate-noawait ldconfig\n")


def packages(archive, out, room, values):
    """Writes the packages, or nothing if there is no dpkg-deb."""
    if not shutil.which("dpkg-deb"):
        print("skipped: there is no dpkg-deb, so no package for Debian is made")
        return
    lib, whole = f"lib/{values['TRIPLET']}", room / "debian/libshardheap-dev/usr"
    whole.mkdir(parents=True)
    prefix.fill(archive, whole, lib, room, values, at="/usr")
    marks = "~" + ".".join(values["MARKS"]) if values["MARKS"] else ""
    values = {**values, "DEB": f"{values['VERSION']}{marks}-1",
              "ARCHITECTURE": written("dpkg", "--print-architecture").strip(),
              "LIBC": binary.newest_of_libc(whole / lib / values["SHARED"])}
    rest(whole)
    for name, patterns in PARTS.items():
        folder = room / "debian" / name
        moved(whole, folder / "usr", patterns)
        documents(name, whole, folder / "usr", values)
        control(name, folder, values)
        settle(folder)
        file = out / f"{name}_{values['DEB']}_{values['ARCHITECTURE']}.deb"
        subprocess.run(["dpkg-deb", "--root-owner-group", "-b", folder, file], check=True, capture_output=True,
                       text=True, env={**os.environ, "SOURCE_DATE_EPOCH": str(moment())})
