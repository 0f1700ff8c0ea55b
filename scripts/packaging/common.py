"""What all packages have in common: the version, what is proved, and who publishes them, which the file
scripts/packaging/publisher says, or another one. It has a line for each field:

    maintainer: Name <address>
    homepage: https://..
    repository: https://..
    bugs: https://..

Without it packages are called unofficial, in the names of the files and in their versions, and name nobody.
"""
import os
import re
import sys

import abi
import record
from checks import said, written
from record import TOP

TEMPLATES = TOP / "scripts/packaging"
SONAME = "libshardheap.so.0"
PUBLISHER = TEMPLATES / "publisher"
# What each field of a publisher looks like.
FIELDS = {"maintainer": r"[^<>\n]+ <[^<>@\s]+@[^<>@\s]+>", "homepage": r"https://\S+", "repository": r"https://\S+",
          "bugs": r"https://\S+"}
NOBODY = {"maintainer": "nobody <nobody@invalid.invalid>", "homepage": "", "repository": "", "bugs": ""}
version = abi.version


def triplet():
    return written("gcc", "-dumpmachine").strip()


def moment():
    """The time of all files: SOURCE_DATE_EPOCH, or that of the commit."""
    return int(os.environ.get("SOURCE_DATE_EPOCH") or said("git", "log", "-1", "--format=%ct") or 0)


def status(is_proved, is_official):
    """What the build is, in one or two sentences."""
    of_proof = ("The exported calls of this build named shardheap_raw_ are proved." if is_proved
                else "This build is NOT PROVED: it is for trials alone.")
    return of_proof if is_official else f"{of_proof} It is unofficial: nobody answers for it."


def publisher(file):
    """The fields of the file, and whether there is one."""
    if not file.is_file():
        if file != PUBLISHER:
            sys.exit(f"package: there is no {file}")
        return NOBODY, False
    found = dict(re.findall(r"(?m)^(\w+): *(.*?) *$", file.read_text()))
    for field, form in FIELDS.items():
        if not re.fullmatch(form, found.get(field, "")):
            sys.exit(f"package: {file} has no {field} as scripts/packaging/common.py wants it")
    return {field: found[field] for field in FIELDS}, True


def values(archive, file):
    made, (who, is_official) = record.read(archive), publisher(file)
    is_proved = made["proved"] == "yes"
    marks = [word for word, has in (("unproved", not is_proved), ("unofficial", not is_official)) if has]
    return {"VERSION": version(), "MINOR": version().rpartition(".")[0], "MARKS": marks, "PROVED": made["proved"],
            "SHARED": f"libshardheap.so.{version()}", "SONAME": SONAME, "STATUS": status(is_proved, is_official),
            "TRIPLET": triplet(), **{field.upper(): text for field, text in who.items()}}


def filled(template, values):
    text = re.sub(r"@([A-Z]+)@", lambda it: values[it[1]], template.read_text())
    return re.sub(r"(?m)[ ]+$", "", text)
