"""The Rust crates of the packages: as files for Cargo, which need nothing else, and below a prefix.

The file gearlongan-VERSION.crate has the static library inside. sharded-slab has the name and version of the original.
So it is in no registry, where that may be, and finds gearlongan in the folder beside it."""
import json
import re
import shutil

from common import TOP, version

REGISTRY = "share/cargo/registry"
BY_PATH = "share/shardheap/rust"
PARTS = {"gearlongan": ["src", "examples", "stand-ins", "Cargo.toml", "README.md", "build.rs"],
         "sharded-slab": ["src", "Cargo.toml", "README.md"]}
SOURCES = {"gearlongan": TOP / "library/rust", "sharded-slab": TOP / "library/sharded-slab"}


def copied(name, folder):
    """Copies what the crate has to be built, and the licences. It is the root of no workspace: programs have theirs."""
    folder.mkdir(parents=True)
    for part in PARTS[name]:
        source = SOURCES[name] / part
        (shutil.copytree if source.is_dir() else shutil.copy)(source, folder / part)
    for file in TOP.glob("LICENSE-*"):
        shutil.copy(file, folder)
    manifest = folder / "Cargo.toml"
    manifest.write_text(manifest.read_text().replace("\n[workspace]\n", ""))
    return manifest


def unpacked(folder, values, library, build, copyright):
    """Lays both crates out in the folder, as their files have them, and returns the folder of each. The build metadata
    of their versions says what is unproved or unofficial, which Cargo does not publish."""
    marks, folders = "+" + ".".join(values["MARKS"]) if values["MARKS"] else "", {}
    addresses = "".join(f'{field} = "{values[field.upper()]}"\n' for field in ("homepage", "repository"))
    for name in PARTS:
        own = re.search(r'(?m)^version = "(.*)"$', (SOURCES[name] / "Cargo.toml").read_text())[1] + marks
        folders[name] = folder / f"{name}-{own}"
        manifest = copied(name, folders[name])
        text = re.sub(r'(?m)^version = ".*"$', f'version = "{own}"', manifest.read_text(), count=1)
        # (sharded-slab takes gearlongan from the folder beside it)
        text = text.replace('path = "../rust"', f'path = "../gearlongan-{version()}{marks}", version = "{version()}"')
        manifest.write_text(text if marks else text.replace("publish = false\n", addresses))
    own = folders["gearlongan"]
    (own / "lib").mkdir()
    shutil.copy(library, own / "lib")
    (own / "BUILD").write_text(build)
    (own / "copyright").write_text(copyright)
    return list(folders.values())


def below(prefix):
    """Lays the crate gearlongan out in the registry of a prefix, and both crates by path. They have no library inside:
    pkg-config finds that of the prefix."""
    name = f"gearlongan-{version()}"
    copied("gearlongan", prefix / REGISTRY / name)
    (prefix / REGISTRY / name / ".cargo-checksum.json").write_text(json.dumps({"files": {}}) + "\n")
    manifest = copied("sharded-slab", prefix / BY_PATH / "sharded-slab")
    (prefix / BY_PATH / "gearlongan").symlink_to(f"../../cargo/registry/{name}")
    manifest.write_text(manifest.read_text().replace('path = "../rust"', 'path = "../gearlongan"'))
