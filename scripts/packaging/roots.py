"""Where a package is tried: a bare Debian that knows nothing of this repository, or a plain prefix.

A root runs a script under bash, with no environment of this machine, in a folder of its own. It has the packages in
PACKAGES and the clients in CLIENT. PREFIX is where the package is installed, LIB has its libraries.
"""
import os
import pathlib
import shutil
import subprocess
import tarfile

from common import triplet

SUITE, MIRROR = "bookworm", "http://deb.debian.org/debian"
# rustc-web is the newer of the two compilers of Debian 12: the crate asks for more than rustc 1.63.
# lintian needs perl-openssl-defaults, under a name that debootstrap does not know.
WANTED = ["gcc", "g++", "make", "cmake", "meson", "pkg-config", "python3", "cargo-web", "rustc-web", "lintian",
          "perl-openssl-defaults"]
# In the order in which they are installed.
NAMES = ["libshardheap0", "libshardheap-dev", "librust-gearlongan-dev"]


def missing():
    if not shutil.which("debootstrap") or not shutil.which("unshare"):
        return "there is no debootstrap"
    return "" if os.geteuid() == 0 else "only root may use debootstrap"


class Root:
    """What both kinds have in common. `inside` is how scripts see `folder`."""
    is_debian = False

    def __init__(self, folder, inside, clients, packages):
        self.folder, self.inside, self.clients, self.packages = folder, inside, clients, packages

    def settle(self):
        """Puts fresh copies of the packages and the clients there, and installs the package anew."""
        for name, source in (("packages", self.packages), ("client", self.clients)):
            shutil.rmtree(self.folder / name, ignore_errors=True)
            shutil.copytree(source, self.folder / name)
        self.install()

    def variables(self):
        return {"PACKAGES": f"{self.inside}/packages", "CLIENT": f"{self.inside}/client", "TRIPLET": triplet(),
                "LC_ALL": "C"}

    def run(self, script):
        """Runs a script in a new folder. Returns whether it passed, and what it wrote."""
        room = self.folder / "room"
        shutil.rmtree(room, ignore_errors=True)
        room.mkdir()
        text = f"set -eu\nnot() {{ ! \"$@\"; }}\ncd {self.inside}/room\n{script}"
        ran = subprocess.run(self.command(text), stdout=subprocess.PIPE, stderr=subprocess.STDOUT, text=True,
                             stdin=subprocess.DEVNULL)
        return ran.returncode == 0, ran.stdout

    def command(self, script):
        variables = [f"{name}={value}" for name, value in self.variables().items()]
        return ["env", "-i", *variables, "bash", "-c", script]


class Debian(Root):
    """A bare root of Debian, in which each .deb is installed."""
    is_debian = True

    def __init__(self, system, clients, packages):
        self.system = system
        super().__init__(system / "tmp/package-checks", "/tmp/package-checks", clients, packages)
        if not (system / "usr/bin/dpkg").exists():
            command = ["debootstrap", "--variant=minbase", f"--include={','.join(WANTED)}", SUITE, system, MIRROR]
            print(f"making a bare {SUITE} with {' '.join(WANTED)}: some minutes", flush=True)
            subprocess.run(command, check=True, stdout=subprocess.DEVNULL)
        self.folder.mkdir(exist_ok=True)

    def variables(self):
        return {**super().variables(), "PATH": "/usr/sbin:/usr/bin:/sbin:/bin", "HOME": "/root", "PREFIX": "/usr",
                "LIB": f"/usr/lib/{triplet()}"}

    def command(self, script):
        inner = super().command(script)
        apart = ["unshare", "--mount", "--pid", "--fork", f"--mount-proc={self.system}/proc"]
        return [*apart, "chroot", self.system, *inner]

    def install(self):
        # A fault may have left a file that dpkg does not know.
        documents = " ".join(f"/usr/share/doc/{it}" for it in NAMES)
        clean = f"dpkg --purge {' '.join(reversed(NAMES))} > /dev/null 2>&1 || true\nrm -rf {documents}"
        installs = "\n".join(f"dpkg -i $PACKAGES/{it}_*.deb" for it in NAMES)
        found, said = self.run(f"{clean}\n{installs}")
        if not found:
            raise SystemExit(f"package-checks: the package cannot be installed\n{said}")


class Plain(Root):
    """The tarball below a folder of this machine, whose tools and libraries programs use."""

    def __init__(self, folder, clients, packages):
        super().__init__(folder, str(folder), clients, packages)
        self.prefix = folder / "prefix"

    def variables(self):
        lib = f"{self.prefix}/lib"
        return {**super().variables(), "PREFIX": self.prefix, "LIB": lib, "LD_LIBRARY_PATH": lib,
                "CMAKE_PREFIX_PATH": self.prefix, "PKG_CONFIG_PATH": f"{lib}/pkgconfig", "PATH": os.environ["PATH"],
                "HOME": os.environ["HOME"]}

    def install(self):
        shutil.rmtree(self.prefix, ignore_errors=True)
        with tarfile.open(next(pathlib.Path(self.packages).glob("*.tar.gz"))) as tar:
            top = tar.getnames()[0].split("/")[0]
            tar.extractall(self.folder)
        (self.folder / top).rename(self.prefix)
