"""What package-checks tries, row by row, each with a fault by which it has to fail. The last rows remove the packages.

In a script `not COMMAND` fails if the command succeeds: roots.py defines it."""
from dataclasses import dataclass

from common import version
from roots import NAMES

WARNINGS = "-Wall -Wextra -Wpedantic -Wconversion -Werror"
C = f"cc -std=c11 -D_DEFAULT_SOURCE {WARNINGS} -O2 $CLIENT/session.c"
CPP = f"c++ -std=c++17 {WARNINGS} -O2"
FLAGS = "$(pkg-config --cflags --libs shardheap)"
STATIC = "$(pkg-config --cflags --libs-only-L shardheap) -l:libshardheap.a -lpthread"
# A program that needs the shared library, and one that does not.
SHARED_ONE, STATIC_ONE = "ldd a > linked\ngrep -q libshardheap.so.0 linked", "ldd a > linked\nnot grep shardheap linked"


def rust(program, dependencies, more=""):
    """Lines that make a Rust program in this folder, for which the registry of the package replaces crates.io."""
    return f"""mkdir -p src .cargo
cp {program} src/main.rs
cat > Cargo.toml << END
[package]
name = "client"
version = "0.0.0"
edition = "2021"
[dependencies]
{dependencies}
[profile.release]
lto = "fat"
[workspace]
{more}
END
cat > .cargo/config.toml << END
[source.crates-io]
replace-with = "package"
[source.package]
directory = "$PREFIX/share/cargo/registry"
END
"""


SESSION = "$PREFIX/share/cargo/registry/gearlongan-*/examples/session.rs"
BY_PATH = 'gearlongan = { path = "$PREFIX/share/shardheap/rust/gearlongan" }'
REQUIRED = f'gearlongan = "{version().rpartition(".")[0]}"'
BOTH = f'{BY_PATH}\nsharded-slab = "0.1.4"'
PATCH = '[patch.crates-io]\nsharded-slab = { path = "$PREFIX/share/shardheap/rust/sharded-slab" }'
BARE = f"dpkg --purge {' '.join(reversed(NAMES))} > /dev/null 2>&1 || true\n"
# The tarball as a prefix, with nothing installed; and lines that change a file in it.
ELSEWHERE = BARE + """tar -xzf $PACKAGES/*.tar.gz
mv shardheap-* there
export PREFIX=$PWD/there LIB=$PWD/there/lib
"""
REPACKED, PACKED = "cd $PACKAGES\ntar -xzf *.tar.gz\nsed -i", "tar -czf $(ls *.tar.gz) shardheap-*/"
# Both crates' files, unpacked side by side; a program over them; and lines that change a file in the first.
UNPACKED = """for it in $PACKAGES/*.crate; do tar -xzf $it; done
crate=$(ls -d $PWD/gearlongan-*) slab=$(ls -d $PWD/sharded-slab-*)
"""
ALONE = BARE + UNPACKED + "unset PKG_CONFIG_PATH\nexport PREFIX=$PWD\nmkdir -p share/cargo/registry\n"
BY_FILE = 'gearlongan = { path = "$crate" }'
# A crate in a program's folder would be a member of its workspace, so that cargo looked for optional dependencies too.
NO_MEMBERS = 'exclude = ["$crate", "$slab"]'
UNCRATED, CRATED = "cd $PACKAGES\ntar -xzf gearlongan-*.crate\n", """
tar -czf $(ls gearlongan-*.crate) gearlongan-*/
rm -r gearlongan-*/"""
# The names that the header declares, and those that a file shows.
DECLARED = r"""sed -n 's/^[a-z0-9_]* \(shardheap_[a-z_]*\)(.*/\1/p' $PREFIX/include/shardheap*.h > raw
sed -n 's/^SHARDHEAP_API [^(]*\(shardheap_[a-z_]*\)(.*/\1/p' $PREFIX/include/shardheap*.h | sort - raw > declared"""
SHOWN = "awk '$2 ~ /[B-Z]/ {sub(/@.*/, \"\", $3); print $3}' | grep -v SHARDHEAP_0 | sort > shown"


@dataclass
class Row:
    """A script that passes, a fault in what is installed by which it fails, and what it needs."""

    name: str
    script: str
    fault: str
    needs: tuple = ()
    debian: bool = False
    optional: str = ""  # a file of the prefix without which there is nothing to try
    emulated: bool = False  # the program `a` is then run by qemu, on the least processor that it knows


ROWS = [
    Row("the package says how it was made", """
grep -q '^sha256 of libc_exports.a: [0-9a-f]\\{64\\}$' $PREFIX/share/doc/libshardheap-dev/BUILD
proved=$(sed -n 's/^proved: //p' $PREFIX/share/doc/libshardheap-dev/BUILD)
[ "$proved" = "$(pkg-config --variable=proved shardheap)" ]
[ $(ls $PACKAGES | grep -c unproved) -eq $([ "$proved" = yes ] && echo 0 || ls $PACKAGES | wc -l) ]""",
        "sed -i 's/^proved: no/proved: yes/; t; s/^proved: yes/proved: no/' $PREFIX/share/doc/libshardheap-dev/BUILD",
        ("pkg-config",)),
    Row("licences", """cd $PREFIX/share/doc
for folder in $(ls -d libshardheap* librust-gearlongan* 2> /dev/null); do
  file=$folder/copyright
  grep -q 'terms of the toolchain' $file
  named=$(sed -n '/^Files: toolchain/,/^License:/s/^License: //p' $file | sed 's/ or /\\n/g' | sort -u)
  [ $(echo "$named" | wc -l) -ge 3 ]
  for it in $named MIT; do grep -A1 "^License: $it\\$" $file | grep -q '^ .'; done
done""", "sed -i '/^License: MIT-arrayvec$/,/^$/d' $PREFIX/share/doc/*shardheap*/copyright"),
    Row("nothing of the toolchain", """[ $PREFIX != /usr ] || not ls -d /opt/rattle 2> /dev/null
not grep -rlE '/opt/rattle|liblibc_c' $LIB/*shardheap* $LIB/cmake/shardheap $LIB/pkgconfig/shardheap.pc \
  $PREFIX/include/shardheap* $PREFIX/share/shardheap $PREFIX/share/cargo/registry/gearlongan-*""",
        "echo '// /opt/rattle' >> $PREFIX/include/shardheap.h"),
    Row("libshardheap.a shows what the header declares", f"""{DECLARED}
nm -g --defined-only $LIB/libshardheap.a | {SHOWN}
[ -s declared ] && diff declared shown""", "objcopy --globalize-symbol=rattle_alloc $LIB/libshardheap.a", ("nm",)),
    Row("libshardheap.so shows the same, with versions", f"""{DECLARED}
nm -D --defined-only $LIB/libshardheap.so | {SHOWN}
diff declared shown
[ $(objdump -T $LIB/libshardheap.so | grep -c ' SHARDHEAP_0 *shardheap_') = $(wc -l < declared) ]
objdump -p $LIB/libshardheap.so | grep -q 'SONAME *libshardheap.so.0$'""",
        "rm $LIB/libshardheap.so*; cc -shared -Wl,--whole-archive $LIB/libshardheap.a -Wl,--no-whole-archive "
        "-Wl,-soname,libshardheap.so.0 -o $LIB/libshardheap.so", ("nm", "objdump")),
    Row("C, shared, by pkg-config", f"{C} {FLAGS} -lpthread -o a\n./a\n{SHARED_ONE}",
        "sed -i 's|^libdir=.*|libdir=/nowhere|' $LIB/pkgconfig/shardheap.pc; rm $LIB/libshardheap.so",
        ("cc", "pkg-config")),
    Row("C, the examples", f"""for it in session growing_table; do
  cc -O2 $PREFIX/share/doc/libshardheap-dev/examples/$it.c {FLAGS} -lpthread -o a
  ./a
done""", "rm $PREFIX/share/doc/libshardheap-dev/examples/growing_table.c", ("cc", "pkg-config")),
    Row("C, static", f"{C} {STATIC} -o a\n./a\n{STATIC_ONE}", "objcopy -L shardheap_raw_load $LIB/libshardheap.a",
        ("cc", "pkg-config")),
    Row("C, static-pie", f"{C} -static-pie -fPIE {STATIC} -o a\n./a\nldd a > linked\nnot grep '=>' linked",
        "objcopy -L shardheap_raw_open_for $LIB/libshardheap.a", ("cc", "pkg-config")),
    Row("C, on the oldest processor", f"{C.replace('session', 'misuse')} -static-pie -fPIE {STATIC} -o a",
        "sed -i 's/^#define SHARDHEAP_H$/&\\nstatic void __attribute__((constructor)) newer(void) "
        "{ __asm__ volatile(\"pblendw $1, %xmm0, %xmm0\"); }/' $PREFIX/include/shardheap.h",
        ("cc", "pkg-config"), emulated=True),
    Row("C, -flto and -no-pie", f"{C} -flto -no-pie {STATIC} -o a\n./a",
        "objcopy -L shardheap_raw_remove $LIB/libshardheap.a", ("cc", "pkg-config")),
    Row("C++17", f"{CPP} $CLIENT/owners.cpp {FLAGS} -lpthread -o a\n./a",
        "sed -i 's/^extern \"C\" {$/extern \"C++\" {/' $PREFIX/include/shardheap.h", ("c++", "pkg-config")),
    Row("C++17, handles of shardheap.hpp", f"{CPP} $CLIENT/handles.cpp {STATIC} -o a\n./a",
        "rm -f $PREFIX/include/gearlongan/*.hpp; echo > $PREFIX/include/shardheap.hpp", ("c++", "pkg-config"),
        optional="include/shardheap.hpp"),
    Row("C and C++, other targets", """echo > empty.c
for flags in -m32 -mx32 -U__linux__; do
  not cc $flags -E -include $PREFIX/include/shardheap.h empty.c > /dev/null 2> said
  grep -q 'shardheap.h:.* supports x86-64 Linux alone' said
  not c++ -std=c++17 $flags -E -include $PREFIX/include/shardheap.hpp empty.c > /dev/null 2> said
  grep -q 'shardheap.hpp:.* supports x86-64 Linux alone' said
done
not c++ -std=c++14 -E -include $PREFIX/include/shardheap.hpp empty.c > /dev/null 2> said
grep -q 'needs C++17' said""", "sed -i '/^#error/d' $PREFIX/include/shardheap.hpp", ("cc", "c++")),
    # (Without -Wsystem-headers gcc does not warn of a header in /usr/include.)
    Row("C, the hook of checked mode without another header", """echo '#include <shardheap.h>
uint32_t one(shardheap_pass *pass) { return shardheap_remove(pass, 1); }' > hook.c
for hook in -DSHARDHEAP_CHECKED '-DSHARDHEAP_ON_MISUSE(code)=__builtin_trap()'; do
  cc -std=c11 -Wall -Wextra -Werror -Wsystem-headers -DSHARDHEAP_CHECKED "$hook" $(pkg-config --cflags shardheap) \
    -c hook.c
done""", "sed -i 's/^#define SHARDHEAP_ON_MISUSE(code) .*/#define SHARDHEAP_ON_MISUSE(code) abort()/' "
         "$PREFIX/include/shardheap.h", ("cc", "pkg-config")),
    Row("Python", """export PYTHONPATH=$PREFIX/share/shardheap/python
cd $CLIENT
python3 -B -m unittest -q test_shardheap""",
        "sed -i 's/^    GONE = 2$/    GONE = 3/; s/^    CROWDED = 3$/    CROWDED = 2/' "
        "$PREFIX/share/shardheap/python/shardheap.py", ("python3",)),
    Row("meson", """meson setup made $CLIENT > said 2>&1 || { cat said; exit 1; }
meson compile -C made > said 2>&1 || { cat said; exit 1; }
for name in c_shared c_static handles; do made/$name; done
ldd made/c_shared > linked
grep -q libshardheap.so.0 linked
ldd made/c_static > linked
not grep shardheap linked
not meson setup other $CLIENT -Dwanted='>=9' > said 2>&1
grep -q 'Invalid version' said""", "sed -i 's|^libdir=.*|libdir=/nowhere|' $LIB/pkgconfig/shardheap.pc; "
        "rm $LIB/libshardheap.so", ("meson", "c++", "pkg-config")),
    Row("CMake", """version=$(pkg-config --modversion shardheap)
cmake -S $CLIENT -B made -DWANTED=${version%.*} > said 2>&1 || { cat said; exit 1; }
cmake --build made > said 2>&1 || { cat said; exit 1; }
for name in c_shared c_static owners; do made/$name; done""",
        "sed -i 's/libshardheap.a/libshardheap-none.a/' $LIB/cmake/shardheap/shardheap-config.cmake",
        ("cmake", "c++", "pkg-config")),
    Row("CMake refuses another minor version", """cmake -S $CLIENT -B made > said 2>&1 || { cat said; exit 1; }
not cmake -S $CLIENT -B other -DWANTED=0.0 > said 2>&1
grep -q 'compatible with requested version' said""",
        "echo 'set(PACKAGE_VERSION_COMPATIBLE TRUE)' >> $LIB/cmake/shardheap/shardheap-config-version.cmake",
        ("cmake", "c++")),
    Row("Rust, static, from the registry", rust(SESSION, REQUIRED) + """
cargo build --offline --quiet --release
cp target/release/client a
./a\n""" + STATIC_ONE, "rm $PREFIX/share/cargo/registry/gearlongan-*/.cargo-checksum.json", ("cargo", "pkg-config")),
    Row("Rust, shared", rust(SESSION, REQUIRED) + """
SHARDHEAP_SHARED=1 cargo build --offline --quiet
cp target/debug/client a
./a\n""" + SHARED_ONE, "rm $LIB/libshardheap.so*", ("cargo", "pkg-config")),
    Row("Rust, by path, and no other version", rust(SESSION, BY_PATH) + """
cargo run --offline --quiet
mkdir other
sed "s/^Version: .*/Version: 0.0.1/; s|^libdir=.*|libdir=$LIB|" $LIB/pkgconfig/shardheap.pc > other/shardheap.pc
export PKG_CONFIG_PATH=$PWD/other
cargo check --offline > said 2>&1
grep -q 'there is no libshardheap' said
export SHARDHEAP_LIB_DIR=$PWD/other
not cargo check --offline > said 2>&1
grep -q 'which SHARDHEAP_LIB_DIR names' said""",
        "sed -i 's/starts_with(minor)/contains(\"\")/' $PREFIX/share/cargo/registry/gearlongan-*/build.rs",
        ("cargo", "pkg-config")),
    Row("Rust, the crate's file beside an installed library",
        UNPACKED + rust("$crate/examples/session.rs", BY_FILE, NO_MEMBERS) + """
cargo run --offline --quiet
grep -qF "native=$(pkg-config --variable=libdir shardheap)" target/debug/build/gearlongan-*/output
mkdir own
cp $LIB/libshardheap.a own
SHARDHEAP_LIB_DIR=$PWD/own cargo run --offline --quiet
grep -qF "native=$PWD/own" target/debug/build/gearlongan-*/output""",
        f"{UNCRATED}sed -i 's/|| installed()/|| None::<PathBuf>/' gearlongan-*/build.rs{CRATED}",
        ("cargo", "cc", "pkg-config")),
    Row("Rust, in place of sharded-slab", rust("$CLIENT/slab.rs", BOTH, PATCH) + """
cargo run --offline --quiet""", "rm $PREFIX/share/shardheap/rust/gearlongan", ("cargo", "pkg-config")),
    Row("the lines of README.md and library/README.md", """version=$(pkg-config --modversion shardheap)
for it in libshardheap0 libshardheap-dev; do cp $PACKAGES/${it}_*.deb ${it}_$version-1_amd64.deb; done
tar -xzf $PACKAGES/gearlongan-*.crate
mv gearlongan-* gearlongan-$version
tar -czf gearlongan-$version.crate gearlongan-$version
rm -r gearlongan-$version
cp $CLIENT/session.c .
sed -n '/^## From a package$/,/^## From this/{/^```sh$/,/^```$/{/^```/!p}}' $CLIENT/README.md > lines
[ $(wc -l < lines) -ge 6 ]
sed -n '/^### Use the library$/,/^## /{/^```bash$/,/^```$/{/^```/!p}}' $CLIENT/front.md > front
[ $(wc -l < front) -ge 3 ]
sed 's/ *#.*//' front | while read -r it; do grep -qF -- "$it" lines; done
bash -eux lines > said 2>&1 || { cat said; exit 1; }
[ $(grep -c 'words: ' said) = 3 ]""", """cd $PACKAGES
dpkg-deb -R libshardheap-dev_*.deb there
rm there/usr/lib/$TRIPLET/libshardheap.a
dpkg-deb -b there libshardheap-dev_*.deb
rm -r there""", ("cargo", "cc"), debian=True),
    Row("lintian", """for it in $PACKAGES/*.deb; do
  lintian --allow-root --no-tag-display-limit --fail-on error,warning $it
done""", """cd $PACKAGES
dpkg-deb -R libshardheap0_*.deb there
rm there/usr/share/doc/libshardheap0/copyright
dpkg-deb -b there libshardheap0_*.deb
rm -r there""", ("lintian",), debian=True),
    Row("a package of a program depends on libshardheap0", f"""{C} {FLAGS} -lpthread -o a
mkdir debian
printf 'Source: client\\n\\nPackage: client\\nArchitecture: any\\n' > debian/control
dpkg-shlibdeps -O a > said
grep -q 'libshardheap0 (>= {version()}~)' said""",
        "rm /var/lib/dpkg/info/libshardheap0:*.symbols /var/lib/dpkg/info/libshardheap0:*.shlibs",
        ("cc", "pkg-config", "dpkg-shlibdeps"), debian=True),
    Row("removal leaves nothing", f"""names='{' '.join(reversed(NAMES))}'
""" + """dpkg -L $names | sed '/^$/d' | sort -u | while read -r it; do [ -d "$it" ] || echo "$it"; done > files
[ $(wc -l < files) -gt 40 ]
dpkg --purge $names > /dev/null
while read -r it; do not ls -d "$it" 2> /dev/null; done < files
for it in doc/libshardheap0 doc/libshardheap-dev doc/librust-gearlongan-dev shardheap cargo/registry; do
  not ls -d /usr/share/$it 2> /dev/null
done
not pkg-config --exists shardheap
ldconfig -p > linked
not grep shardheap linked""", "touch /usr/share/doc/libshardheap-dev/left", debian=True),
    Row("Rust, the crate's file alone", ALONE + rust("$crate/examples/session.rs", BY_FILE, NO_MEMBERS) + """
cargo run --offline --quiet > said 2>&1 || { cat said; exit 1; }
not grep -i warning said
[ $(sed -n 's/^sha256 of libshardheap.a: //p' $crate/BUILD) = $(sha256sum < $crate/lib/libshardheap.a | cut -c1-64) ]
for it in LICENSE-MIT LICENSE-APACHE README.md; do [ -s $crate/$it ]; [ -s $slab/$it ]; done
grep -q 'terms of the toolchain' $crate/copyright""", f"{UNCRATED}rm gearlongan-*/lib/*.a{CRATED}", ("cargo", "cc")),
    Row("Rust, the crate's own tests and documents", ALONE + """cd $crate
cargo test --offline --quiet
RUSTDOCFLAGS="-D warnings" cargo doc --offline --quiet --features record""",
        f"{UNCRATED}sed -i 's|\\.\\./README.md|../../../README.md|' gearlongan-*/src/lib.rs{CRATED}", ("cargo", "cc")),
    Row("Rust, the least that the crate asks for", ALONE + """cd $crate
least=$(sed -n 's/^rust-version = "\\(.*\\)"/\\1/p' Cargo.toml)
rustc --version | grep -q "^rustc $least\\."
cargo build --offline --quiet --examples""",
        f"{UNCRATED}echo 'fn _of_1_86(it: &mut Vec<u8>) {{ it.pop_if(|_| true); }}' >> gearlongan-*/src/lib.rs{CRATED}",
        ("cargo", "cc"), debian=True),
    Row("Rust, other targets", ALONE + """cd $crate
not cargo check --offline --target aarch64-unknown-linux-gnu > said 2>&1
grep -q 'supports x86-64 Linux alone, and this target is aarch64' said""",
        f"{UNCRATED}sed -i 's/^    refuse_other_targets();//' gearlongan-*/build.rs{CRATED}", ("cargo", "cc")),
    Row("Rust, the file of sharded-slab", ALONE + rust(
        "$CLIENT/slab.rs", f'{BY_FILE}\nsharded-slab = "0.1.4"',
        NO_MEMBERS + '\n[patch.crates-io]\nsharded-slab = { path = "$slab" }') + "cargo run --offline --quiet",
        "rm $PACKAGES/sharded-slab-*.crate", ("cargo", "cc")),
    Row("Rust, documents without the library", ELSEWHERE + rust(SESSION, BY_PATH, 'exclude = ["there"]') + """
unset PKG_CONFIG_PATH
cargo doc --offline -p gearlongan > said 2>&1 || { cat said; exit 1; }
grep -q 'there is no libshardheap' said
not cargo build --offline > said 2>&1
grep -q 'lshardheap' said""",
        f"""{REPACKED} 's/println!("cargo:warning=/panic!("/' */share/cargo/registry/gearlongan-*/build.rs
{PACKED}""", ("cargo",)),
    Row("the lines of INSTALL", ELSEWHERE + """cd there
[ $(wc -l < INSTALL) = 10 ]
sed -n 's/^  //p' INSTALL | sed '/usr.local/d' > lines
[ $(wc -l < lines) = 2 ]
bash -eux lines""", f"""{REPACKED} 's|^prefix=.*|prefix=/usr/nowhere|' */lib/pkgconfig/shardheap.pc
{PACKED}""", ("cc", "pkg-config")),
    Row("the tarball at another place", ELSEWHERE + """export PKG_CONFIG_PATH=$LIB/pkgconfig
export CMAKE_PREFIX_PATH=$PREFIX LD_LIBRARY_PATH=$LIB
""" + f"{C} {FLAGS} -lpthread -o a\n./a\nldd a | grep $LIB/libshardheap.so.0\n{C} {STATIC} -o a\n./a" + """
cmake -S $CLIENT -B made > said 2>&1 && cmake --build made > said 2>&1 || { cat said; exit 1; }
made/c_shared
""" + rust(SESSION, REQUIRED) + "cargo run --offline --quiet",
        f"""{REPACKED} 's|^prefix=.*|prefix=/usr/nowhere|' */lib/pkgconfig/shardheap.pc
{PACKED}""", ("cc", "cmake", "cargo", "pkg-config")),
]
