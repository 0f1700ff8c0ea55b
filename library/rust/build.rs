//! Finds the library, and links it. It is the first that is there of these:
//!
//! 1. `libshardheap.a`, `libshardheap.so` or `libc_exports.a` in the folder that the variable `SHARDHEAP_LIB_DIR`
//!    names. A folder without any of them is an error.
//! 2. `crates/c_exports/out/libc_exports.a` of the repository that this crate is in.
//! 3. The installed library that pkg-config finds under the name `shardheap`, in the minor version of this crate.
//! 4. `lib/libshardheap.a` of this crate, which a packaged one has.
//!
//! The static library is linked, or the shared one if `SHARDHEAP_SHARED` is set. If nothing is found, the build goes on
//! with a warning: `cargo check` and `cargo doc` need no library. The linker then searches its own folders for
//! `-lshardheap`, and refuses a program if it is not there. Another target than x86-64 Linux is an error.
use std::env;
use std::path::{Path, PathBuf};
use std::process::Command;

/// The archive of the repository, which takes memory by functions that are compiled beside it.
const OWN: &str = "libc_exports.a";

fn run(program: &str, words: &[&str]) {
    let status = Command::new(program).args(words).status();
    assert!(status.as_ref().is_ok_and(|status| status.success()), "{program} {}: {status:?}", words.join(" "));
}

/// Links a library of this folder.
fn link(folder: &Path, kind: &str, name: &str) {
    println!("cargo:rustc-link-search=native={}", folder.display());
    println!("cargo:rustc-link-lib={kind}={name}");
}

/// Compiles the functions by which the archive takes memory, if this crate is in the repository, and links them.
fn link_memory(own: &Path) {
    let source = own.join("../src/memory.c");
    if !source.is_file() {
        return;
    }
    println!("cargo:rerun-if-changed={}", source.display());
    println!("cargo:rerun-if-env-changed=CC");
    let out = PathBuf::from(env::var_os("OUT_DIR").expect("cargo sets it"));
    let [object, archive] = ["memory.o", "libshardheap_memory.a"].map(|name| out.join(name).display().to_string());
    let cc = env::var("CC").unwrap_or_else(|_| "cc".to_string());
    run(&cc, &["-std=c11", "-O2", "-fPIC", "-c", &source.display().to_string(), "-o", &object]);
    run("ar", &["rcs", &archive, &object]);
    link(&out, "static", "shardheap_memory");
}

/// Links the library of this folder, and returns whether there is one.
fn link_from(folder: &Path, own: &Path) -> bool {
    let shared = env::var_os("SHARDHEAP_SHARED").is_some();
    let found = [("libshardheap.so", "dylib"), ("libshardheap.a", "static"), (OWN, "static")].into_iter();
    // The shared library comes first or last.
    let mut found = found.cycle().skip(usize::from(!shared)).take(3).filter(|(file, _)| folder.join(file).is_file());
    let Some((file, kind)) = found.next() else { return false };
    println!("cargo:rerun-if-changed={}", folder.join(file).display());
    link(folder, kind, if file == OWN { "c_exports" } else { "shardheap" });
    if file == OWN {
        link_memory(own);
    }
    true
}

/// The folder of the installed library, if it has the minor version of this crate.
fn installed() -> Option<PathBuf> {
    let minor = concat!(env!("CARGO_PKG_VERSION_MAJOR"), ".", env!("CARGO_PKG_VERSION_MINOR"), ".");
    let answer = |word: &str| {
        let pkg_config = env::var_os("PKG_CONFIG").unwrap_or_else(|| "pkg-config".into());
        let ran = Command::new(pkg_config).args([word, "shardheap"]).output().ok()?;
        ran.status.success().then(|| String::from_utf8_lossy(&ran.stdout).trim().to_string())
    };
    if !answer("--modversion")?.starts_with(minor) {
        return None;
    }
    answer("--variable=libdir").map(PathBuf::from)
}

/// Stops for a target that the library is not made for.
fn refuse_other_targets() {
    let [arch, os, width] = ["ARCH", "OS", "POINTER_WIDTH"]
        .map(|name| env::var(format!("CARGO_CFG_TARGET_{name}")).expect("cargo sets it"));
    assert!(
        arch == "x86_64" && os == "linux" && width == "64",
        "gearlongan supports x86-64 Linux alone, and this target is {arch} {os} with pointers of {width} bits"
    );
}

fn main() {
    refuse_other_targets();
    for name in ["SHARDHEAP_LIB_DIR", "SHARDHEAP_SHARED", "PKG_CONFIG", "PKG_CONFIG_PATH"] {
        println!("cargo:rerun-if-env-changed={name}");
    }
    let own = PathBuf::from(env::var_os("CARGO_MANIFEST_DIR").expect("cargo sets it"));
    if let Some(folder) = env::var_os("SHARDHEAP_LIB_DIR").map(PathBuf::from) {
        assert!(
            link_from(&folder, &own),
            "there is no libshardheap in {}, which SHARDHEAP_LIB_DIR names",
            folder.display()
        );
        return;
    }
    let found = link_from(&own.join("../../crates/c_exports/out"), &own)
        || installed().is_some_and(|folder| link_from(&folder, &own))
        || link_from(&own.join("lib"), &own);
    if !found {
        println!("cargo:warning=there is no libshardheap: install it, or name its folder in SHARDHEAP_LIB_DIR");
        println!("cargo:rustc-link-lib=dylib=shardheap");
    }
}
