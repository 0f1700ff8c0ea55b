//! Compiles the loops in C, by the compiler that `CC` names or `cc`, as a C program would be: with -O2.
use std::env;
use std::path::PathBuf;
use std::process::Command;

fn run(program: &str, words: &[&str]) {
    let status = Command::new(program).args(words).status();
    assert!(status.as_ref().is_ok_and(|status| status.success()), "{program} {}: {status:?}", words.join(" "));
}

fn main() {
    println!("cargo:rerun-if-changed=c/loops.c");
    println!("cargo:rerun-if-changed=../../library/include/shardheap.h");
    println!("cargo:rerun-if-env-changed=CC");
    let out = PathBuf::from(env::var_os("OUT_DIR").expect("cargo says where"));
    let [object, archive] = ["loops.o", "libloops.a"].map(|name| out.join(name).display().to_string());
    let cc = env::var("CC").unwrap_or_else(|_| "cc".to_string());
    let warnings = ["-Wall", "-Wextra", "-Wpedantic", "-Wconversion", "-Werror"];
    let words = ["-std=c11", "-O2", "-fPIC", "-I../../library/include", "-c", "c/loops.c", "-o", &object];
    run(&cc, &[&warnings[..], &words[..]].concat());
    run("ar", &["rcs", &archive, &object]);
    println!("cargo:rustc-link-search=native={}", out.display());
    println!("cargo:rustc-link-lib=static=loops");
}
