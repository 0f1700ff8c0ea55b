//! The programs of ours that are measured: their paths, and which builds they are.
use crate::hash::fnv1a;
use std::env;
use std::ffi::OsString;
use std::fs;
use std::path::{Path, PathBuf};
use std::process::Command;

// Each has a variable that names it, in place of the usual one, which lies below the folder above the bench.
const INSIDE: (&str, &str) = ("SH_BENCH", "crates/tool_bench/out/tool_bench");
const THROUGH: (&str, &str) = ("SH_THROUGH", "bench/through/target/release/through");

/// A program, as its file was when it was looked at.
#[derive(Debug, PartialEq, Eq)]
pub struct Program {
    pub path: PathBuf,
    bytes: usize,
    hash: u64,
}

fn usual(below: &str) -> PathBuf {
    let bench = Path::new(env!("CARGO_MANIFEST_DIR"));
    bench.parent().unwrap_or(bench).join(below)
}

fn named(variable: Option<OsString>, below: &str) -> PathBuf {
    variable.map_or_else(|| usual(below), PathBuf::from)
}

// What git calls the tree that the folder lies in, if there is git and a tree.
fn described(folder: &Path) -> Option<String> {
    let git = Command::new("git").arg("-C").arg(folder).args(["describe", "--always", "--dirty"]).output().ok()?;
    let name = String::from_utf8(git.stdout).ok()?;
    git.status.success().then(|| name.trim().to_string())
}

impl Program {
    /// `tool_bench`, by the calls inside.
    pub fn inside() -> Result<Self, String> {
        Self::of(INSIDE)
    }

    /// `through`, by the calls of the library.
    pub fn through() -> Result<Self, String> {
        Self::of(THROUGH)
    }

    fn of((variable, below): (&str, &str)) -> Result<Self, String> {
        Self::at(&named(env::var_os(variable), below))
    }

    fn at(path: &Path) -> Result<Self, String> {
        let why = |error| format!("no program {}: {error} (bench/README.md says how it is built)", path.display());
        let path = path.canonicalize().map_err(why)?;
        let file = fs::read(&path).map_err(why)?;
        Ok(Program { path, bytes: file.len(), hash: fnv1a(&file) })
    }

    /// Whether its file is as it was.
    pub fn is_unchanged(&self) -> bool {
        Self::at(&self.path).as_ref() == Ok(self)
    }

    /// Which build it is, in lines.
    pub fn text(&self) -> String {
        let tree = self.path.parent().and_then(described).unwrap_or("none that git knows".to_string());
        format!(
            "program: {}\nits file: {} bytes, FNV-1a (64 bits) {:016x}\nits tree, as it is now: {tree}",
            self.path.display(),
            self.bytes,
            self.hash
        )
    }
}

#[cfg(test)]
mod tests {
    use super::*;

    #[test]
    fn the_variable_names_the_program() {
        let below = "crates/tool_bench/out/tool_bench";
        assert_eq!(named(Some("/some/program".into()), below), PathBuf::from("/some/program"));
        assert!(named(None, below).ends_with(below));
    }

    #[test]
    fn a_program_that_is_not_there_is_told_in_one_line() {
        let why = Program::at(Path::new("/nowhere/tool_bench")).expect_err("there is none");
        assert!(why.starts_with("no program /nowhere/tool_bench: ") && !why.contains('\n'), "{why}");
    }

    #[test]
    fn a_build_is_known_by_its_size_and_hash() {
        let path = env::temp_dir().join(format!("bench-program-{}", std::process::id()));
        fs::write(&path, "foobar").expect("there is room");
        let program = Program::at(&path).expect("it is there");
        assert!(program.text().contains("6 bytes, FNV-1a (64 bits) 85944171f73967e8"), "{}", program.text());
        assert!(program.is_unchanged());
        fs::write(&path, "foobaz").expect("there is room");
        assert!(!program.is_unchanged());
        fs::remove_file(&path).expect("it is there");
        assert!(!program.is_unchanged());
    }
}
