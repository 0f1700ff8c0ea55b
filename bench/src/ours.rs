//! Our programs: one is run, and its time read from what it writes to the standard error.
use crate::row::Row;
use std::path::Path;
use std::process::Command;

/// The programs that are measured beside the rivals.
pub struct Programs<'a> {
    /// `tool_bench`.
    pub inside: &'a Path,
    /// The library's calls, if a row needs them.
    pub through: Option<&'a Path>,
}

// The first line that says something, of what may be many.
fn first_line(text: &str) -> &str {
    text.lines().find(|line| !line.trim().is_empty()).unwrap_or("it does not say why")
}

fn time(times: &str) -> Option<f64> {
    times.lines().find_map(|line| line.strip_prefix("nanoseconds ")?.parse().ok())
}

// The name of the program's file.
fn name(program: &Path) -> String {
    program.file_name().map_or(String::new(), |name| name.to_string_lossy().into_owned())
}

/// The nanoseconds that the program takes, which has this many operations to do. An error is one line.
pub fn spent(program: &Path, words: &[String], operations: usize) -> Result<f64, String> {
    let run = Command::new(program).args(words).output().map_err(|error| format!("{}: {error}", program.display()))?;
    let (counts, times) = (String::from_utf8_lossy(&run.stdout), String::from_utf8_lossy(&run.stderr));
    let told = format!("{} {}", name(program), words.join(" "));
    if !run.status.success() {
        return Err(format!("{told}: {}", first_line(&times)));
    }
    let wanted = format!("operations {operations}");
    if !counts.lines().any(|line| line == wanted) {
        return Err(format!("{told} did not do its operations"));
    }
    time(&times).ok_or_else(|| format!("{told} told no time"))
}

/// The nanoseconds of one operation of a row, by the program that has it. An error is one line.
pub fn measure(programs: &Programs<'_>, row: &Row) -> Result<f64, String> {
    let (program, words) = match row.arguments_through() {
        None => (programs.inside, row.arguments()),
        Some(words) => (programs.through.ok_or("the program of the library is not named")?, words),
    };
    let spent = spent(program, &words, row.operations * row.threads)?;
    Ok(spent / row.operations as f64)
}

#[cfg(test)]
mod tests {
    use super::*;

    #[test]
    fn a_time_stands_in_its_line() {
        assert_eq!(time("each 3.0\nnanoseconds 3000\n"), Some(3000.0));
        assert_eq!(time("nanoseconds\n"), None);
    }

    #[test]
    fn of_many_lines_the_first_says_why() {
        assert_eq!(first_line("\nerror: no workload\n\nusage\n"), "error: no workload");
        assert_eq!(first_line("\n"), "it does not say why");
    }
}
