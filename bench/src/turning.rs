//! A turn of a rival, in a process of its own: this program is run as `bench turn SIDE`, with the arguments of the row.
use crate::row::Row;
use crate::sides::Side;
use std::env;
use std::process::Command;

/// What is printed before the time.
const TOLD: &str = "nanoseconds ";

/// Prints the nanoseconds of one operation, in a turn in this process.
pub fn tell(side: Side, row: &Row) -> Result<(), String> {
    let spent = side.turn_here(row).ok_or_else(|| format!("{} has no such workload", side.name()))?;
    println!("{TOLD}{spent}");
    Ok(())
}

fn told(text: &str) -> Option<f64> {
    text.lines().find_map(|line| line.strip_prefix(TOLD)?.parse().ok())
}

/// The nanoseconds of one operation, in a turn in a process of its own. An error is one line.
pub fn measure(side: Side, row: &Row) -> Result<f64, String> {
    let program = env::current_exe().map_err(|why| format!("this program's file: {why}"))?;
    let run = Command::new(program).args(["turn", side.name()]).args(row.arguments()).output();
    let run = run.map_err(|why| format!("a turn of {}: {why}", side.name()))?;
    match told(&String::from_utf8_lossy(&run.stdout)) {
        Some(time) if run.status.success() => Ok(time),
        _ => Err(format!("a turn of {} told no time", side.name())),
    }
}

#[cfg(test)]
mod tests {
    use super::*;

    #[test]
    fn a_time_stands_in_its_line() {
        assert_eq!(told("some text\nnanoseconds 12.5\n"), Some(12.5));
        assert_eq!(told("nanoseconds\n"), None);
    }
}
