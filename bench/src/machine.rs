//! The machine that is measured on, and what else it does.
use std::env;
use std::fs;
use std::thread::available_parallelism;

/// Above this other work takes so much of the processors that times mislead.
const MOST_LOAD: f64 = 0.5;

// What follows a name in /proc/cpuinfo, once for each processor.
fn entries<'a>(cpuinfo: &'a str, name: &'a str) -> impl Iterator<Item = &'a str> {
    cpuinfo.lines().filter_map(move |line| {
        let (found, value) = line.split_once(':')?;
        (found.trim() == name).then(|| value.trim())
    })
}

fn processors(cpuinfo: &str, usable: usize) -> String {
    let model = entries(cpuinfo, "model name").next().unwrap_or("of a model that is not told");
    let count = entries(cpuinfo, "processor").count();
    let left = if usable < count { format!(", of which this run may use {usable}") } else { String::new() };
    format!("machine: {model}, processors: {count}{left}")
}

fn load(loadavg: &str) -> String {
    let averages = loadavg.split_whitespace().take(3).collect::<Vec<_>>().join(" ");
    let warning = match averages.split(' ').next().and_then(|load| load.parse::<f64>().ok()) {
        Some(load) if load <= MOST_LOAD => String::new(),
        Some(_) => format!("\nwarning: the load is above {MOST_LOAD}: other work is in these times"),
        None => "\nwarning: the load is not known: other work may be in these times".to_string(),
    };
    format!("load at the start: {averages}{warning}")
}

fn file(path: &str) -> String {
    fs::read_to_string(path).unwrap_or_default()
}

// The load averages. If several programs of the bench run one after the other, this variable has those from before the
// first one: what an earlier one did is no other work.
fn loads() -> String {
    env::var("SH_LOAD").unwrap_or_else(|_| file("/proc/loadavg"))
}

/// What the machine is, and its load, in lines.
pub fn text() -> String {
    let usable = available_parallelism().map_or(usize::MAX, usize::from);
    format!("{}\n{}", processors(&file("/proc/cpuinfo"), usable), load(&loads()))
}

#[cfg(test)]
mod tests {
    use super::*;

    const CPUINFO: &str = "\
processor\t: 0
model name\t: A Processor: fast
model\t\t: 85

processor\t: 1
model name\t: A Processor: fast
";

    #[test]
    fn processors_are_counted_and_named() {
        assert_eq!(processors(CPUINFO, 2), "machine: A Processor: fast, processors: 2");
        assert_eq!(processors(CPUINFO, 1), "machine: A Processor: fast, processors: 2, of which this run may use 1");
    }

    #[test]
    fn a_load_above_a_half_is_warned_of() {
        assert_eq!(load("0.50 4.00 3.00 1/100 4\n"), "load at the start: 0.50 4.00 3.00");
        let busy = "load at the start: 0.51 0.10 0.10\nwarning: the load is above 0.5: other work is in these times";
        assert_eq!(load("0.51 0.10 0.10 1/100 4\n"), busy);
        assert!(load("").contains("not known"));
    }
}
