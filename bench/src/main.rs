//! Measures the library's heap beside what one would pick otherwise, and beside its own steps as bare atomics: all in
//! one run, in turn. `README.md` says how it is run.
mod arguments;
mod boundary;
mod bytes;
mod changing;
mod counting;
mod dash;
mod gate;
mod hash;
mod layout;
mod machine;
mod markdown;
mod measuring;
mod model;
mod mutex_slab;
mod mutex_slot_map;
mod opening;
mod ours;
mod payload;
mod plots;
mod program;
mod results;
mod reuse;
mod ring;
mod rival;
mod rivals;
mod row;
mod rows;
mod rw_slot_map;
mod samples;
mod selection;
mod sharded;
mod sides;
mod slot_keys;
mod svg;
mod table;
mod times;
mod title;
mod turning;
mod waiting;
mod workload;
mod workloads;

use arguments::Request;
use measuring::Plan;
use ours::Programs;
use program::Program;
use row::Row;
use selection::{selected, selected_of};
use std::fs;
use std::path::Path;
use std::process::ExitCode;
use table::Table;

#[global_allocator]
static ALLOCATOR: counting::Counting = counting::Counting;

// Prints each table that has a line, once its rows are measured. Returns how many rows were left out.
fn print_tables(plan: &Plan, tables: Vec<(Table, Vec<Row>)>, plots: Option<&Path>) -> Result<usize, String> {
    let mut left_out = 0;
    for (table, rows) in tables {
        let asked = rows.len();
        let measured = plan.measure(rows);
        left_out += asked - measured.len();
        if measured.is_empty() {
            continue;
        }
        let text = table.text(&measured);
        println!("{text}\n");
        if let (Table::Calls, Some(folder)) = (table, plots) {
            plots::write(folder, &text)?;
        }
    }
    Ok(left_out)
}

// Says what is measured, and where.
fn print_about(program: &Program, rounds: usize) {
    println!("{}\n{}\nrounds: {rounds}\n", program.text(), machine::text());
}

// An error if a program is another one than when it was looked at.
fn unchanged(programs: &[&Program]) -> Result<(), String> {
    match programs.iter().find(|program| !program.is_unchanged()) {
        Some(program) => Err(format!("{} changed while it was measured", program.path.display())),
        None => Ok(()),
    }
}

// An error if there is a row that was left out.
fn none_of(left_out: usize) -> Result<(), String> {
    match left_out {
        0 => Ok(()),
        _ => Err(format!("rows that were left out: {left_out}")),
    }
}

fn measure(rounds: usize, tables: Vec<(Table, Vec<Row>)>, plots: Option<&Path>) -> Result<(), String> {
    let program = Program::inside()?;
    print_about(&program, rounds);
    let programs = Programs { inside: &program.path, through: None };
    let left_out = print_tables(&Plan { programs, rounds }, tables, plots)?;
    unchanged(&[&program])?;
    none_of(left_out)
}

// Measures reads inside and by the library's calls beside those of the rivals.
fn measure_reads(rounds: usize, word: &str) -> Result<(), String> {
    let (inside, through) = (Program::inside()?, Program::through()?);
    println!("{}", through.text());
    print_about(&inside, rounds);
    let programs = Programs { inside: &inside.path, through: Some(&through.path) };
    let left_out = print_tables(&Plan { programs, rounds }, selected_of(Table::Reads, word), None)?;
    unchanged(&[&inside, &through])?;
    none_of(left_out)
}

// Measures the library's calls beside the same ones inside.
fn measure_boundary(rounds: usize) -> Result<(), String> {
    let (inside, through) = (Program::inside()?, Program::through()?);
    println!("{}", through.text());
    print_about(&inside, rounds);
    println!("{}", boundary::table(&inside.path, &through.path, rounds)?);
    unchanged(&[&inside, &through])
}

// Measures what a heap takes to open.
fn measure_opening(rounds: usize) -> Result<(), String> {
    let through = Program::through()?;
    print_about(&through, rounds);
    println!("{}", opening::table(&through.path, rounds)?);
    unchanged(&[&through])
}

// Writes the pictures of a run whose output was kept.
fn plot(results: &Path, folder: &Path) -> Result<(), String> {
    let said = |why: String| format!("{}: {why}", results.display());
    let printed = fs::read_to_string(results).map_err(|why| said(why.to_string()))?;
    plots::write(folder, &printed).map_err(said)
}

fn do_as_asked(request: Request) -> Result<(), String> {
    match request {
        Request::Times { rounds, word, plots } => measure(rounds, selected(&word), plots.as_deref()),
        Request::Large { rounds, word } => measure(rounds, selected_of(Table::Large, &word), None),
        Request::Reads { rounds, word } => measure_reads(rounds, &word),
        Request::Library { rounds } => measure_boundary(rounds),
        Request::Opening { rounds } => measure_opening(rounds),
        Request::Plots { results, folder } => plot(&results, &folder),
        Request::Bytes => {
            println!("{}\n\n{}", bytes::ABOUT, bytes::table());
            Ok(())
        }
        Request::Reuse => {
            println!("{}", reuse::text()?);
            Ok(())
        }
        Request::Turn { side, row } => turning::tell(side, &row),
        Request::Help => {
            println!("{}", arguments::HELP);
            Ok(())
        }
    }
}

// What the command line asks for.
fn request() -> Result<Request, String> {
    let words: Vec<String> = std::env::args_os().skip(1).map(|word| word.to_string_lossy().into_owned()).collect();
    let words: Vec<&str> = words.iter().map(String::as_str).collect();
    arguments::request(&words)
}

fn tell(why: &str, status: u8) -> ExitCode {
    eprintln!("bench: {why}");
    ExitCode::from(status)
}

fn main() -> ExitCode {
    match request().map(do_as_asked) {
        Ok(Ok(())) => ExitCode::SUCCESS,
        Ok(Err(why)) => tell(&why, 1),
        Err(why) => tell(&why, 2),
    }
}
