//! Measures concurrent maps in whole uses: `uses [--rows WORD] [ROUNDS]` prints a table of times, and `uses latency`,
//! `uses memory` and `uses room` one each. `uses growing [ROUNDS]` prints those of heaps that grow, `uses callers
//! [ROUNDS]` those of callers that come and go, and `uses walk [ROUNDS]` that of walks. `uses picture RESULTS FILE` draws
//! a kept table of latencies. ../README.md says what they are.
#[path = "../../src/gate.rs"]
mod gate;
#[path = "../../src/machine.rs"]
mod machine;
#[path = "../../src/markdown.rs"]
mod markdown;
#[path = "../../src/payload.rs"]
mod payload;
#[path = "../../src/svg.rs"]
mod svg;
#[allow(dead_code)]
#[path = "../../src/times.rs"]
mod times;
#[path = "../../src/waiting.rs"]
mod waiting;

mod dice;
mod growing;
mod map;
mod maps;
mod picture;
mod probe;
mod room;
mod scenes;
mod tables;
mod together;
mod turning;
mod walk;

use maps::Side;
use probe::CALLS;
use scenes::{Row, Scene};
use std::fs;
use std::process::ExitCode;
use turning::{row_of, waited_line};

const USAGE: &str = "\
usage: uses [--rows WORD] [ROUNDS]
       uses latency | uses memory | uses room
       uses growing [ROUNDS] | uses callers [ROUNDS] | uses walk [ROUNDS]
       uses picture RESULTS FILE";
const ROUNDS: usize = 3;

fn latency_report(side: Side, threads: &str) -> Option<String> {
    let threads = threads.parse().ok().filter(|threads| tables::THREADS.contains(threads))?;
    let (mut clock, spent) = scenes::latency(side, threads);
    let row = Row { scene: Scene::Session(90), threads };
    let lines = CALLS.map(|call| {
        let times = clock.quantiles(call).unwrap_or_default().map(|time| time.to_string());
        format!("{} {}\n", call.name(), times.join(" "))
    });
    Some(format!("{}{}", lines.concat(), waited_line(side, row, &spent)))
}

// What one turn prints.
fn report(side: &str, words: &[&str]) -> Option<String> {
    let side = Side::of_name(side)?;
    match words {
        ["latency", threads] => latency_report(side, threads),
        ["memory"] => Some(format!("bytes {}\n", scenes::memory(side).map(|bytes| bytes.to_string()).join(" "))),
        words => {
            let row = row_of(words)?;
            let (nanoseconds, spent) = scenes::turn(side, row);
            Some(format!("nanoseconds {nanoseconds}\n{}", waited_line(side, row, &spent)))
        }
    }
}

fn rounds(word: &str) -> Result<usize, String> {
    word.parse().ok().filter(|rounds| *rounds > 0).ok_or_else(|| USAGE.to_string())
}

// Draws the latencies of a run whose output was kept.
fn draw(results: &str, file: &str) -> Result<(), String> {
    let said = |name: &str, why: std::io::Error| format!("{name}: {why}");
    let text = fs::read_to_string(results).map_err(|why| said(results, why))?;
    let picture = picture::picture(&text).ok_or_else(|| format!("{results} has no table of latencies"))?;
    fs::write(file, picture).map_err(|why| said(file, why))
}

// The tables of as many rounds as these words say.
fn of_rounds(count: &[&str], tables: impl Fn(usize) -> Result<String, String>) -> Result<String, String> {
    let rounds = match count {
        [] => ROUNDS,
        [count] => rounds(count)?,
        _ => return Err(USAGE.to_string()),
    };
    Ok(format!("{}\nrounds: {rounds}\n\n{}\n", machine::text(), tables(rounds)?))
}

fn printed(words: &[&str]) -> Result<String, String> {
    match words {
        ["turn", growing::NAME, words @ ..] => growing::report(words).ok_or_else(|| USAGE.to_string()),
        ["turn", walk::NAME, words @ ..] => walk::report(words).ok_or_else(|| USAGE.to_string()),
        ["turn", side, words @ ..] => report(side, words).ok_or_else(|| USAGE.to_string()),
        ["latency"] => Ok(format!("{}\n\n{}\n", machine::text(), tables::latency()?)),
        ["memory"] => Ok(format!("{}\n", tables::memory()?)),
        ["room"] => Ok(format!("{}\n", tables::room())),
        ["picture", results, file] => draw(results, file).map(|()| String::new()),
        ["growing", count @ ..] => of_rounds(count, growing::tables),
        ["callers", count @ ..] => of_rounds(count, growing::of_callers),
        ["walk", count @ ..] => of_rounds(count, walk::of_walks),
        ["--rows", word, count @ ..] => of_rounds(count, |rounds| tables::uses(rounds, word)),
        count => of_rounds(count, |rounds| tables::uses(rounds, "")),
    }
}

fn main() -> ExitCode {
    let words: Vec<String> = std::env::args().skip(1).collect();
    match printed(&words.iter().map(String::as_str).collect::<Vec<_>>()) {
        Ok(text) => {
            print!("{text}");
            ExitCode::SUCCESS
        }
        Err(why) => {
            eprintln!("uses: {why}");
            ExitCode::FAILURE
        }
    }
}
