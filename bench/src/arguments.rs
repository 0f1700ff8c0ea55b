//! The command line.
use crate::row::Row;
use crate::selection::{selected, selected_of};
use crate::sides::Side;
use crate::table::Table;
use std::path::PathBuf;
use std::slice::Iter;

/// The number of rounds unless a word says another.
const ROUNDS: usize = 15;

/// What the program is asked for.
#[derive(Debug, PartialEq)]
pub enum Request {
    /// The tables of times: this many rounds of the rows with the word in their title.
    Times {
        rounds: usize,
        word: String,
        /// The folder for pictures of the table of calls, if they are wanted.
        plots: Option<PathBuf>,
    },
    /// The table of times in large heaps: this many rounds of the rows with the word in their title.
    Large {
        rounds: usize,
        word: String,
    },
    /// The table of reads without a hold: this many rounds of the rows with the word in their title.
    Reads {
        rounds: usize,
        word: String,
    },
    /// The table of the library's calls beside those inside, by this many rounds.
    Library {
        rounds: usize,
    },
    /// The table of what a heap takes to open, by this many rounds.
    Opening {
        rounds: usize,
    },
    /// The pictures of a run whose output was kept in a file, into a folder.
    Plots {
        results: PathBuf,
        folder: PathBuf,
    },
    /// The table of bytes a value.
    Bytes,
    /// Whether a key is used again, and whether two callers remove one value.
    Reuse,
    /// One turn of a rival, as this program asks it of itself.
    Turn {
        side: Side,
        row: Row,
    },
    Help,
}

pub const HELP: &str = "\
usage: bench [--rows WORD] [--plots FOLDER] [ROUNDS]
       bench large [--rows WORD] [ROUNDS]
       bench reads [--rows WORD] [ROUNDS]
       bench library [ROUNDS]
       bench opening [ROUNDS]
       bench plots RESULTS FOLDER
       bench bytes
       bench reuse

The tables of times, that of times in heaps of 100,000 to 10,000,000 values, that of reads without a hold inside and from
C and Rust beside reads of other maps, that of the library's calls from Rust and from C beside those inside, that of what
such heaps take to open, or that of bytes a value. `bench plots` measures nothing: it draws the pictures of the table of
calls in the file RESULTS, a kept output of a run, into FOLDER. `reuse` shows whether sharded_slab and the heap use a key
again, and whether two callers of `remove` both remove one value.

  ROUNDS          the number of rounds, at least 1; 15 if it is not said
  --rows WORD     only the rows with this in their title, such as 'churn' or 'read into'
  --plots FOLDER  writes the pictures ratios.svg and growth.svg of the table of calls into this folder
  -h, --help      this text

The variable SH_BENCH names the program of the heap, in place of crates/tool_bench/out/tool_bench, and SH_THROUGH that of
the library, in place of bench/through/target/release/through.
Exit status: 0 all was measured, 1 something could not be, 2 the command line is wrong. Without the program of the
library `reuse` tries sharded_slab alone, says in its last line that the heap is skipped, and ends with 0.";

fn rounds(word: &str) -> Result<usize, String> {
    match word.parse() {
        Ok(0) => Err("0 rounds measure nothing".to_string()),
        Ok(rounds) => Ok(rounds),
        Err(_) if word.starts_with('-') => Err(format!("no option {word}")),
        Err(_) => Err(format!("{word} is no number of rounds")),
    }
}

// What follows --rows, if it is in some title.
fn word(rest: &mut Iter<'_, &str>, is_in_titles: impl Fn(&str) -> bool) -> Result<String, String> {
    match rest.next() {
        None => Err("--rows wants a word".to_string()),
        Some(word) if !is_in_titles(word) => Err(format!("no row has {word} in its title")),
        Some(word) => Ok(word.to_string()),
    }
}

// What follows --plots, if it is a folder.
fn folder(rest: &mut Iter<'_, &str>) -> Result<PathBuf, String> {
    match rest.next().map(PathBuf::from) {
        None => Err("the plots want a folder".to_string()),
        Some(path) if !path.is_dir() => Err(format!("{} is no folder", path.display())),
        Some(path) => Ok(path),
    }
}

// What follows `plots`: a file, and a folder.
fn plots(words: &[&str]) -> Result<Request, String> {
    let [results, rest @ ..] = words else { return Err("plots wants the output of a run, and a folder".to_string()) };
    match rest {
        [] | [_] => Ok(Request::Plots { results: PathBuf::from(results), folder: folder(&mut rest.iter())? }),
        [_, word, ..] => Err(format!("plots takes no {word}")),
    }
}

// Notes what was said once.
fn note<T>(place: &mut Option<T>, said: T, name: &str) -> Result<(), String> {
    match place.replace(said) {
        None => Ok(()),
        Some(_) => Err(format!("{name} are said twice")),
    }
}

fn times(words: &[&str]) -> Result<Request, String> {
    let (mut asked, mut selecting, mut plots) = (None, None, None);
    let mut rest = words.iter();
    while let Some(next) = rest.next() {
        match *next {
            "--rows" => note(&mut selecting, word(&mut rest, |word| !selected(word).is_empty())?, "the rows")?,
            "--plots" => note(&mut plots, folder(&mut rest)?, "the plots")?,
            other => note(&mut asked, rounds(other)?, "the rounds")?,
        }
    }
    Ok(Request::Times { rounds: asked.unwrap_or(ROUNDS), word: selecting.unwrap_or_default(), plots })
}

// The rounds of a table that is not in the usual run, and the word of its rows.
fn of_table(table: Table, words: &[&str]) -> Result<(usize, String), String> {
    let (mut asked, mut selecting) = (None, None);
    let mut rest = words.iter();
    let is_in_titles = |word: &str| !selected_of(table, word).is_empty();
    while let Some(next) = rest.next() {
        match *next {
            "--rows" => note(&mut selecting, word(&mut rest, is_in_titles)?, "the rows")?,
            other => note(&mut asked, rounds(other)?, "the rounds")?,
        }
    }
    Ok((asked.unwrap_or(ROUNDS), selecting.unwrap_or_default()))
}

// What follows `turn`: a rival, and the arguments of a row.
fn turn(words: &[&str]) -> Option<Request> {
    let (side, row) = words.split_first()?;
    Some(Request::Turn { side: Side::of_name(side)?, row: Row::of_arguments(row)? })
}

/// What the words ask for, of which the first is not the program's name; or, in one line, why they are wrong.
pub fn request(words: &[&str]) -> Result<Request, String> {
    match words {
        ["-h" | "--help"] => Ok(Request::Help),
        ["large", words @ ..] => of_table(Table::Large, words).map(|(rounds, word)| Request::Large { rounds, word }),
        ["reads", words @ ..] => of_table(Table::Reads, words).map(|(rounds, word)| Request::Reads { rounds, word }),
        ["turn", words @ ..] => turn(words).ok_or_else(|| "turn wants a side and the words of a row".to_string()),
        ["library"] => Ok(Request::Library { rounds: ROUNDS }),
        ["library", word] => rounds(word).map(|rounds| Request::Library { rounds }),
        ["library", _, word, ..] => Err(format!("library takes no {word}")),
        ["opening"] => Ok(Request::Opening { rounds: ROUNDS }),
        ["opening", word] => rounds(word).map(|rounds| Request::Opening { rounds }),
        ["opening", _, word, ..] => Err(format!("opening takes no {word}")),
        ["plots", words @ ..] => plots(words),
        ["bytes"] => Ok(Request::Bytes),
        ["bytes", word, ..] => Err(format!("bytes takes no {word}")),
        ["reuse"] => Ok(Request::Reuse),
        ["reuse", word, ..] => Err(format!("reuse takes no {word}")),
        words => times(words),
    }
}

#[cfg(test)]
mod tests {
    use super::*;
    use crate::workload::Workload;

    fn times_of(rounds: usize, word: &str) -> Result<Request, String> {
        Ok(Request::Times { rounds, word: word.to_string(), plots: None })
    }

    fn large_of(rounds: usize, word: &str) -> Result<Request, String> {
        Ok(Request::Large { rounds, word: word.to_string() })
    }

    #[test]
    fn usual_words_are_requests() {
        assert_eq!(request(&[]), times_of(15, ""));
        assert_eq!(request(&["3"]), times_of(3, ""));
        assert_eq!(request(&["--rows", "churn"]), times_of(15, "churn"));
        assert_eq!(request(&["--rows", "read into", "3"]), times_of(3, "read into"));
        assert_eq!(request(&["3", "--rows", "adopt"]), times_of(3, "adopt"));
        let plots = Some(PathBuf::from("/tmp"));
        assert_eq!(request(&["--plots", "/tmp", "3"]), Ok(Request::Times { rounds: 3, word: String::new(), plots }));
        assert_eq!(request(&["large"]), large_of(15, ""));
        assert_eq!(request(&["large", "3"]), large_of(3, ""));
        assert_eq!(request(&["large", "--rows", "10,000,000", "3"]), large_of(3, "10,000,000"));
        let reads = Request::Reads { rounds: 3, word: "load from C".to_string() };
        assert_eq!(request(&["reads", "3", "--rows", "load from C"]), Ok(reads));
        assert_eq!(request(&["library"]), Ok(Request::Library { rounds: 15 }));
        assert_eq!(request(&["library", "3"]), Ok(Request::Library { rounds: 3 }));
        assert_eq!(request(&["opening", "3"]), Ok(Request::Opening { rounds: 3 }));
        let (results, folder) = (PathBuf::from("some.txt"), PathBuf::from("/tmp"));
        assert_eq!(request(&["plots", "some.txt", "/tmp"]), Ok(Request::Plots { results, folder }));
        assert_eq!(request(&["bytes"]), Ok(Request::Bytes));
        assert_eq!(request(&["reuse"]), Ok(Request::Reuse));
        let row = Row::new(Workload::Get, 2, 1);
        let turn = ["turn", "bare atomics", "get", "--threads", "2"];
        assert_eq!(request(&turn), Ok(Request::Turn { side: Side::Model, row }));
        assert_eq!(request(&["--help"]), Ok(Request::Help));
    }

    #[test]
    fn wrong_words_are_refused_in_one_line() {
        let table = [
            (&["0"][..], "0 rounds measure nothing"),
            (&["x"], "x is no number of rounds"),
            (&["3.5"], "3.5 is no number of rounds"),
            (&["99999999999999999999999"], "99999999999999999999999 is no number of rounds"),
            (&["3", "4"], "the rounds are said twice"),
            (&["--rows"], "--rows wants a word"),
            (&["--rows", "nothing like it"], "no row has nothing like it in its title"),
            (&["--rows", "get", "--rows", "read"], "the rows are said twice"),
            (&["--plots"], "the plots want a folder"),
            (&["--plots", "/nowhere"], "/nowhere is no folder"),
            (&["--fast"], "no option --fast"),
            (&["-3"], "no option -3"),
            (&["large", "0"], "0 rounds measure nothing"),
            (&["large", "3", "4"], "the rounds are said twice"),
            (&["large", "--rows", "leave"], "no row has leave in its title"),
            (&["large", "--plots", "/tmp"], "no option --plots"),
            (&["reads", "--rows", "leave"], "no row has leave in its title"),
            (&["library", "0"], "0 rounds measure nothing"),
            (&["library", "3", "4"], "library takes no 4"),
            (&["opening", "3", "4"], "opening takes no 4"),
            (&["plots"], "plots wants the output of a run, and a folder"),
            (&["plots", "some.txt"], "the plots want a folder"),
            (&["plots", "some.txt", "/nowhere"], "/nowhere is no folder"),
            (&["plots", "some.txt", "/tmp", "3"], "plots takes no 3"),
            (&["bytes", "3"], "bytes takes no 3"),
            (&["reuse", "3"], "reuse takes no 3"),
            (&["turn", "ours", "get"], "turn wants a side and the words of a row"),
            (&["turn", "bare atomics", "jump"], "turn wants a side and the words of a row"),
            (&["3", "bytes"], "bytes is no number of rounds"),
        ];
        for (words, why) in table {
            assert_eq!(request(words), Err(why.to_string()), "{words:?}");
        }
    }
}
