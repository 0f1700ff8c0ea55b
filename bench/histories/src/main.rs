//! Records what a map returns, and writes it as a history for `tool_history`: histories MAP SCENE [NUMBER ..].
//!
//! MAP is `sharded_slab`, `sharded_slab_20` (with 20 bits of generation), `slotmap`, `slab`, `dashmap` or `heap`.
//! SCENE is one of
//!
//! - `reuse [INSERTS]`: one thread keeps the key of a removed value, and inserts and removes until it gets that key
//!   again. Beyond 100,000 inserts only the answers on that key are written.
//! - `removers`: two threads remove one value, one after the other, while a third holds it.
//! - `race [ROUNDS]`: two threads remove one value at the same time.
//! - `board [THREADS OPERATIONS]`: threads insert, load and remove by keys on a common board, and sometimes load by a key
//!   of their own that they remembered.
//!
//! What was counted is written as comments behind the answers.
mod caller;
mod dice;
mod maps;
mod recorded;
mod scene;
mod scenes;

use scene::Scene;
use std::io::{self, Write};
use std::process::ExitCode;

fn history(words: &[String]) -> Result<String, String> {
    let [map, scene, numbers @ ..] = words else {
        return Err("histories MAP SCENE [NUMBER ..]".to_string());
    };
    maps::history(map, &Scene::named(scene, numbers)?)
}

fn main() -> ExitCode {
    let words: Vec<String> = std::env::args().skip(1).collect();
    let written = history(&words).and_then(|text| {
        io::stdout().write_all(text.as_bytes()).map_err(|error| format!("the history was not written: {error}"))
    });
    match written {
        Ok(()) => ExitCode::SUCCESS,
        Err(why) => {
            eprintln!("histories: {why}");
            ExitCode::FAILURE
        }
    }
}
