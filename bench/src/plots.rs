//! Two pictures of the table of calls: the ratios of the heap's times to others', and what grows with the number of
//! values.
mod growth;
mod ratios;

use crate::results;
use crate::sides::Side;
use std::fs;
use std::path::Path;

fn name(side: Side) -> String {
    side.name().replace('`', "")
}

// Each picture by its name, of what a run printed.
fn pictures(printed: &str) -> Result<[(&'static str, String); 2], String> {
    let figures = results::figures(printed)?;
    Ok([("ratios.svg", ratios::ratios(&figures)), ("growth.svg", growth::growth(&figures))])
}

/// Writes the pictures of what a run printed into a folder.
pub fn write(folder: &Path, printed: &str) -> Result<(), String> {
    for (name, picture) in pictures(printed)? {
        let path = folder.join(name);
        fs::write(&path, picture).map_err(|why| format!("{}: {why}", path.display()))?;
    }
    Ok(())
}

#[cfg(test)]
mod tests {
    use super::*;
    use crate::results::Figure;

    const HEAD: &str = "| Workload | Threads | ns | to `sharded_slab` (aim) |\n|---|---|---|---|";

    /// What a run printed that has these lines.
    pub(super) fn figures(lines: &[&str]) -> Vec<Figure> {
        results::figures(&format!("{HEAD}\n{}\n", lines.join("\n"))).expect("they are rows")
    }

    // The kept output of a whole run is named for its date and its commit, and no other has three strokes.
    fn is_whole(name: &str) -> bool {
        name.ends_with(".txt") && name.matches('-').count() == 3
    }

    // Names begin with the date, so the last name is the newest.
    fn newest() -> String {
        let results = Path::new(env!("CARGO_MANIFEST_DIR")).join("results");
        let entries = fs::read_dir(&results).expect("there are results");
        let names = entries.map(|entry| entry.expect("it is there").file_name().to_string_lossy().into_owned());
        let newest = names.filter(|name| is_whole(name)).max().expect("there is a run");
        fs::read_to_string(results.join(newest)).expect("it can be read")
    }

    #[test]
    fn the_pictures_are_those_of_the_newest_kept_run() {
        let plots = Path::new(env!("CARGO_MANIFEST_DIR")).join("plots");
        for (name, picture) in pictures(&newest()).expect("it has a table of calls") {
            let kept = fs::read_to_string(plots.join(name)).expect("it can be read");
            assert!(kept == picture, "plots/{name} is not drawn from the newest of results");
        }
    }

    #[test]
    fn what_a_run_printed_is_drawn_into_a_folder() {
        let folder = std::env::temp_dir().join(format!("bench-plots-{}", std::process::id()));
        fs::create_dir(&folder).expect("there is room");
        assert_eq!(write(&folder, &newest()), Ok(()));
        assert!(folder.join("ratios.svg").is_file() && folder.join("growth.svg").is_file());
        assert_eq!(write(&folder, "nothing"), Err("the text has no table of calls".to_string()));
        fs::remove_dir_all(&folder).expect("it is there");
        assert!(write(&folder, &newest()).is_err());
    }
}
