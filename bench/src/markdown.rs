//! The lines of a table in Markdown.

pub fn line(places: &[String]) -> String {
    format!("| {} |", places.join(" | "))
}

/// A head, and the line below it.
pub fn head(places: &[String]) -> String {
    format!("{}\n{}|", line(places), "|---".repeat(places.len()))
}

#[cfg(test)]
mod tests {
    use super::*;

    #[test]
    fn a_head_has_a_line_of_as_many_places_below_it() {
        assert_eq!(head(&["a".to_string(), "b".to_string()]), "| a | b |\n|---|---|");
    }
}
