//! Which rows of the tables are measured.
use crate::row::Row;
use crate::table::{Table, TABLES};

// Those of these tables that have rows with the word in their title, and these rows.
fn among(tables: &[Table], word: &str) -> Vec<(Table, Vec<Row>)> {
    let rows = |table: Table| table.rows().into_iter().filter(|row| row.title().contains(word)).collect();
    let all = tables.iter().map(|table| (*table, rows(*table)));
    all.filter(|(_, rows): &(Table, Vec<Row>)| !rows.is_empty()).collect()
}

/// The tables of the usual run that have rows with the word in their title, and these rows. The empty word is in each
/// title.
pub fn selected(word: &str) -> Vec<(Table, Vec<Row>)> {
    among(&TABLES, word)
}

/// The same of a table that is not in the usual run.
pub fn selected_of(table: Table, word: &str) -> Vec<(Table, Vec<Row>)> {
    among(&[table], word)
}

#[cfg(test)]
mod tests {
    use super::*;

    #[test]
    fn all_rows_have_the_empty_word() {
        let all = TABLES.map(|table| table.rows().len());
        assert_eq!(selected("").iter().map(|(_, rows)| rows.len()).collect::<Vec<_>>(), all);
    }

    #[test]
    fn a_word_selects_rows_and_their_tables() {
        let found = selected("leave");
        assert_eq!(found.len(), 1);
        assert_eq!((found[0].0, found[0].1.len()), (Table::Changes, 6));
        assert!(selected("nothing like it").is_empty());
        assert_eq!(selected_of(Table::Reads, "load from C").iter().map(|(_, rows)| rows.len()).sum::<usize>(), 12);
    }
}
