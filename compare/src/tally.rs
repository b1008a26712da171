//! How often each thing came about.

use std::collections::BTreeMap;
use std::fmt;

/// Counts by row and column.
#[derive(Clone, Debug, Default)]
pub struct Tally(BTreeMap<String, BTreeMap<&'static str, u64>>);

/// The column of a fault's number; of 0 that of what was taken.
pub fn column(number: u64) -> &'static str {
    const COLUMNS: [&str; 15] = [
        "taken",
        "1 roster",
        "2 other roster",
        "3 size",
        "4 no box",
        "5 length",
        "6 closed",
        "7 stranger",
        "8 wait",
        "9 no row",
        "10 defection",
        "11 unbacked",
        "12 long",
        "13 key",
        "14 value",
    ];
    COLUMNS.get(number as usize).copied().unwrap_or("other")
}

impl Tally {
    pub fn add(&mut self, row: &str, column: &'static str, count: u64) {
        if count == 0 {
            return;
        }
        if !self.0.contains_key(row) {
            self.0.insert(row.to_owned(), BTreeMap::new());
        }
        if let Some(columns) = self.0.get_mut(row) {
            *columns.entry(column).or_default() += count;
        }
    }

    pub fn join(&mut self, other: Tally) {
        self.join_under("", other);
    }

    /// Adds the counts of another, with this before the name of each row.
    pub fn join_under(&mut self, start: &str, other: Tally) {
        for (row, columns) in other.0 {
            for (column, count) in columns {
                self.add(&format!("{start}{row}"), column, count);
            }
        }
    }

    /// The sum of a column over the rows whose names begin so.
    pub fn sum(&self, start: &str, column: &str) -> u64 {
        let rows = self.0.iter().filter(|(row, _)| row.starts_with(start));
        rows.filter_map(|(_, columns)| columns.get(column)).sum()
    }

    /// The sum of all columns over the rows whose names begin so.
    pub fn total(&self, start: &str) -> u64 {
        let rows = self.0.iter().filter(|(row, _)| row.starts_with(start));
        rows.flat_map(|(_, columns)| columns.values()).sum()
    }
}

impl fmt::Display for Tally {
    fn fmt(&self, out: &mut fmt::Formatter) -> fmt::Result {
        for (row, columns) in &self.0 {
            let counts: Vec<String> =
                columns.iter().map(|(column, count)| format!("{column}: {count}")).collect();
            writeln!(out, "{row:56} {}", counts.join(", "))?;
        }
        Ok(())
    }
}
