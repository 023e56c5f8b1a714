//! Tables in Markdown, and their places in a document.

use std::fs;
use std::path::Path;

/// A table in Markdown.
pub struct Table {
    text: String,
}

impl Table {
    /// A table of words.
    pub fn of_words(headings: &[String]) -> Table {
        Table::with_columns(headings, "---|")
    }

    /// A table of numbers, but for the first column.
    pub fn of_numbers(headings: &[String]) -> Table {
        Table::with_columns(headings, "---:|")
    }

    fn with_columns(headings: &[String], column: &str) -> Table {
        let mut table = Table { text: String::new() };
        table.row(headings);
        table.text.push_str(&format!("|---|{}\n", column.repeat(headings.len() - 1)));
        table
    }

    /// Adds a row.
    pub fn row(&mut self, cells: &[String]) {
        self.text.push_str(&format!("| {} |\n", cells.join(" | ")));
    }

    /// The Markdown.
    pub fn text(&self) -> &str {
        &self.text
    }
}

/// Puts the text between `<!-- NAME -->` and `<!-- end NAME -->`, or prints it if there is no document.
pub fn put(document: Option<&Path>, name: &str, text: &str) {
    let Some(path) = document else {
        println!("{name}\n\n{text}");
        return;
    };
    let old = fs::read_to_string(path).unwrap_or_else(|problem| panic!("{}: {problem}", path.display()));
    let (start, end) = (format!("<!-- {name} -->\n"), format!("<!-- end {name} -->"));
    let place = |mark: &str| old.find(mark).unwrap_or_else(|| panic!("{}: no line {mark}", path.display()));
    let new = format!("{}{}\n{}\n{}", &old[..place(&start)], start.trim_end(), text.trim_end(), &old[place(&end)..]);
    fs::write(path, new).unwrap_or_else(|problem| panic!("{}: {problem}", path.display()));
}

/// Two or three digits that count.
pub fn short(value: f64) -> String {
    match value {
        value if value < 0.995 => format!("{value:.2}"),
        value if value < 9.95 => format!("{value:.1}"),
        value => format!("{value:.0}"),
    }
}
