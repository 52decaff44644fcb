//! Cells parted by commas, semicolons or tabs, as spreadsheets write them, and cells to be read by one.

use crate::sheet::may_hold_line;
use crate::text::{quoted, Mistake};
use std::iter::Peekable;
use std::str::Chars;

/// What may part the cells of a row.
pub const SEPARATORS: [char; 3] = [',', ';', '\t'];

/// A cell: its text, and the line where it starts.
pub struct Cell {
    pub line: usize,
    pub text: String,
}

/// A row: its cells, or the mistake in it with the cells before.
pub struct Row {
    pub cells: Vec<Cell>,
    pub mistake: Option<Mistake>,
}

impl Row {
    /// Whether it is more than empty cells, a comment without another cell, or the line by which some spreadsheets say what parts cells.
    pub fn says(&self) -> bool {
        let (first, rest) = (self.cells[0].text.trim(), &self.cells[1..]);
        let empty = |cell: &Cell| cell.text.trim().is_empty();
        let comment = rest.is_empty() && first.starts_with('#') && !may_hold_line(first);
        let passed_over = first.is_empty() || comment || first == "sep=";
        self.mistake.is_some() || !(passed_over && rest.iter().all(empty))
    }
}

/// What parts the cells of a text: a tab, a semicolon or a comma, whichever parts its first row and the most rows in all; the first of these where
/// two part as many.
pub fn separator(text: &str) -> Option<char> {
    let parted = |separator: char| {
        let mut rows = Rows::new(text, separator).filter(Row::says).map(|row| row.cells.len() > 1).peekable();
        if rows.peek() == Some(&true) { rows.filter(|&parted| parted).count() } else { 0 }
    };
    let parting = SEPARATORS.into_iter().map(|separator| (parted(separator), separator)).filter(|&(rows, _)| rows > 0);
    // Of several that are greatest, the last is taken.
    parting.max_by_key(|&(rows, _)| rows).map(|(_, separator)| separator)
}

/// The rows of a text. A cell in quotes may hold separators, line ends, and a quote written twice.
pub struct Rows<'a> {
    rest: Peekable<Chars<'a>>,
    separator: char,
    line: usize,
}

impl<'a> Rows<'a> {
    pub fn new(text: &'a str, separator: char) -> Self {
        Rows { rest: text.chars().peekable(), separator, line: 1 }
    }

    /// The next character. A line ends with a line feed, a carriage return, or both, which are one.
    fn next_char(&mut self) -> Option<char> {
        let c = self.rest.next()?;
        if c == '\r' {
            self.rest.next_if_eq(&'\n');
        }
        let ends = c == '\r' || c == '\n';
        self.line += usize::from(ends);
        Some(if ends { '\n' } else { c })
    }

    /// A cell, the mistake in it, and what ended it: a separator, a line's end, or the text's.
    fn cell(&mut self) -> (Cell, Option<Mistake>, Option<char>) {
        // Where texts were put one after another, one may start with the mark of UTF-8.
        self.rest.next_if_eq(&'\u{FEFF}');
        let mut cell = Cell { line: self.line, text: String::new() };
        let in_quotes = self.rest.next_if_eq(&'"').is_some();
        if in_quotes {
            loop {
                match self.next_char() {
                    Some('"') if self.rest.next_if_eq(&'"').is_none() => break,
                    Some(c) => cell.text.push(c),
                    None => {
                        let what = format!("a quote that opens a cell isn't closed, so all up to line {}, the last, is in that cell", self.line);
                        let mistake = Mistake::new(cell.line, what);
                        return (cell, Some(mistake), None);
                    }
                }
            }
        }
        let (line, closed) = (self.line, cell.text.len());
        let end = loop {
            match self.next_char() {
                Some(c) if c != self.separator && c != '\n' => cell.text.push(c),
                end => break end,
            }
        };
        let after = &cell.text[closed..];
        let stray = in_quotes && !after.trim().is_empty();
        let mistake = stray.then(|| Mistake::new(line, format!("{} after the quote that closes a cell", quoted(after))));
        (cell, mistake, end)
    }
}

impl Iterator for Rows<'_> {
    type Item = Row;

    fn next(&mut self) -> Option<Row> {
        self.rest.peek()?;
        let mut row = Row { cells: Vec::new(), mistake: None };
        loop {
            let (cell, mistake, end) = self.cell();
            row.cells.push(cell);
            row.mistake = row.mistake.or(mistake);
            if end != Some(self.separator) {
                return Some(row);
            }
        }
    }
}

/// What a formula may start with, to some spreadsheets also in the wide forms, and the small ones in case.
const FORMULA: [char; 13] = [
    '=', '+', '-', '@', '\u{FF1D}', '\u{FF0B}', '\u{FF0D}', '\u{FF20}', '\u{FE66}', '\u{FE62}', '\u{FE63}', '\u{FE6B}', '\u{2212}',
];

/// A row to be read by a spreadsheet, of texts on one line. One that it would take for a formula gets an apostrophe before it.
pub fn row(cells: &[&str]) -> String {
    let cell = |text: &&str| {
        let text = if text.trim_start().starts_with(FORMULA) { format!("'{text}") } else { text.to_string() };
        if text.contains([',', ';', '"']) { format!("\"{}\"", text.replace('"', "\"\"")) } else { text }
    };
    cells.iter().map(cell).collect::<Vec<_>>().join(",") + "\n"
}
