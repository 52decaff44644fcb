//! The marks of a sitting: a line or a row a candidate, and the counts.

use crate::board::Board;
use crate::candidates::Candidate;
use crate::csv;
use crate::fault::{mark, meaning, At, Fault};
use crate::text::shown;
use std::collections::BTreeMap;

/// What came of a sheet: the library's mark with the place of the fault, or where and why it is malformed.
pub enum Outcome {
    Marked(u32, Option<Fault>),
    Malformed(String),
}

/// A candidate and what came of the sheet.
pub struct Marked {
    pub name: String,
    pub outcome: Outcome,
}

/// Marks a candidate's sheet, from this file.
pub fn marked(board: &Board, file_name: &str, candidate: Candidate) -> Marked {
    let outcome = match candidate.sheet {
        Ok(sheet) => {
            let (number, fault) = mark(board, &sheet);
            Outcome::Marked(number, fault)
        }
        Err(mistake) => Outcome::Malformed(format!("{file_name}:{mistake}")),
    };
    Marked { name: candidate.name, outcome }
}

/// The lines of a terminal: name, number, meaning, place and reason, then the counts.
pub fn table(marks: &[Marked]) -> String {
    let names: Vec<String> = marks.iter().map(|marked| shown(&marked.name)).collect();
    let width = names.iter().map(|name| name.chars().count()).max().unwrap_or_default().min(40);
    let line = |(name, marked): (&String, &Marked)| match &marked.outcome {
        Outcome::Marked(number, None) => format!("{name:<width$}  {number:>2}  {}\n", meaning(*number)),
        Outcome::Marked(number, Some(fault)) => format!("{name:<width$}  {number:>2}  {}: {fault}\n", meaning(*number)),
        Outcome::Malformed(why) => format!("{name:<width$}   -  malformed, not marked: {}\n", shown(why)),
    };
    names.iter().zip(marks).map(line).collect::<String>() + &counts(marks)
}

/// How many sheets there are, how many of them are right, get each number, and aren't marked.
pub fn counts(marks: &[Marked]) -> String {
    let mut by_number = BTreeMap::new();
    for marked in marks {
        if let Outcome::Marked(number, _) = marked.outcome {
            *by_number.entry(number).or_insert(0) += 1;
        }
    }
    let right = by_number.remove(&0).unwrap_or(0);
    let wrong: usize = by_number.values().sum();
    let each: Vec<String> = by_number.iter().map(|(number, count)| format!("{number}: {count}")).collect();
    let each = if each.is_empty() { String::new() } else { format!(" ({})", each.join(", ")) };
    format!("sheets {}, right {right}, wrong {wrong}{each}, malformed {}\n", marks.len(), malformed(marks))
}

pub fn malformed(marks: &[Marked]) -> usize {
    marks.iter().filter(|marked| matches!(marked.outcome, Outcome::Malformed(_))).count()
}

/// The names that several sheets have, and how many: two candidates, or one sheet twice.
pub fn shared_names(marks: &[Marked]) -> Vec<(String, usize)> {
    let mut sheets: BTreeMap<&str, usize> = BTreeMap::new();
    for marked in marks {
        *sheets.entry(&marked.name).or_insert(0) += 1;
    }
    sheets.into_iter().filter(|&(_, count)| count > 1).map(|(name, count)| (shown(name), count)).collect()
}

/// A spreadsheet's rows, the columns' heads first. Of a malformed sheet the number is empty. A zone's heading is said in words: a spreadsheet might
/// take `3-` for a number.
pub fn rows(marks: &[Marked]) -> String {
    let heads = csv::row(&["name", "number", "meaning", "entry", "carrier", "word", "zone", "heading", "reason"]);
    let number = |number: Option<usize>| number.map(|n| n.to_string()).unwrap_or_default();
    let row = |marked: &Marked| {
        let name = shown(&marked.name);
        let (mark, fault) = match &marked.outcome {
            Outcome::Marked(mark, fault) => (mark, fault),
            Outcome::Malformed(why) => return csv::row(&[&name, "", "malformed", "", "", "", "", "", &shown(why)]),
        };
        let (entry, word) = (fault.as_ref().and_then(|fault| fault.entry), fault.as_ref().and_then(|fault| fault.word));
        let place = |at: Option<At>| number(at.map(|at| at.place + 1));
        let (carrier, zone) = (number(entry.map(|at| at.said.into())), number(word.map(|at| usize::from(at.said / 2))));
        let heading = word.map_or("", |at| if at.said % 2 == 0 { "A to B" } else { "B to A" });
        let reason = fault.as_ref().map(|fault| fault.reason.to_string()).unwrap_or_default();
        csv::row(&[&name, &mark.to_string(), meaning(*mark), &place(entry), &carrier, &place(word), &zone, heading, &reason])
    };
    marks.iter().fold(heads, |rows, marked| rows + &row(marked))
}
