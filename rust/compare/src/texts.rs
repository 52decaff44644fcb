//! Boards and sheets as an examiner or a spreadsheet would write them, with white space, comments and line ends of every kind.

use crate::random::Random;
use second::Board;

/// The lines of a readable sheet that say these words, where some do: none does for an entry that isn't whole, for a claim without a carrier, or
/// where the first word is over 1.
pub fn sheet_lines(sheet: &[u16]) -> Option<Vec<String>> {
    match sheet {
        [] => Some(Vec::new()),
        [0] => Some(vec!["blocked none".to_string()]),
        [0, entries @ ..] => entry_lines(entries),
        [1, list @ ..] if !list.is_empty() => {
            let list: Vec<String> = list.iter().map(|c| c.to_string()).collect();
            Some(vec![format!("blocked {}", list.join(" "))])
        }
        _ => None,
    }
}

fn entry_lines(mut entries: &[u16]) -> Option<Vec<String>> {
    let mut lines = Vec::new();
    while !entries.is_empty() {
        let (carrier, count) = (entries[0], usize::from(*entries.get(1)?));
        let route = entries.get(2..2 + count)?;
        let words: Vec<String> = route.iter().map(|word| format!("{}{}", word / 2, ["+", "-"][usize::from(word % 2)])).collect();
        lines.push(format!("home {carrier}: {}", words.join(" ")));
        entries = &entries[2 + count..];
    }
    Some(lines)
}

/// The lines of a readable board.
pub fn board_lines(board: &Board) -> Vec<String> {
    let mut lines = vec![format!("points {} home {}", board.points, board.home)];
    lines.extend(board.zones.iter().map(|z| match (z.carrier, z.heading) {
        (0, _) => format!("{}-{}", z.a, z.b),
        (carrier, 0) => format!("{}-{} {carrier}>", z.a, z.b),
        (carrier, _) => format!("{}-{} <{carrier}", z.a, z.b),
    }));
    lines
}

/// One of these.
fn any<'a>(random: &mut Random, of: &[&'a str]) -> &'a str {
    of[random.below(of.len())]
}

/// The lines as a text, with other white space, empty lines, comments and line ends.
pub fn written(random: &mut Random, lines: &[String]) -> String {
    let mut text = String::new();
    for line in lines {
        while random.once_in(4) {
            text += any(random, &["\n", "\r\n", "  \n", "# a comment; of 7, and \"more\"\n", "\t# points 2\r\n"]);
        }
        text += any(random, &["", "", " ", "\t"]);
        for part in line.split_inclusive(' ') {
            text += part.trim_end();
            text += if part.ends_with(' ') { any(random, &[" ", " ", "  ", "\t"]) } else { "" };
        }
        // A number in a comment after blocked carriers could be one of them.
        let comment = if line.starts_with("blocked") { " # both, \"late\"" } else { " # and 1-2 19>" };
        text += any(random, &["", "", " ", comment, "#"]);
        text += any(random, &["\n", "\n", "\r\n"]);
    }
    // A text may end without a line's end, and a spreadsheet's with the mark of UTF-8 before it.
    if random.once_in(4) {
        text.truncate(text.trim_end_matches(['\r', '\n']).len());
    }
    if random.once_in(8) && !text.is_empty() { format!("\u{FEFF}{text}") } else { text }
}

/// A sheet's lines with those of the key's page among them that are passed over.
pub fn with_passed_over(random: &mut Random, lines: &[String]) -> Vec<String> {
    let mut lines = lines.to_vec();
    if random.once_in(3) {
        lines.insert(random.below(lines.len() + 1), "verdict 20".to_string());
        lines.insert(0, "board 2 points 2 zones 1 out".to_string());
    }
    if lines.iter().any(|line| line.starts_with("home")) && random.once_in(2) {
        lines.insert(random.below(lines.len() + 1), "blocked none".to_string());
    }
    lines
}

/// A file of several candidates' sheets: each after a `candidate` line.
pub fn of_candidates(random: &mut Random, candidates: &[(String, Vec<String>)]) -> String {
    let mut text = String::new();
    for (name, lines) in candidates {
        text += any(random, &["", "\n", "# the next one\n"]);
        text += &format!("candidate{}{name}{}", any(random, &[" ", "  ", "\t"]), any(random, &["\n", " \n", "\r\n"]));
        let lines = with_passed_over(random, lines);
        let sheet = written(random, &lines);
        text += sheet.trim_start_matches('\u{FEFF}');
        text += "\n";
    }
    text
}

/// The same as rows of a spreadsheet: the name, then a cell for each line, or one for all of them.
pub fn as_rows(random: &mut Random, candidates: &[(String, Vec<String>)]) -> String {
    let separator = any(random, &[",", ";", "\t"]);
    let end = any(random, &["\n", "\r\n"]);
    let mut text = if random.once_in(2) { ["Name", separator, "sheet", end].concat() } else { String::new() };
    for (name, lines) in candidates {
        let mut lines: Vec<String> = with_passed_over(random, lines);
        if random.once_in(2) {
            lines.iter_mut().for_each(|line| *line = line.trim_start_matches("home ").to_string());
        }
        if random.once_in(3) {
            lines = vec![lines.join(end)];
        }
        lines.resize(lines.len() + 1 + random.below(2), String::new());
        let cells: Vec<String> = [name].into_iter().chain(&lines).map(|text| cell(random, text)).collect();
        text += &cells.join(separator);
        text += end;
        text += any(random, &["", "", end, &[separator, end].concat()]);
    }
    text
}

/// A cell, in quotes where it has to be and often where not.
fn cell(random: &mut Random, text: &str) -> String {
    let in_quotes = text.contains([',', ';', '\t', '"', '\r', '\n']) || random.once_in(3);
    if in_quotes { format!("\"{}\"", text.replace('"', "\"\"")) } else { text.to_string() }
}

/// Names of every kind, each once.
pub fn name(random: &mut Random, number: usize) -> String {
    let first = any(random, &["Anna", "Jörg", "Nr #7", "O'Neill, Bo", "\"Cy\"", "a;b", "=1+1", "Home", "7:", "Name", "Łucja"]);
    format!("{first} {number}")
}
