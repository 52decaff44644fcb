//! A file of sheets: one sheet in bytes, readable sheets of one candidate or of several, or a spreadsheet's rows. What can't be told for sure is
//! malformed, so that no candidate vanishes and no sheet is taken for another.

use crate::csv::{separator, Row, Rows, SEPARATORS};
use crate::sheet::{is_line, may_go_on, may_hold_line, sheet};
use crate::text::{decoded, lines, said, starts_as_text, words, Mistake, LINE_ENDS};

/// A candidate's sheet in words, or why it is malformed.
#[derive(Clone, Debug, PartialEq, Eq)]
pub struct Candidate {
    pub name: String,
    pub sheet: Result<Vec<u16>, Mistake>,
}

/// The candidates of a file in their order. A sheet without a candidate's name goes by the file's.
pub fn candidates(file_name: &str, file: &[u8]) -> Vec<Candidate> {
    let own_name = |sheet| vec![Candidate { name: file_name.to_string(), sheet }];
    // A sheet in bytes that could pass starts so. A text in UTF-16 may too, and then goes on as a text.
    if file.first() == Some(&0) && !starts_as_text(&file[1..]) {
        return own_name(words("sheet", file));
    }
    let text = decoded(file);
    if let Some(at) = text.find('\0') {
        return own_name(Err(Mistake::new(lines(&text[..at]).count(), "a byte 0, which no text has; a text is to be in UTF-8")));
    }
    let first = lines(&text).map(|(_, line)| said(line)).find(|line| !line.is_empty());
    match first {
        None if text.trim().is_empty() => own_name(Ok(Vec::new())),
        None => own_name(Err(Mistake::new(1, "nothing but comments"))),
        Some(first) if is_line(first) || names_candidate(&text) => of_lines(file_name, &text),
        Some(_) => match separator(&text).filter(|&separator| starts_with_name(&text, separator)) {
            Some(separator) => of_rows(&text, separator),
            None => of_lines(file_name, &text),
        },
    }
}

/// What a `candidate` line says after the word, and its comment. A `#` with white space on both sides starts one; one in a name, as in `Team #2`,
/// doesn't.
fn candidate_said(line: &str) -> Option<(&str, &str)> {
    let line = line.trim_start();
    // Most lines are told by this alone.
    if !line.starts_with(['c', 'C']) {
        return None;
    }
    let (word, rest) = line.split_at(line.find(char::is_whitespace).unwrap_or(line.len()));
    if !word.eq_ignore_ascii_case("candidate") {
        return None;
    }
    let apart = |at: usize| [rest[..at].chars().next_back(), rest[at + 1..].chars().next()].into_iter().all(|c| c.is_none_or(char::is_whitespace));
    let end = rest.match_indices('#').map(|(at, _)| at).find(|&at| apart(at)).unwrap_or(rest.len());
    Some(rest.split_at(end))
}

/// Whether a `candidate` line may as well be a spreadsheet's row, as `Candidate 4,7: 0+` is: a separator is in what it says, and the word isn't in
/// small letters.
fn may_be_row(line: &str) -> bool {
    candidate_said(line).is_some_and(|(name, _)| name.contains(SEPARATORS)) && !line.trim_start().starts_with("candidate")
}

/// Whether a line of the text is surely a `candidate` line: one that is no row, or has a line of a sheet below it, and not in quotes.
fn names_candidate(text: &str) -> bool {
    let mut saying = lines(text).filter(|(_, line)| !said(line).is_empty()).map(|(_, line)| line).peekable();
    while let Some(line) = saying.next() {
        let names = candidate_said(line).is_some_and(|(name, _)| !may_hold_line(name));
        let sheet_below = |next: Option<&&str>| next.is_some_and(|next| is_line(said(next))) && !line.contains('"');
        if names && (!may_be_row(line) || sheet_below(saying.peek())) {
            return true;
        }
    }
    false
}

/// One sheet, or one after each `candidate` line.
fn of_lines(file_name: &str, text: &str) -> Vec<Candidate> {
    let all: Vec<(usize, &str)> = lines(text).filter(|(_, line)| !line.trim().is_empty()).collect();
    let starts: Vec<usize> = (0..all.len()).filter(|&at| candidate_said(all[at].1).is_some()).collect();
    let Some(&first) = starts.first() else { return vec![Candidate { name: file_name.to_string(), sheet: of_part(&all) }] };
    let mut found = Vec::new();
    if let Some(&(line, _)) = all[..first].iter().find(|(_, line)| !said(line).is_empty()) {
        found.push(Candidate { name: file_name.to_string(), sheet: Err(Mistake::new(line, "a line before the first candidate")) });
    }
    for (k, &start) in starts.iter().enumerate() {
        let end = starts.get(k + 1).copied().unwrap_or(all.len());
        let (number, line) = all[start];
        let (name, comment) = candidate_said(line).unwrap_or_default();
        let words = match of_part(&all[start + 1..end]) {
            Ok(_) if may_go_on(comment) => Err(Mistake::new(number, "part of a sheet in a comment")),
            Ok(words) if words.is_empty() && may_be_row(line) => Err(Mistake::new(number, "a spreadsheet's row, or a candidate without a sheet")),
            words => words,
        };
        found.push(named(number, name.trim(), words));
    }
    found
}

/// The sheet that the lines of one candidate say. Not all of it may stand in comments, and no line may follow another candidate's name in one.
fn of_part(part: &[(usize, &str)]) -> Result<Vec<u16>, Mistake> {
    let names = |line: &str| line.split_once('#').is_some_and(|(_, comment)| candidate_said(comment.trim_start_matches('#')).is_some());
    let saying = |line: &str| !line.trim_start().starts_with('#');
    let mut after_name = part.iter().skip_while(|(_, line)| !names(line)).skip(1).filter(|(_, line)| saying(line));
    if let Some(&(line, _)) = after_name.next() {
        return Err(Mistake::new(line, "a line after a candidate in a comment"));
    }
    let words = sheet(part.iter().map(|&(number, line)| (number, line.trim())).filter(|(_, line)| saying(line)))?;
    let mut comments = part.iter().filter(|_| words.is_empty());
    comments.find(|(_, line)| may_hold_line(line)).map_or(Ok(words), |&(line, _)| Err(Mistake::new(line, "a sheet in a comment")))
}

/// A candidate, whose name is one.
fn named(line: usize, name: &str, sheet: Result<Vec<u16>, Mistake>) -> Candidate {
    let mistaken = match name {
        "" => Some("a candidate without a name"),
        name if name.contains(LINE_ENDS) => Some("a name over several lines"),
        name if may_hold_line(name) => Some("part of a sheet in a name"),
        _ => None,
    };
    let name = if name.is_empty() { "(no name)" } else { name };
    let sheet = sheet.and_then(|words| mistaken.map_or(Ok(words), |what| Err(Mistake::new(line, what))));
    Candidate { name: name.to_string(), sheet }
}

/// The rows of a spreadsheet, the first of which may have the columns' heads.
fn of_rows(text: &str, separator: char) -> Vec<Candidate> {
    let mut rows = Rows::new(text, separator).filter(Row::says).peekable();
    rows.next_if(heads);
    rows.map(|row| of_row(separator, row)).collect()
}

/// Whether the first row starts with what could be a name. Otherwise the text is lines with a comma among them.
fn starts_with_name(text: &str, separator: char) -> bool {
    Rows::new(text, separator).find(Row::says).is_some_and(|row| !may_hold_line(&row.cells[0].text))
}

/// Whether a row is the columns' heads: it starts with `name`, and nothing in it could be a sheet's.
fn heads(row: &Row) -> bool {
    let head = |text: &str| !text.contains(['\n', ':']) && !may_hold_line(text);
    row.mistake.is_none() && row.cells[0].text.trim().eq_ignore_ascii_case("name") && row.cells[1..].iter().all(|cell| head(&cell.text))
}

/// A row: the name, then cells, each of which holds lines of a sheet, in which the word `home` may be left out.
fn of_row(separator: char, Row { cells, mistake }: Row) -> Candidate {
    let (name, entries) = (&cells[0], &cells[1..]);
    let wrong = |what: String| Some(Mistake::new(name.line, what));
    let mistake = mistake.or_else(|| match entries {
        [] => wrong(format!("a row is a name and cells for its sheet, and no {separator:?} parts them here")),
        _ if name.text.trim().starts_with('#') && entries.iter().all(|cell| cell.text.trim().is_empty()) => {
            wrong("a comment, or a candidate without a sheet".to_string())
        }
        _ => None,
    });
    let entry_lines: Vec<(usize, String)> = entries
        .iter()
        .flat_map(|cell| lines(&cell.text).map(|(number, line)| (cell.line + number - 1, line.trim())))
        // A cell is no comment: a spreadsheet writes #NAME? for what it couldn't work out.
        .filter(|(_, line)| !line.is_empty())
        .map(|(number, line)| (number, if line.starts_with(|c: char| c.is_ascii_digit()) { format!("home {line}") } else { line.to_string() }))
        .collect();
    let words = mistake.map_or_else(|| sheet(entry_lines.iter().map(|(number, line)| (*number, line.as_str()))), Err);
    named(name.line, name.text.trim(), words)
}
