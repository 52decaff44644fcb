//! A readable sheet: `home 7: 0+ 1-` lines, `blocked none`, or `blocked 5 6`.

use crate::text::{number, quoted, zone_word, Mistake};

/// What a line says.
enum Line {
    /// An entry of a plan: the carrier, the count of words, the words.
    Home(Vec<u16>),
    BlockedNone,
    Blocked(Vec<u16>),
    /// A line of the key's page that is no part of a sheet.
    PassedOver,
}

/// A carrier's number in a sheet or a log.
pub fn carrier(said: &str) -> Result<u16, String> {
    number(said, "carrier", 65_535)
}

/// A line with or without a comment, in which it may not go on. What starts as a comment is no line.
fn line_said(line: &str) -> Result<Line, String> {
    let (line, comment) = line.split_once('#').filter(|(line, _)| !line.is_empty()).unwrap_or((line, ""));
    let (word, rest) = line.split_once(char::is_whitespace).unwrap_or((line, ""));
    let goes_on = || Err("part of a sheet in a comment".to_string());
    match word {
        _ if may_go_on(comment) => goes_on(),
        "home" => entry_said(rest).map(Line::Home),
        "blocked" if rest.trim() == "none" => Ok(Line::BlockedNone),
        "blocked" if rest.trim().is_empty() => Err("blocked says none, or the carriers that are".to_string()),
        "blocked" if comment.contains(|c: char| c.is_ascii_digit()) => goes_on(),
        "blocked" => rest.split_whitespace().map(carrier).collect::<Result<_, _>>().map(Line::Blocked),
        "board" | "verdict" if more_than_page(rest) => Err(format!("more than a {word} line, which is passed over")),
        "board" | "verdict" => Ok(Line::PassedOver),
        _ => Err(format!("{} starts no line of a sheet: those are home and blocked", quoted(word))),
    }
}

/// Whether there is more than a page has after `board` or `verdict`: a comma, a semicolon, a colon, one of a sheet's words, or part of a sheet.
fn more_than_page(rest: &str) -> bool {
    let rest = rest.to_ascii_lowercase();
    [",", ";", ":", "home", "blocked"].iter().any(|part| rest.contains(part)) || may_hold_line(&rest)
}

/// Whether a text is a line of a sheet.
pub fn is_line(text: &str) -> bool {
    line_said(text).is_ok()
}

/// What may stand for a `+` or a `-`: those of word processors and of other encodings.
const SIGNS: [char; 17] = [
    '+', '\u{96}', '\u{97}', '\u{AD}', '\u{2010}', '\u{2011}', '\u{2012}', '\u{2013}', '\u{2014}', '\u{2015}', '\u{2043}', '\u{207B}', '\u{2212}',
    '\u{FE58}', '\u{FE63}', '\u{FF0B}', '\u{FF0D}',
];

/// Whether a text could hold part of a sheet, whatever parts its words: zones with their headings, `home` before a number, `blocked` in any case
/// before one or before `none`. A name may be `Home 7`, and it may start with zones, as `12- Anna` does.
pub fn may_hold_line(text: &str) -> bool {
    let text = text.replace(SIGNS, "-");
    let words: Vec<&str> = text.split(|c: char| !c.is_alphanumeric() && c != '-').filter(|word| !word.is_empty()).collect();
    let number = |word: &str| word.starts_with(|c: char| c.is_ascii_digit());
    let zones = |word: &str| number(word) && word.ends_with('-') && word.bytes().all(|c| c.is_ascii_digit() || c == b'-');
    words.windows(2).any(|pair| match *pair {
        ["home", next] => number(next),
        [word, next] if word.eq_ignore_ascii_case("blocked") => number(next) || next.eq_ignore_ascii_case("none"),
        [_, next] => zones(next),
        _ => false,
    })
}

/// Whether a sheet could go on in a comment.
pub fn may_go_on(comment: &str) -> bool {
    !comment.is_empty() && may_hold_line(&format!("comment {comment}"))
}

/// `7: 0+ 1-`, or without a word.
fn entry_said(said: &str) -> Result<Vec<u16>, String> {
    let (number, route) = said.split_once(':').ok_or("a home line is the carrier, a colon and its route, as in: home 7: 0+ 1-")?;
    let mut entry = Vec::with_capacity(2 + route.len() / 2);
    entry.extend([carrier(number.trim())?, 0]);
    for word in route.split_whitespace() {
        entry.push(zone_word(word)?);
    }
    entry[1] = u16::try_from(entry.len() - 2).map_err(|_| "a route has no more than 65535 words".to_string())?;
    Ok(entry)
}

/// The sheet that lines say, in words. They are without white space around them, and none is empty.
pub fn sheet<'a>(lines: impl Iterator<Item = (usize, &'a str)>) -> Result<Vec<u16>, Mistake> {
    let (mut entries, mut blocked): (Vec<u16>, Option<Vec<u16>>) = (Vec::new(), None);
    let mut sheet_lines = 0;
    for (line, text) in lines {
        let wrong = |what: &str| Err(Mistake::new(line, what));
        let claims = blocked.as_ref().is_some_and(|list| !list.is_empty());
        match line_said(text).map_err(|what| Mistake::new(line, what))? {
            Line::PassedOver => continue,
            Line::Home(_) if claims => return wrong("home after blocked carriers: a sheet is a plan or a claim"),
            Line::Blocked(_) if !entries.is_empty() => return wrong("blocked carriers after home: a sheet is a plan or a claim"),
            Line::BlockedNone | Line::Blocked(_) if blocked.is_some() => return wrong("a second blocked line"),
            Line::Home(entry) => entries.extend(entry),
            Line::BlockedNone => blocked = Some(Vec::new()),
            Line::Blocked(list) => blocked = Some(list),
        }
        sheet_lines += 1;
    }
    Ok(match blocked {
        _ if sheet_lines == 0 => Vec::new(),
        Some(list) if !list.is_empty() => [vec![1], list].concat(),
        _ => [vec![0], entries].concat(),
    })
}
