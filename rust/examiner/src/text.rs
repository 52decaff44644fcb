//! Texts: their characters, lines and numbers, and mistakes in them.

use nizkabel::LIST_ROOM;
use std::borrow::Cow;
use std::fmt;

/// A mistake in a text: its line, counted from 1, and what is wrong there.
#[derive(Clone, Debug, PartialEq, Eq)]
pub struct Mistake {
    line: usize,
    what: String,
}

impl Mistake {
    pub fn new(line: usize, what: impl Into<String>) -> Self {
        Mistake { line, what: what.into() }
    }
}

impl fmt::Display for Mistake {
    fn fmt(&self, f: &mut fmt::Formatter<'_>) -> fmt::Result {
        write!(f, "{}: {}", self.line, self.what)
    }
}

/// What some editors and spreadsheets set before a text in UTF-8.
const MARK: &[u8] = b"\xEF\xBB\xBF";

/// Whether a file starts as a text: with a printable character or white space, or with the mark of UTF-8.
pub fn starts_as_text(file: &[u8]) -> bool {
    file.starts_with(MARK) || file.first().is_some_and(|byte| matches!(byte, 9..=13 | 32..=126))
}

/// The characters of a text in UTF-8; those of a line that isn't are taken for Latin-1, in which each byte is a character.
pub fn decoded(file: &[u8]) -> Cow<'_, str> {
    let file = file.strip_prefix(MARK).unwrap_or(file);
    match std::str::from_utf8(file) {
        Ok(text) => Cow::Borrowed(text),
        Err(_) => Cow::Owned(file.split_inclusive(|&byte| byte == b'\n').map(decoded_line).collect()),
    }
}

fn decoded_line(line: &[u8]) -> String {
    String::from_utf8(line.to_vec()).unwrap_or_else(|_| line.iter().map(|&byte| char::from(byte)).collect())
}

/// What may end a line: of a text the first two, and in a word processor the others too.
pub const LINE_ENDS: [char; 7] = ['\n', '\r', '\u{B}', '\u{C}', '\u{85}', '\u{2028}', '\u{2029}'];

/// The lines with their numbers. A line ends with a line feed, a carriage return, or both. Where texts were put one after another, one may start with
/// the mark of UTF-8.
pub fn lines(text: &str) -> impl Iterator<Item = (usize, &str)> {
    let lines = text.split('\n').flat_map(|line| line.strip_suffix('\r').unwrap_or(line).split('\r'));
    (1..).zip(lines.map(|line| line.trim_start_matches('\u{FEFF}')))
}

/// A line without its comment and the white space around it.
pub fn said(line: &str) -> &str {
    line.split('#').next().unwrap_or_default().trim()
}

/// A decimal number of at most so much, in digits alone.
pub fn number(said: &str, what: &str, most: u16) -> Result<u16, String> {
    let mut value: u32 = 0;
    for digit in said.bytes() {
        if !digit.is_ascii_digit() {
            return Err(format!("{what} {} is no number", quoted(said)));
        }
        value = value.saturating_mul(10).saturating_add(u32::from(digit - b'0'));
    }
    match u16::try_from(value) {
        _ if said.is_empty() => Err(format!("{what} \"\" is no number")),
        Ok(value) if value <= most => Ok(value),
        _ => Err(format!("{what} {} is over {most}", cut(said))),
    }
}

/// The words of a sheet or a log in bytes, high byte first.
pub fn words(what: &str, file: &[u8]) -> Result<Vec<u16>, Mistake> {
    match file.chunks_exact(2) {
        pairs if pairs.remainder().is_empty() => Ok(pairs.map(|pair| u16::from_be_bytes([pair[0], pair[1]])).collect()),
        _ => Err(Mistake::new(1, format!("a {what} in bytes has two for each word, and these are {}", file.len()))),
    }
}

/// A zone with its heading, `4+` or `4-`, as the word 2 × zone + heading.
pub fn zone_word(said: &str) -> Result<u16, String> {
    let heading = match said.bytes().last() {
        Some(b'+') => 0,
        Some(b'-') => 1,
        _ => return Err(format!("{} is no zone with + or - for its heading", quoted(said))),
    };
    Ok(2 * number(&said[..said.len() - 1], "zone", 32_767)? + heading)
}

/// A word as a zone with its heading.
pub fn word_shown(word: u16) -> String {
    format!("{}{}", word / 2, if word % 2 == 0 { '+' } else { '-' })
}

/// Numbers parted by spaces.
pub fn numbers(list: &[u16]) -> String {
    list.iter().map(|n| n.to_string()).collect::<Vec<_>>().join(" ")
}

/// As many of the numbers as a board can have carriers, and how many more there are.
pub fn numbers_cut(list: &[u16]) -> String {
    match list.get(LIST_ROOM..) {
        Some(more) if !more.is_empty() => format!("{} and {} more", numbers(&list[..LIST_ROOM]), more.len()),
        _ => numbers(list),
    }
}

/// A text from a file as it is shown on one line. Characters are escaped that could move a terminal's cursor, turn the order of those around them, or
/// not be seen, and those that no page may have.
pub fn shown(text: &str) -> String {
    text.chars().map(|c| if c.is_control() || is_hidden(c) { c.escape_unicode().to_string() } else { c.to_string() }).collect()
}

/// Marks of direction, joiners, fillers and tags without a shape of their own, and what is no character.
fn is_hidden(c: char) -> bool {
    let ordering = matches!(c, '\u{61C}' | '\u{200B}'..='\u{200F}' | '\u{2028}'..='\u{202E}' | '\u{2060}'..='\u{206F}' | '\u{FEFF}');
    let joining = matches!(c, '\u{AD}' | '\u{34F}' | '\u{17B4}' | '\u{17B5}' | '\u{180B}'..='\u{180E}');
    let filling = matches!(c, '\u{115F}' | '\u{1160}' | '\u{3164}' | '\u{FFA0}');
    let other = matches!(c, '\u{FFF0}'..='\u{FFFB}' | '\u{FFFE}' | '\u{FFFF}' | '\u{1D173}'..='\u{1D17A}' | '\u{E0000}'..='\u{E0FFF}');
    ordering || joining || filling || other
}

/// Part of a text in quotes.
pub fn quoted(text: &str) -> String {
    format!("\"{}\"", cut(text))
}

/// As much of a text as a message has room for.
fn cut(text: &str) -> String {
    const MOST: usize = 40;
    let start: String = text.chars().take(MOST).collect();
    shown(&start) + if start.len() < text.len() { ".." } else { "" }
}
