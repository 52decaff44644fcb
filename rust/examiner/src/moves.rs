//! Logs of single moves: `7 1-` into a zone, `7 home` into home; and why the rules forbid a move.

use crate::board::Board;
use crate::fault::Reason;
use crate::sheet::carrier;
use crate::text::{decoded, lines, quoted, said, word_shown, words, zone_word, Mistake};
use nizkabel::HOME;
use std::fmt;

/// A log's words as the library takes them, and of a text the line of each move.
#[derive(Clone, Debug, PartialEq, Eq)]
pub struct Log {
    pub words: Vec<u16>,
    pub lines: Vec<usize>,
}

impl Log {
    /// The moves, each a carrier and a word.
    pub fn moves(&self) -> Vec<[u16; 2]> {
        self.words.chunks_exact(2).map(|pair| [pair[0], pair[1]]).collect()
    }
}

/// Reads a log's file. It is bytes where it holds a byte 0, or 255 twice in a row: a text doesn't, and every move does that the rules could allow. A
/// text in UTF-16, which has a byte 0 too, starts with a mark.
pub fn read(file: &[u8]) -> Result<Log, Mistake> {
    if !file.contains(&0) && !file.windows(2).any(|pair| pair == [255, 255]) {
        return readable(&decoded(file));
    }
    if file.starts_with(&[255, 254]) || file.starts_with(&[254, 255]) {
        return Err(Mistake::new(1, "a text is to be in UTF-8, and this one is in UTF-16"));
    }
    words("log", file).map(|words| Log { words, lines: Vec::new() })
}

fn readable(text: &str) -> Result<Log, Mistake> {
    let mut log = Log { words: Vec::new(), lines: Vec::new() };
    for (line, text) in lines(text).map(|(line, text)| (line, said(text))).filter(|(_, text)| !text.is_empty()) {
        log.words.extend(move_said(text).map_err(|what| Mistake::new(line, what))?);
        log.lines.push(line);
    }
    Ok(log)
}

fn move_said(line: &str) -> Result<[u16; 2], String> {
    match line.split_whitespace().collect::<Vec<_>>()[..] {
        [number, "home"] => Ok([carrier(number)?, HOME]),
        [number, zone] => match zone_word(zone)? {
            // In a log this word says home.
            HOME => Err(format!("{} is over every zone, and its word would say home", quoted(zone))),
            word => Ok([carrier(number)?, word]),
        },
        _ => Err(format!("{} is no move: write 7 1- for carrier 7 into zone 1, 7 home into home", quoted(line))),
    }
}

/// A move as a readable log has it.
pub fn move_shown(carrier: u16, word: u16) -> String {
    if word == HOME { format!("{carrier} home") } else { format!("{carrier} {}", word_shown(word)) }
}

/// Why a move is forbidden at its turn.
#[derive(Clone, Debug, PartialEq, Eq)]
pub enum Forbidden {
    NotOut,
    NotHome { leaves: u8 },
    OnlyHome,
    /// As for a word of a sheet.
    Word(Reason),
    OwnZone,
}

/// Why the rules forbid a move, as the board has it whose position is the one before the move; none where no reason fits.
pub fn forbidden(board: &Board, carrier: u16, word: u16) -> Option<Forbidden> {
    let Some(standing) = board.standing(carrier) else { return Some(Forbidden::NotOut) };
    let leaves = board.leave(standing);
    if word == HOME {
        return (leaves != board.home).then_some(Forbidden::NotHome { leaves });
    }
    if !board.has_zone(word) {
        return Some(Forbidden::Word(Reason::NoSuchZone { zones: board.zones.len() }));
    }
    if leaves == board.home {
        return Some(Forbidden::OnlyHome);
    }
    let starts = board.start(word);
    if leaves != starts {
        return Some(Forbidden::Word(Reason::DoesNotTouch { leaves, starts }));
    }
    if standing / 2 == word / 2 {
        return Some(Forbidden::OwnZone);
    }
    board.zones[usize::from(word / 2)].held.map(|held| Forbidden::Word(Reason::HeldBy(held.carrier)))
}

impl fmt::Display for Forbidden {
    fn fmt(&self, f: &mut fmt::Formatter<'_>) -> fmt::Result {
        match self {
            Forbidden::NotOut => write!(f, "the carrier isn't out"),
            Forbidden::NotHome { leaves } => write!(f, "it leaves at point {leaves}, not at home"),
            Forbidden::OnlyHome => write!(f, "it heads for home and goes nowhere else"),
            Forbidden::Word(reason) => write!(f, "{reason}"),
            Forbidden::OwnZone => write!(f, "it stands in that zone"),
        }
    }
}
