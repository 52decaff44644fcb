//! The same operations with what they give in vectors. They lend the library room that is enough for every board, so 10, 11 and 36 don't
//! come, and a log of pairs is never odd, so neither does 37; a board that isn't accepted is an error, and so is a position that isn't written.
//!
//! ```
//! use nizkabel::owned;
//!
//! # fn main() -> Result<(), owned::Refused> {
//! // T with carriers 7 heading out and 9 heading home: 9 goes first, and 7 then goes round.
//! let board = [0x00, 0x0C, 1, 2, 0, 2, 0, 1, 7, 0, 0, 1, 9, 1];
//! let key = owned::key(&board)?;
//! assert_eq!(key.verdict, 0);
//! for entry in &key.entries {
//!     println!("{} goes home by {:?}", entry.carrier, entry.words);
//! }
//! assert_eq!(key.entries[1].words, [0, 3]);
//! assert!(key.blocked.is_empty());
//! // 7 is tried twice: at first it reaches its standing alone.
//! assert_eq!(key.searched, 1 + 1 + 2);
//!
//! let refused = owned::key(&board[..13]).unwrap_err();
//! assert_eq!(refused.number(), 2);
//! assert_eq!(refused.to_string(), "refused 2: L isn't the count of bytes after it");
//! # Ok(())
//! # }
//! ```

use crate::{COPY_ROOM, LIST_ROOM, PLAN_ROOM, POSITION_ROOM};
use std::fmt;

/// One carrier's way home: the words of its route, each 2 × zone + heading.
#[derive(Clone, Debug, PartialEq, Eq)]
pub struct Entry {
    pub carrier: u16,
    pub words: Vec<u16>,
}

/// The key of an accepted board: the verdict (0 ordered, 20 some carrier blocked), the carriers that go home in their
/// order, the blocked ones ascending, and the search count of [`crate::Key`].
#[derive(Clone, Debug, PartialEq, Eq)]
pub struct Key {
    pub verdict: u32,
    pub entries: Vec<Entry>,
    pub blocked: Vec<u16>,
    pub searched: u32,
}

/// What a zone holds: a carrier, and its heading there, 0 from end A to end B, 1 from B to A.
#[derive(Clone, Copy, Debug, PartialEq, Eq)]
pub struct Held {
    pub carrier: u16,
    pub heading: u16,
}

impl Held {
    /// What a position sheet has for a zone that holds it. No word says a heading over 1: a word that no write takes stands for it.
    fn word(self) -> u32 {
        if self.heading > 1 { u32::MAX } else { 2 * u32::from(self.carrier) + u32::from(self.heading) }
    }
}

/// The replay of a move log on an accepted board: what each zone holds after the moves done, none where it is free, and the place in the log of the
/// move that the rules forbid, none where every move was carried out.
#[derive(Clone, Debug, PartialEq, Eq)]
pub struct Replay {
    pub position: Vec<Option<Held>>,
    pub stopped_at: Option<usize>,
}

/// Why a board isn't accepted: a number from 1 to 9. Why a position isn't written to an accepted board: 39, or 6 or 7 of the copy.
#[derive(Clone, Copy, Debug, PartialEq, Eq)]
pub struct Refused(u32);

impl Refused {
    pub fn number(self) -> u32 {
        self.0
    }

    fn unless_accepted(number: u32) -> Result<(), Refused> {
        if matches!(number, 1..=9 | 39) { Err(Refused(number)) } else { Ok(()) }
    }
}

impl fmt::Display for Refused {
    fn fmt(&self, f: &mut fmt::Formatter<'_>) -> fmt::Result {
        let row = match self.0 {
            1 => "under 6 bytes",
            2 => "L isn't the count of bytes after it",
            3 => "version is neither 1 nor 2",
            4 => "P, home or Z out of range",
            5 => "L isn't 4 + 4 × Z in version 1, 4 + 5 × Z in version 2",
            6 => "an end not below P, heading over 1, or a free zone with heading 1",
            7 => "a carrier in two zones",
            8 => "a point other than home with under two zones, a turning loop counted twice",
            9 => "points that don't hang together",
            _ => "the position isn't of as many zones as the board has, or a heading in it is over 1",
        };
        write!(f, "refused {}: {row}", self.0)
    }
}

impl std::error::Error for Refused {}

/// Draws the key.
pub fn key(board: &[u8]) -> Result<Key, Refused> {
    let mut plan = vec![0; PLAN_ROOM];
    let mut blocked = vec![0; LIST_ROOM];
    let key = crate::key(board, &mut plan, &mut blocked);
    Refused::unless_accepted(key.verdict)?;
    blocked.truncate(key.listed);
    let mut entries = Vec::new();
    let mut rest = &plan[..key.planned];
    // The library's plans are whole: each entry has its carrier, its count and as many words.
    while let [carrier, count, words @ ..] = rest {
        let (words, next) = words.split_at(usize::from(*count));
        entries.push(Entry { carrier: *carrier, words: words.to_vec() });
        rest = next;
    }
    Ok(Key { verdict: key.verdict, entries, blocked, searched: key.searched })
}

/// The carriers that the collapse leaves, ascending.
pub fn collapse(board: &[u8]) -> Result<Vec<u16>, Refused> {
    let mut left = vec![0; LIST_ROOM];
    let collapse = crate::collapse(board, &mut left);
    Refused::unless_accepted(collapse.number)?;
    left.truncate(collapse.listed);
    Ok(left)
}

/// Marks a sheet: 0 where it is right, 30 to 35 where it is not.
pub fn mark(board: &[u8], sheet: &[u16]) -> Result<u32, Refused> {
    let number = crate::mark(board, sheet);
    Refused::unless_accepted(number)?;
    Ok(number)
}

/// Replays a move log from the board's first position: for each move the carrier, then the word of the zone that it enters, or [`crate::HOME`].
///
/// ```
/// use nizkabel::owned::{self, Held};
/// use nizkabel::HOME;
///
/// # fn main() -> Result<(), owned::Refused> {
/// // T with carriers 7 heading out and 9 heading home: 7 can't enter zone 1 before 9 has gone home.
/// let board = [0x00, 0x0C, 1, 2, 0, 2, 0, 1, 7, 0, 0, 1, 9, 1];
/// let replay = owned::replay(&board, &[[9, HOME], [7, 3]])?;
/// assert_eq!(replay.position, [None, Some(Held { carrier: 7, heading: 1 })]);
/// assert_eq!(replay.stopped_at, None);
///
/// let too_soon = owned::replay(&board, &[[7, 3], [9, HOME]])?;
/// assert_eq!(too_soon.stopped_at, Some(0));
/// # Ok(())
/// # }
/// ```
pub fn replay(board: &[u8], log: &[[u16; 2]]) -> Result<Replay, Refused> {
    let mut sheet = vec![0; POSITION_ROOM];
    let replay = crate::replay(board, log.as_flattened(), &mut sheet);
    Refused::unless_accepted(replay.number)?;
    // An accepted board has its count of zones in byte 5.
    sheet.truncate(board[5].into());
    let held = |word: u32| (word != 0).then_some(Held { carrier: (word / 2) as u16, heading: (word % 2) as u16 });
    let stopped_at = (replay.number != 0).then_some(replay.moves as usize);
    Ok(Replay { position: sheet.into_iter().map(held).collect(), stopped_at })
}

/// Writes the fair copy of a board: its track with this position, such as [`replay`] gives, in version 1 where every carrier is at most 255, in
/// version 2 else. It is accepted, and its first position is this one. An error on a position that isn't of as many zones as the board has or has a
/// heading over 1 (39), that has carrier 0 with heading 1 (6), or a carrier in two zones (7).
///
/// ```
/// use nizkabel::owned;
///
/// # fn main() -> Result<(), owned::Refused> {
/// // Board K once 7 has gone into zone 1.
/// let board = [0x00, 0x0C, 1, 2, 0, 2, 0, 1, 7, 0, 0, 1, 0, 0];
/// let copy = owned::write(&board, &owned::replay(&board, &[[7, 3]])?.position)?;
/// assert_eq!(copy, [0x00, 0x0C, 1, 2, 0, 2, 0, 1, 0, 0, 0, 1, 7, 1]);
/// assert_eq!(owned::key(&copy)?.entries[0].words, [3]);
///
/// let refused = owned::write(&board, &[]).unwrap_err();
/// assert_eq!(refused.number(), 39);
/// # Ok(())
/// # }
/// ```
pub fn write(board: &[u8], position: &[Option<Held>]) -> Result<Vec<u8>, Refused> {
    let sheet: Vec<u32> = position.iter().map(|zone| zone.map_or(0, Held::word)).collect();
    let mut copy = vec![0; COPY_ROOM];
    let write = crate::write(board, &sheet, &mut copy);
    Refused::unless_accepted(write.number)?;
    copy.truncate(write.bytes);
    Ok(copy)
}
