//! A safe Rust wrapper of the proved library: the key of a board, its collapse, the mark of a sheet, the replay of a move log, and fair copies of
//! boards. The functions here write into slices that the caller lends, and allocate nothing; those of [`owned`] give vectors. The numbers are those
//! of the table in the repository's README.
//!
//! ```
//! // Board K of document 01: two points, two zones, carrier 7 in zone 0.
//! let board = [0x00, 0x0C, 1, 2, 0, 2, 0, 1, 7, 0, 0, 1, 0, 0];
//! let mut plan = [0u16; nizkabel::PLAN_ROOM];
//! let mut list = [0u16; nizkabel::LIST_ROOM];
//! let key = nizkabel::key(&board, &mut plan, &mut list);
//! assert_eq!((key.verdict, key.planned, key.listed, key.searched), (0, 4, 0, 2));
//! assert_eq!(plan[..key.planned], [7, 2, 0, 3]);
//! assert_eq!(nizkabel::mark(&board, &[0, 7, 2, 0, 3]), 0);
//! ```

pub mod owned;

/// Words of a plan that are room enough for every board: 96 carriers with 2 + 2 × 96 words each.
pub const PLAN_ROOM: usize = 18_624;

/// Words of a list that are room enough for every board: a carrier's number each.
pub const LIST_ROOM: usize = 96;

/// Words of a position sheet that are room enough for every board: one for each zone.
pub const POSITION_ROOM: usize = 96;

/// Bytes of a copy that are room enough for every board: 96 zones of five bytes each after the first six.
pub const COPY_ROOM: usize = 486;

/// In a log, in the place of a word: into home.
pub const HOME: u16 = 65_535;

/// What the key gives: the verdict (0 ordered, 20 some carrier blocked, 1 to 11 turned back), the count of words written to
/// the plan, the count of numbers written to the list, and the search count, which tells how hard the board is to search.
///
/// In each round the carriers out are tried, lowest number first, up to and with the first that can go home, which leaves; in the last round none
/// can, and all are tried. A try counts the words that the carrier reaches from its standing while the others stand still, the standing included,
/// and nothing past a word that leaves at home. The search count is the sum over all tries; with Z zones and C carriers out it is at most
/// Z × C × (C + 1), and on 1 to 11 it is 0.
#[derive(Clone, Copy, Debug, PartialEq, Eq)]
pub struct Key {
    pub verdict: u32,
    pub planned: usize,
    pub listed: usize,
    pub searched: u32,
}

/// What the collapse gives: its number (0, or 1 to 9 or 11), and the count of numbers written to the list.
#[derive(Clone, Copy, Debug, PartialEq, Eq)]
pub struct Collapse {
    pub number: u32,
    pub listed: usize,
}

/// What the replay gives: its number (0 where every move was carried out, 38 where it stopped at one that the rules forbid, 1 to 9, 36 or 37
/// turned back), and the count of moves done.
#[derive(Clone, Copy, Debug, PartialEq, Eq)]
pub struct Replay {
    pub number: u32,
    pub moves: u64,
}

/// What a write gives: its number (0 where the copy is written; turned back by 1 to 9 of the board, by 39, or by 6 or 7 of the copy), and the count
/// of bytes written.
#[derive(Clone, Copy, Debug, PartialEq, Eq)]
pub struct Write {
    pub number: u32,
    pub bytes: usize,
}

// Declared as in include/nizkabel.h.
extern "C" {
    fn nizkabel_key(board: *const u8, board_len: usize, plan: *mut u16, plan_len: usize, list: *mut u16, list_len: usize, out: *mut u32) -> u32;
    fn nizkabel_collapse(board: *const u8, board_len: usize, list: *mut u16, list_len: usize, out: *mut u32) -> u32;
    fn nizkabel_mark(board: *const u8, board_len: usize, sheet: *const u16, sheet_len: usize) -> u32;
    fn nizkabel_replay(board: *const u8, board_len: usize, log: *const u16, log_len: usize, sheet: *mut u32, sheet_len: usize, out: *mut u64) -> u32;
    fn nizkabel_write(board: *const u8, board_len: usize, sheet: *const u32, sheet_len: usize, copy: *mut u8, copy_len: usize, out: *mut u32) -> u32;
}

/// Draws the key. Past what is written, and on 1 to 11, plan and list stay as they were.
pub fn key(board: &[u8], plan: &mut [u16], list: &mut [u16]) -> Key {
    // The library writes it on every number.
    let mut out = [u32::MAX; 3];
    // SAFETY: each pointer comes with the length of the slice that it points to, and out has three elements.
    let verdict = unsafe { nizkabel_key(board.as_ptr(), board.len(), plan.as_mut_ptr(), plan.len(), list.as_mut_ptr(), list.len(), out.as_mut_ptr()) };
    Key { verdict, planned: out[0] as usize, listed: out[1] as usize, searched: out[2] }
}

/// Collapses the board. Past what is written, and on 1 to 11, the list stays as it was.
pub fn collapse(board: &[u8], list: &mut [u16]) -> Collapse {
    let mut out = [u32::MAX; 1];
    // SAFETY: as for key; out has one element.
    let number = unsafe { nizkabel_collapse(board.as_ptr(), board.len(), list.as_mut_ptr(), list.len(), out.as_mut_ptr()) };
    Collapse { number, listed: out[0] as usize }
}

/// Marks a sheet: 0 where it is right, 30 to 35 where it is not, 1 to 9 for a bad board.
pub fn mark(board: &[u8], sheet: &[u16]) -> u32 {
    // SAFETY: as for key; nothing is written.
    unsafe { nizkabel_mark(board.as_ptr(), board.len(), sheet.as_ptr(), sheet.len()) }
}

/// Replays a move log from the board's first position. The log is a pair for each move: the carrier, then the word of the zone that it enters, or
/// [`HOME`]. It stops at the first move that the rules forbid or of a carrier that isn't out. On 0 and 38 the position sheet has a word for each
/// zone, 0 where it is free, otherwise 2 × carrier + heading, after the moves done. Past these words, and on 1 to 9, 36 (fewer words lent than
/// zones) and 37 (an odd log), it stays as it was.
///
/// ```
/// use nizkabel::{Replay, HOME};
///
/// // Board K: 7 heads for point 1, goes back to the home point through zone 1, and home.
/// let board = [0x00, 0x0C, 1, 2, 0, 2, 0, 1, 7, 0, 0, 1, 0, 0];
/// let mut sheet = [0u32; nizkabel::POSITION_ROOM];
/// assert_eq!(nizkabel::replay(&board, &[7, 3], &mut sheet), Replay { number: 0, moves: 1 });
/// assert_eq!(sheet[..2], [0, 2 * 7 + 1]);
/// assert_eq!(nizkabel::replay(&board, &[7, 3, 7, HOME], &mut sheet), Replay { number: 0, moves: 2 });
/// assert_eq!(sheet[..2], [0, 0]);
/// // The gate at the home point takes in every arrival: 7 doesn't go on into word 0.
/// assert_eq!(nizkabel::replay(&board, &[7, 3, 7, 0], &mut sheet), Replay { number: 38, moves: 1 });
/// ```
pub fn replay(board: &[u8], log: &[u16], sheet: &mut [u32]) -> Replay {
    let mut out = [u64::MAX; 1];
    // SAFETY: as for key; out has one element.
    let number = unsafe { nizkabel_replay(board.as_ptr(), board.len(), log.as_ptr(), log.len(), sheet.as_mut_ptr(), sheet.len(), out.as_mut_ptr()) };
    Replay { number, moves: out[0] }
}

/// Writes the fair copy of a board: its track with the position of a sheet such as [`replay`] fills, one word a zone. The copy is in version 1 where
/// every carrier is at most 255, in version 2 else; the board's own position and version don't matter. Past the copy, and on every number but 0, the
/// bytes lent stay as they were. After 1 to 9 of the board, 39 is tried (a sheet of more or fewer words than the board has zones, a word over
/// 131,071, or fewer bytes lent than the copy has), then 6 (the word 1, a free zone with heading 1) and 7 (a carrier in two zones) of the copy.
///
/// ```
/// use nizkabel::Write;
///
/// // Board K once 7 has gone into zone 1.
/// let board = [0x00, 0x0C, 1, 2, 0, 2, 0, 1, 7, 0, 0, 1, 0, 0];
/// let mut copy = [0u8; nizkabel::COPY_ROOM];
/// assert_eq!(nizkabel::write(&board, &[0, 2 * 7 + 1], &mut copy), Write { number: 0, bytes: 14 });
/// assert_eq!(copy[..14], [0x00, 0x0C, 1, 2, 0, 2, 0, 1, 0, 0, 0, 1, 7, 1]);
/// // A carrier over 255 has room in version 2 alone.
/// assert_eq!(nizkabel::write(&board, &[2 * 263, 0], &mut copy), Write { number: 0, bytes: 16 });
/// assert_eq!(copy[..16], [0x00, 0x0E, 2, 2, 0, 2, 0, 1, 1, 7, 0, 0, 1, 0, 0, 0]);
/// // 7 in two zones.
/// assert_eq!(nizkabel::write(&board, &[14, 15], &mut copy), Write { number: 7, bytes: 0 });
/// ```
pub fn write(board: &[u8], sheet: &[u32], copy: &mut [u8]) -> Write {
    let mut out = [u32::MAX; 1];
    // SAFETY: as for key; out has one element.
    let number = unsafe { nizkabel_write(board.as_ptr(), board.len(), sheet.as_ptr(), sheet.len(), copy.as_mut_ptr(), copy.len(), out.as_mut_ptr()) };
    Write { number, bytes: out[0] as usize }
}
