//! Fair copies of boards. What turns a sheet back is told from its words and the room, before there is a copy; the copy is the board as it was read
//! with other carriers in its zones, put into bytes as every board here is.

use crate::board::read;
use std::collections::HashSet;

/// What a write gives: its number, and the bytes that it writes from the start of what is lent.
#[derive(Clone, Debug, PartialEq, Eq)]
pub struct Write {
    pub number: u32,
    pub copy: Vec<u8>,
}

/// The number that turns back a sheet for so many zones with so many bytes lent, if one does.
fn turned_back(zones: usize, sheet: &[u32], copy_room: usize) -> Option<u32> {
    let size = match sheet.iter().max().unwrap_or(&0) {
        // Carrier 255 with heading 1, the last that has room in version 1.
        0..=511 => 4,
        512..=131_071 => 5,
        _ => return Some(39),
    };
    if sheet.len() != zones || copy_room < 6 + size * zones {
        return Some(39);
    }
    if sheet.contains(&1) {
        return Some(6);
    }
    let mut seen = HashSet::new();
    sheet.iter().any(|&word| word != 0 && !seen.insert(word / 2)).then_some(7)
}

/// The copy of a board in bytes with the position of this sheet, with so many bytes lent for it.
pub fn write(bytes: &[u8], sheet: &[u32], copy_room: usize) -> Write {
    let refused = |number| Write { number, copy: Vec::new() };
    let board = match read(bytes) {
        Err(number) => return refused(number),
        Ok(board) => board,
    };
    match turned_back(board.zones.len(), sheet, copy_room) {
        Some(number) => refused(number),
        None => Write { number: 0, copy: board.holding(sheet).bytes() },
    }
}
