//! Compares copies, whole: number, count of bytes, every byte, and canaries past what may be written; and what the library says of them.

use crate::copy_tally::CopyTally;
use crate::faults::{bytes_for, faults, number_for};
use crate::{differ, whole};
use compare::positions::{placed, spoilt};
use compare::random::Random;
use second::{Board, Rule, Write};

/// A position sheet to be written, with so many bytes lent for the copy, which hold canaries.
#[derive(Debug)]
pub struct Wanted {
    pub sheet: Vec<u32>,
    pub room: usize,
    pub canary: u8,
}

impl Wanted {
    pub fn new(random: &mut Random, sheet: Vec<u32>, room: usize) -> Wanted {
        Wanted { sheet, room, canary: random.next() as u8 }
    }

    /// With as many bytes as the copy has, or more.
    fn with_enough(random: &mut Random, zones: usize, sheet: Vec<u32>) -> Wanted {
        let more = [0, 1 + random.below(8), random.below(600)][random.below(3)];
        let room = bytes_for(zones, &sheet) + more;
        Wanted::new(random, sheet, room)
    }

    /// With fewer, in version 2 often enough for version 1.
    fn with_too_few(random: &mut Random, zones: usize, sheet: Vec<u32>) -> Wanted {
        let needed = bytes_for(zones, &sheet);
        let room = [0, needed - 1, (needed - 1).min(6 + 4 * zones), random.below(needed)][random.below(4)];
        Wanted::new(random, sheet, room)
    }

    /// A sheet of any kind for a board, right or spoilt, with enough bytes or too few.
    pub fn any(random: &mut Random, board: &Board) -> Wanted {
        let right = if random.once_in(2) { board.sheet() } else { placed(random, board) };
        let sheet = if random.once_in(2) { spoilt(random, &right) } else { right };
        let with = if random.once_in(3) { Wanted::with_too_few } else { Wanted::with_enough };
        with(random, board.zones.len(), sheet)
    }

    /// The bytes lent with these written to their start.
    fn whole(&self, bytes: &[u8]) -> Vec<u8> {
        whole(bytes.iter().copied(), self.room, self.canary)
    }

    /// The write by the library, with the bytes lent whole.
    pub fn by_library(&self, bytes: &[u8]) -> (nizkabel::Write, Vec<u8>) {
        let mut copy = self.whole(&[]);
        (nizkabel::write(bytes, &self.sheet, &mut copy[..self.room]), copy)
    }

    /// The write by both implementations.
    pub fn by_both(&self, bytes: &[u8]) -> Write {
        let expected = second::write(bytes, &self.sheet, self.room);
        let (got, copy) = self.by_library(bytes);
        let same = got == nizkabel::Write { number: expected.number, bytes: expected.copy.len() };
        if !same || copy != self.whole(&expected.copy) {
            differ("copy", bytes, format!("{self:?}\nexpected {expected:?}\ngot {got:?}\ncopy {copy:?}"));
        }
        expected
    }
}

/// The write of a sheet for a board in bytes, with the board where it is accepted, and what is written.
pub fn compare_copy(tally: &mut CopyTally, bytes: &[u8], board: Option<&Board>, wanted: &Wanted) -> Write {
    let write = wanted.by_both(bytes);
    if !tally.add(bytes, board, wanted, &write) {
        differ("the number of the first fault", bytes, format!("{wanted:?}\n{write:?}"));
    }
    if let (Some(board), 0) = (board, write.number) {
        compare_written(board, &wanted.sheet, &write.copy);
    }
    write
}

/// A sheet with as many bytes lent as the copy has, and with one fewer, gets the number of its first fault. Gives how many writes these are.
fn compare_first_fault(bytes: &[u8], zones: usize, sheet: &[u32]) -> usize {
    let needed = bytes_for(zones, sheet);
    let rooms = [needed, needed - 1];
    for room in rooms {
        let wanted = Wanted { sheet: sheet.to_vec(), room, canary: 0xA5 };
        let write = wanted.by_both(bytes);
        if write.number != number_for(&faults(zones, sheet, room)) {
            differ("the number of the first fault", bytes, format!("{wanted:?}\n{write:?}"));
        }
    }
    rooms.len()
}

/// Free, a free zone with heading 1, a carrier with either heading, the edges of the two versions, and a word that is too high.
const WORDS: [u32; 8] = [0, 1, 14, 15, 511, 512, 131_071, 131_072];

/// Every sheet of these words for an accepted board of few zones. Gives how many writes there are.
pub fn compare_every_sheet(board: &Board) -> usize {
    let (bytes, zones) = (board.bytes(), board.zones.len());
    let word = |n: usize, zone: usize| WORDS[n / WORDS.len().pow(zone as u32) % WORDS.len()];
    let sheets = (0..WORDS.len().pow(zones as u32)).map(|n| (0..zones).map(|zone| word(n, zone)).collect::<Vec<_>>());
    sheets.map(|sheet| compare_first_fault(&bytes, zones, &sheet)).sum()
}

/// On an accepted board of many zones, all held, each of these words in each zone, and each carrier in each zone after its own too, for carriers up to
/// 255 and over. Gives how many writes there are.
pub fn compare_each_zone(board: &Board) -> usize {
    let (bytes, zones) = (board.bytes(), board.zones.len());
    let mut writes = 0;
    for higher in [0, 2 * 256] {
        let held: Vec<u32> = board.sheet().iter().map(|word| word + higher).collect();
        for zone in 0..zones {
            let earlier = held[..zone].iter().enumerate().map(|(other, word)| word ^ ((zone + other) % 2) as u32);
            for word in WORDS.into_iter().chain(earlier) {
                let mut sheet = held.clone();
                sheet[zone] = word;
                writes += compare_first_fault(&bytes, zones, &sheet);
            }
        }
    }
    writes
}

/// What is written is read as the board's track with the sheet's position, by both implementations, gets the key of these, and written with its own
/// position comes out byte for byte.
fn compare_written(board: &Board, sheet: &[u32], copy: &[u8]) {
    let said = board.holding(sheet);
    let out = said.carriers().len();
    let (mut plan, mut list) = (vec![0; out * (2 + said.words())], vec![0; out]);
    let key = nizkabel::key(copy, &mut plan, &mut list);
    let expected = second::key_of(Rule::HomeGate, &said);
    let listed: Vec<u32> = list[..key.listed].iter().map(|&carrier| carrier.into()).collect();
    let keyed = (key.verdict, &plan[..key.planned], &listed[..]) == expected.answer() && key.searched == expected.searched;
    let mut first = vec![u32::MAX; sheet.len()];
    let replay = nizkabel::replay(copy, &[], &mut first);
    let mut again = vec![0; copy.len()];
    let write = nizkabel::write(copy, &first, &mut again);
    let read = second::read(copy);
    if read != Ok(said) || !keyed || replay.number != 0 || first != sheet || write.bytes != copy.len() || again != copy {
        let shown = format!("copy {copy:?}\nread {read:?}\nexpected {expected:?}\nkey {key:?}\nfirst {first:?}\n{write:?} {again:?}");
        differ("what is written", &board.bytes(), format!("sheet {sheet:?}\n{shown}"));
    }
}

/// A board written with its own position comes out byte for byte in version 1 and with a carrier over 255, and else as it is in version 1.
fn compare_own(board: &Board, bytes: &[u8], copy: &[u8]) {
    let stays = bytes[2] == 1 || board.carriers().iter().any(|&carrier| carrier > 255);
    let expected = if stays { bytes.to_vec() } else { board.bytes_in(1) };
    if copy != expected {
        differ("a board's own position", bytes, format!("expected {expected:?}\ncopy {copy:?}"));
    }
}

/// Sheets of every kind for an accepted board, among them the one that a replay led to. Gives the sheets with the bytes that were lent.
pub fn compare_copies(tally: &mut CopyTally, random: &mut Random, board: &Board, bytes: &[u8], led_to: &[u32]) -> Vec<Wanted> {
    let zones = board.zones.len();
    let right = [board.sheet(), led_to.to_vec(), placed(random, board)];
    let mut copies = Vec::new();
    for sheet in &right {
        let wanted = Wanted::with_enough(random, zones, sheet.clone());
        let write = compare_copy(tally, bytes, Some(board), &wanted);
        if *sheet == right[0] {
            compare_own(board, bytes, &write.copy);
        }
        copies.push(wanted);
    }
    for (spoils, enough) in [(false, false), (true, true), (true, true), (true, false)] {
        let sheet = &right[random.below(right.len())];
        let sheet = if spoils { spoilt(random, sheet) } else { sheet.clone() };
        let with = if enough { Wanted::with_enough } else { Wanted::with_too_few };
        let wanted = with(random, zones, sheet);
        compare_copy(tally, bytes, Some(board), &wanted);
        copies.push(wanted);
    }
    copies
}
