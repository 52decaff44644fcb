//! Position sheets for a board: carriers set down at random on its track, and spoilt ones.

use crate::boards::{headed, renumbered, Numbers};
use crate::random::Random;
use second::Board;

/// Carriers with numbers of this kind in some of the zones, or in all.
fn placed_with(random: &mut Random, board: &Board, numbers: Numbers) -> Vec<u32> {
    let sparse = 1 + random.below(4);
    let mut placed = board.clone();
    for zone in &mut placed.zones {
        (zone.carrier, zone.heading) = (random.once_in(sparse) as u32, 0);
    }
    let placed = headed(random, placed);
    renumbered(random, placed, numbers).sheet()
}

/// Carriers with numbers up to 255, but for one: 255, the last that has room in version 1, 256, the first that hasn't, or 65,535, the last of all.
fn placed_to_an_edge(random: &mut Random, board: &Board) -> Vec<u32> {
    let edge = [255, 256, 65_535][random.below(3)];
    let mut sheet = placed_with(random, board, Numbers::Narrow);
    sheet.iter_mut().filter(|word| **word / 2 == edge).for_each(|word| *word = 0);
    let at = random.below(sheet.len());
    sheet[at] = 2 * edge + random.below(2) as u32;
    sheet
}

/// Carriers with numbers of any kind, each in one zone.
pub fn placed(random: &mut Random, board: &Board) -> Vec<u32> {
    match random.below(4) {
        0 => placed_with(random, board, Numbers::Narrow),
        1 => placed_with(random, board, Numbers::Wide),
        2 => placed_with(random, board, Numbers::Alike),
        _ => placed_to_an_edge(random, board),
    }
}

/// A sheet with a fault or two: a free zone with heading 1, a carrier in two zones, a word that is too high, words too few or too many.
pub fn spoilt(random: &mut Random, sheet: &[u32]) -> Vec<u32> {
    let mut words = sheet.to_vec();
    for _ in 0..1 + random.below(2) {
        if words.is_empty() {
            break;
        }
        let at = random.below(words.len());
        match random.below(6) {
            0 => words[at] = 1,
            1 => {
                let held: Vec<u32> = words.iter().copied().filter(|&word| word > 1).collect();
                let word = held.get(random.below(held.len().max(1))).copied().unwrap_or(2 * 7);
                let other = (at + random.below(words.len())) % words.len();
                words[at] = word;
                words[other] = word ^ random.below(2) as u32;
            }
            2 => words[at] = [131_072, words[at].wrapping_add(131_072), 1 << 31 | random.next() as u32, u32::MAX][random.below(4)],
            3 => drop(words.remove(at)),
            4 => words.push([0, random.below(1_024) as u32][random.below(2)]),
            // Down to none, or so many more that the low byte of the count stays.
            _ if random.once_in(2) => words.truncate(at),
            _ => words.resize(words.len() + 256, 0),
        }
    }
    words
}
