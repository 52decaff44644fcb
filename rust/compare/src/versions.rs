//! Boards in versions 1 and 2: what the library says of one board in both, and how many boards of a comparison are of each kind, so that a run
//! without them is no success.

use crate::copies::Wanted;
use crate::replays::Lent;
use crate::{whole, LIST_CANARY, PLAN_CANARY};
use second::Board;
use std::collections::{BTreeMap, HashSet};

/// All that the library says of a board: its key and its collapse, with plan and lists whole, the marks of some sheets, the replays of some logs, with
/// their position sheets whole, and the copies by some position sheets, whole.
#[derive(Debug, PartialEq)]
pub struct Answers {
    key: nizkabel::Key,
    plan: Vec<u16>,
    list: Vec<u16>,
    collapse: nizkabel::Collapse,
    left: Vec<u16>,
    marks: Vec<u32>,
    replays: Vec<(nizkabel::Replay, Vec<u32>)>,
    copies: Vec<(nizkabel::Write, Vec<u8>)>,
}

pub fn answers(bytes: &[u8], plan_room: usize, list_room: usize, sheets: &[Vec<u16>], logs: &[Lent], positions: &[Wanted]) -> Answers {
    let [mut plan, mut list, mut left] = [(plan_room, PLAN_CANARY), (list_room, LIST_CANARY), (list_room, LIST_CANARY)].map(|(room, canary)| whole([], room, canary));
    let key = nizkabel::key(bytes, &mut plan[..plan_room], &mut list[..list_room]);
    let collapse = nizkabel::collapse(bytes, &mut left[..list_room]);
    let marks = sheets.iter().map(|sheet| nizkabel::mark(bytes, sheet)).collect();
    let replays = logs.iter().map(|lent| lent.by_library(bytes)).collect();
    let copies = positions.iter().map(|wanted| wanted.by_library(bytes)).collect();
    Answers { key, plan, list, collapse, left, marks, replays, copies }
}

/// How many boards are written in version 1, in version 2 with numbers up to 255, and with some over 255.
#[derive(Debug, Default)]
pub struct Kinds {
    one: usize,
    two: usize,
    wide: usize,
}

impl Kinds {
    pub fn add(&mut self, board: &Board, bytes: &[u8]) {
        let wide = board.carriers().iter().any(|&c| c > 255);
        *(match (bytes[2], wide) {
            (1, _) => &mut self.one,
            (_, false) => &mut self.two,
            (_, true) => &mut self.wide,
        }) += 1;
    }

    pub fn counts(&self) -> [usize; 3] {
        [self.one, self.two, self.wide]
    }
}

/// The random boards as they are written, by kind; those with numbers that differ in the high byte alone, and those with numbers over 255 and
/// carriers that are blocked. Then the boards that were asked about in both versions, random ones and small ones. Then the refused ones: by a
/// version that is neither; by version and number; by version those whose L fits the other one; those with a number over 255 in two zones; those
/// with L over 255.
#[derive(Debug, Default)]
pub struct VersionTally {
    kinds: Kinds,
    alike: usize,
    blocked: usize,
    pub in_both: usize,
    pub small_in_both: usize,
    neither: usize,
    refused: BTreeMap<(u8, u32), usize>,
    other_length: [usize; 2],
    twice: usize,
    long: usize,
}

impl VersionTally {
    /// One board more, as it is written, with the carriers blocked on it.
    pub fn add(&mut self, board: &Board, bytes: &[u8], blocked: &[u32]) {
        self.kinds.add(board, bytes);
        let out = board.carriers();
        let wide = out.iter().any(|&c| c > 255);
        self.alike += (out.iter().map(|c| c % 256).collect::<HashSet<_>>().len() < out.len()) as usize;
        self.blocked += (wide && !blocked.is_empty()) as usize;
    }

    /// One refused board more.
    pub fn add_refused(&mut self, bytes: &[u8], number: u32) {
        self.neither += (number == 3) as usize;
        if number <= 3 {
            return;
        }
        self.long += (bytes[0] != 0) as usize;
        let version = bytes[2];
        *self.refused.entry((version, number)).or_default() += 1;
        let other_size = if version == 1 { 5 } else { 4 };
        let fits_other = bytes.len() == 6 + other_size * usize::from(bytes[5]);
        self.other_length[usize::from(version - 1)] += (number == 5 && fits_other) as usize;
        if number == 7 && version == 2 {
            let mut seen = HashSet::new();
            self.twice += bytes[6..].chunks(5).any(|zone| zone[2] != 0 && !seen.insert(&zone[2..4])) as usize;
        }
    }

    /// Whether each kind of accepted board is a tenth of them or more, a third of them and all small ones were asked about in both versions, and
    /// enough were refused in each way.
    pub fn fair(&self) -> bool {
        let kinds = self.kinds.counts();
        let boards: usize = kinds.iter().sum();
        let refused = |version, number| self.refused.get(&(version, number)).copied().unwrap_or(0);
        let each_row = |version| (4..=9).all(|number| 50 <= refused(version, number));
        let [one, two] = self.other_length;
        kinds.iter().chain([&self.alike, &self.blocked]).all(|&n| boards <= 10 * n)
            && boards <= 3 * self.in_both
            && 50_000 <= self.small_in_both
            && (each_row(1) && each_row(2))
            && [self.neither, one, two, self.twice, self.long].iter().all(|&n| 50 <= n)
    }
}
