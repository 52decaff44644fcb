//! How many copies of a comparison are written or turned back in each way, so that a run in which some mistake of a writer hardly shows is no success.

use crate::copies::Wanted;
use crate::faults::{bytes_for, faults, number_for, version_for, Fault, FAULTS};
use crate::versions::Kinds;
use second::{Board, Write};
use std::collections::{BTreeMap, HashSet};

use Fault::*;

/// How many bytes are lent for a copy.
#[derive(Clone, Copy, Debug, PartialEq, Eq, PartialOrd, Ord)]
enum Room {
    Nothing,
    /// As many as version 1 has, where version 2 is needed.
    ForVersion1,
    OneTooFew,
    OtherTooFew,
    Exact,
    More,
}

use Room::*;

impl Room {
    fn new(zones: usize, sheet: &[u32], room: usize) -> Room {
        let needed = bytes_for(zones, sheet);
        match room {
            0 => Nothing,
            _ if room > needed => More,
            _ if room == needed => Exact,
            _ if room == needed - 1 => OneTooFew,
            _ if room == 6 + 4 * zones => ForVersion1,
            _ => OtherTooFew,
        }
    }
}

/// The last carrier that has room in version 1, the first that hasn't, and the last of all.
const EDGES: [u32; 3] = [255, 256, 65_535];

/// How often something was counted.
fn times<K: Ord>(counts: &BTreeMap<K, usize>, key: K) -> usize {
    counts.get(&key).copied().unwrap_or(0)
}

fn repeats(numbers: &[u32]) -> bool {
    numbers.iter().collect::<HashSet<_>>().len() < numbers.len()
}

/// The copies written in one version: of boards in version 1 and in version 2; of the board's own position, byte for byte; of boards with turning
/// loops; with a carrier of heading 1; of 96 zones; of 64 points; with L over 255.
#[derive(Debug, Default)]
struct Written {
    boards: [usize; 2],
    own: usize,
    loops: usize,
    heading_1: usize,
    most_zones: usize,
    most_points: usize,
    long: usize,
}

impl Written {
    fn add(&mut self, bytes: &[u8], board: &Board, sheet: &[u32], copy: &[u8]) {
        self.boards[usize::from(bytes[2]) - 1] += 1;
        self.own += (sheet == board.sheet() && copy == bytes) as usize;
        self.loops += board.zones.iter().any(|zone| zone.is_loop()) as usize;
        self.heading_1 += sheet.iter().any(|word| word % 2 == 1) as usize;
        self.most_zones += (board.zones.len() == 96) as usize;
        self.most_points += (board.points == 64) as usize;
        self.long += (copy.len() > 257) as usize;
    }

    fn fair(&self) -> bool {
        let [one, two] = self.boards;
        [one, two, self.own, self.loops, self.heading_1].iter().all(|&n| 1_000 <= n)
            && [self.most_zones, self.most_points, self.long].iter().all(|&n| 30 <= n)
    }
}

/// The sheets for refused boards by the number, and by the faults that they have too. Those for accepted ones by their faults; of these with one fault
/// alone those of no word, with 131,072 and nothing higher, with a carrier twice in one heading, in both, and over 255; and those with no fault but in
/// the bytes lent by the copy's version and these bytes. Of the written the boards by kind; the copies by version; the boards' own positions in version
/// 2 that came out in version 1; those with carriers of one low byte; and those with a carrier at an edge and none higher.
#[derive(Debug, Default)]
pub struct CopyTally {
    refused: BTreeMap<u32, usize>,
    refused_with: BTreeMap<Fault, usize>,
    faults: BTreeMap<Vec<Fault>, usize>,
    no_word: usize,
    at_limit: usize,
    twice_alike: usize,
    twice_turned: usize,
    twice_wide: usize,
    rooms: BTreeMap<(usize, Room), usize>,
    kinds: Kinds,
    written: [Written; 2],
    own_narrowed: usize,
    alike: usize,
    highest: BTreeMap<u32, usize>,
}

impl CopyTally {
    /// One write more, with the board where it is accepted. Gives whether its number is that of the first fault.
    pub fn add(&mut self, bytes: &[u8], board: Option<&Board>, wanted: &Wanted, write: &Write) -> bool {
        let (sheet, room) = (&wanted.sheet[..], wanted.room);
        let Some(board) = board else {
            let zones = bytes.get(5).map_or(0, |&zones| zones.into());
            faults(zones, sheet, room).into_iter().for_each(|fault| *self.refused_with.entry(fault).or_default() += 1);
            *self.refused.entry(write.number).or_default() += 1;
            return true;
        };
        let zones = board.zones.len();
        let faults = faults(zones, sheet, room);
        match faults[..] {
            [] | [TooFewBytes] => *self.rooms.entry((version_for(sheet), Room::new(zones, sheet, room))).or_default() += 1,
            [TooFewWords] => self.no_word += sheet.is_empty() as usize,
            [TooHigh] => self.at_limit += (sheet.iter().max() == Some(&131_072)) as usize,
            [Twice] => self.add_twice(sheet),
            _ => {}
        }
        if write.number == 0 {
            self.add_written(bytes, board, sheet, &write.copy);
        }
        let expected = number_for(&faults);
        *self.faults.entry(faults).or_default() += 1;
        write.number == expected
    }

    /// One sheet more that has no fault but a carrier in two zones.
    fn add_twice(&mut self, sheet: &[u32]) {
        let held: Vec<u32> = sheet.iter().copied().filter(|&word| word != 0).collect();
        let wide: Vec<u32> = held.iter().map(|word| word / 2).filter(|&carrier| carrier > 255).collect();
        let turned = held.iter().any(|word| held.contains(&(word ^ 1)));
        self.twice_alike += !turned as usize;
        self.twice_turned += (turned && !repeats(&held)) as usize;
        self.twice_wide += repeats(&wide) as usize;
    }

    /// One copy more that was written.
    fn add_written(&mut self, bytes: &[u8], board: &Board, sheet: &[u32], copy: &[u8]) {
        let version = version_for(sheet);
        self.kinds.add(board, bytes);
        self.written[version - 1].add(bytes, board, sheet, copy);
        self.own_narrowed += (sheet == board.sheet() && version < bytes[2].into()) as usize;
        let lows: Vec<u32> = sheet.iter().map(|word| word / 2).filter(|&carrier| carrier != 0).map(|carrier| carrier % 256).collect();
        self.alike += repeats(&lows) as usize;
        let highest = sheet.iter().max().map_or(0, |word| word / 2);
        if EDGES.contains(&highest) {
            *self.highest.entry(highest).or_default() += 1;
        }
    }

    pub fn writes(&self) -> usize {
        self.refused.values().chain(self.faults.values()).sum()
    }

    pub fn copies(&self) -> usize {
        times(&self.faults, vec![])
    }

    /// Whether there are enough of each kind.
    pub fn fair(&self) -> bool {
        let mut pairs = FAULTS.iter().enumerate().flat_map(|(at, &fault)| FAULTS[at + 1..].iter().map(move |&later| [fault, later]));
        let rooms = [(1, Nothing), (1, OneTooFew), (1, Exact), (1, More), (2, Nothing), (2, ForVersion1), (2, OneTooFew), (2, Exact), (2, More)];
        let turned_back = [self.no_word, self.at_limit, self.twice_alike, self.twice_turned, self.twice_wide];
        let highest = EDGES.map(|carrier| times(&self.highest, carrier));
        let kinds = [&turned_back[..], &highest, &self.kinds.counts(), &[self.own_narrowed, self.alike]].concat();
        FAULTS.iter().all(|&fault| 5_000 <= times(&self.faults, vec![fault]) && 1_000 <= times(&self.refused_with, fault))
            && pairs.all(|pair| pair == [TooFewWords, TooManyWords] || 1_000 <= times(&self.faults, pair.to_vec()))
            && rooms.into_iter().all(|room| 3_000 <= times(&self.rooms, room))
            && (1..=9).all(|number| 100 <= times(&self.refused, number))
            && kinds.iter().all(|&n| 1_000 <= n)
            && self.written.iter().all(Written::fair)
    }
}
