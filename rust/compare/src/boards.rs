//! Random boards: accepted ones of every density, with carriers' numbers of every kind, and damaged ones; every small board; one that is
//! long to search, one with long routes; and chains.

use crate::random::Random;
use second::{Board, Zone};
use std::collections::HashSet;

/// How often a zone that isn't needed to join the points is a turning loop.
#[derive(Clone, Copy)]
pub enum Loops {
    None,
    OnceIn(usize),
}

impl Loops {
    fn next(self, random: &mut Random) -> bool {
        match self {
            Loops::None => false,
            Loops::OnceIn(n) => random.once_in(n),
        }
    }
}

/// An accepted board with so many points and about so many zones; each zone is held once in `sparse` times (1: every zone).
pub fn accepted(random: &mut Random, points: usize, zones: usize, sparse: usize, loops: Loops) -> Board {
    let home = random.below(points);
    let mut ends: Vec<(usize, usize)> = Vec::new();
    // A random tree, so that all hangs together, then zones for points that have but one, then more at random, parallel ones among them.
    // A point of the tree has one zone at least, and a turning loop is always enough.
    for p in 1..points {
        ends.push((p, random.below(p)));
    }
    for p in (0..points).filter(|&p| p != home) {
        let has_two = ends.iter().filter(|&&(a, b)| a == p || b == p).count() > 1;
        if !has_two {
            let other = if loops.next(random) { p } else { (p + 1 + random.below(points - 1)) % points };
            ends.push((p, other));
        }
    }
    while ends.len() < zones {
        if loops.next(random) {
            let p = if random.once_in(3) { home } else { random.below(points) };
            ends.push((p, p));
            continue;
        }
        let a = random.below(points);
        let near = if random.once_in(3) { ends[random.below(ends.len())] } else { (a, (a + 1 + random.below(points - 1)) % points) };
        ends.push(near);
    }
    shuffle(random, &mut ends);
    let mut numbers: Vec<u32> = (1..=255).collect();
    shuffle(random, &mut numbers);
    let zones = ends
        .into_iter()
        .enumerate()
        .map(|(z, (a, b))| {
            let (a, b) = if random.once_in(2) { (a, b) } else { (b, a) };
            let held = sparse == 1 || random.once_in(sparse);
            Zone { a, b, carrier: if held { numbers[z] } else { 0 }, heading: if held { random.below(2) as u32 } else { 0 } }
        })
        .collect();
    Board { points, home, zones }
}

/// A long held exit whose carriers have the highest numbers, the nearest home the highest of all, and a free loop with a low-numbered
/// carrier beside each of its zones: every round tries them all in vain.
pub fn worst() -> Board {
    let (exit, around) = (24, 36);
    let mut zones = Vec::new();
    for i in 0..exit {
        zones.push(Zone { a: i, b: i + 1, carrier: (200 - i) as u32, heading: 1 });
    }
    for i in 0..around {
        let (a, b) = (exit + i, if i + 1 == around { exit } else { exit + i + 1 });
        zones.push(Zone { a, b, carrier: 0, heading: 0 });
        zones.push(Zone { a, b, carrier: 1 + i as u32, heading: (i % 2) as u32 });
    }
    Board { points: exit + around, home: 0, zones }
}

/// A long free line to home, and at its far end a held zone for each carrier, so that all of them have long routes.
pub fn fan() -> Board {
    let (line, held) = (32, 64);
    let mut zones: Vec<Zone> = (0..line).map(|z| Zone { a: z, b: z + 1, carrier: 0, heading: 0 }).collect();
    zones.extend((1..=held).map(|carrier| Zone { a: line, b: line + 1, carrier, heading: 1 }));
    Board { points: line + 2, home: 0, zones }
}

/// A chain of points from home on with a turning loop at its far end, in which these zones are held, by carriers with heading 1, on the chain toward home.
pub fn chain(points: usize, held: impl Fn(usize) -> bool) -> Board {
    let zone = |z| {
        let held = held(z) as u32;
        Zone { a: z, b: (z + 1).min(points - 1), carrier: held * (1 + z as u32), heading: held }
    };
    Board { points, home: 0, zones: (0..points).map(zone).collect() }
}

/// Boards with the most zones between the same points, near or far, turning loops at one point, and points; all zones held, by carriers of five digits.
pub fn hard_to_draw() -> Vec<Board> {
    let full = |points: usize, ends: Vec<(usize, usize)>| {
        let zones = ends.into_iter().enumerate().map(|(z, (a, b))| Zone { a, b, carrier: 65_535 - z as u32, heading: (z % 2) as u32 }).collect();
        Board { points, home: 0, zones }
    };
    let with_loops = |points: usize, at: fn(usize) -> usize| {
        let chain = (1..points).map(|p| (p - 1, p));
        full(points, chain.chain((points..=96).map(|z| (at(z) % points, at(z) % points))).collect())
    };
    vec![
        full(2, vec![(0, 1); 96]),
        full(3, (0..96).map(|z| (z % 3, (z + 1) % 3)).collect()),
        full(5, (0..96).map(|z| (z % 5, (z + 1 + z / 5 % 2) % 5)).collect()),
        full(64, (0..96).map(|z| (z % 64, (z + 1 + z / 64 * 31) % 64)).collect()),
        full(64, (0..64).map(|p| (p, (p + 1) % 64)).chain([(21, 22); 32]).collect()),
        full(12, (0..12).map(|p| (p, (p + 1) % 12)).chain([(4, 5); 84]).collect()),
        full(64, (0..64).map(|p| (p, (p + 1) % 64)).chain([(21, 24); 32]).collect()),
        with_loops(2, |_| 1),
        with_loops(3, |_| 2),
        with_loops(10, |_| 9),
        with_loops(6, |z| 5 - z % 5),
        with_loops(64, |z| 63 - (z - 64)),
        with_loops(64, |_| 63),
    ]
}

/// The board with each carrier's heading drawn anew.
pub fn headed(random: &mut Random, mut board: Board) -> Board {
    for zone in board.zones.iter_mut().filter(|z| z.carrier != 0) {
        zone.heading = random.below(2) as u32;
    }
    board
}

/// How the carriers are numbered.
#[derive(Clone, Copy)]
pub enum Numbers {
    /// Up to 255, so that either version has room for them.
    Narrow,
    /// Up to 65535.
    Wide,
    /// Up to 65535 with two low bytes only: many differ in the high byte alone.
    Alike,
}

impl Numbers {
    /// A number of this kind, or 0.
    fn next(self, random: &mut Random, lows: [usize; 2]) -> usize {
        match self {
            Numbers::Narrow => random.below(256),
            Numbers::Wide if random.once_in(4) => [255, 256, 65_535][random.below(3)],
            Numbers::Wide => random.below(65_536),
            Numbers::Alike => {
                let highs = [2, 256][random.below(2)];
                256 * random.below(highs) + lows[random.below(2)]
            }
        }
    }
}

/// The board with its carriers numbered anew.
pub fn renumbered(random: &mut Random, mut board: Board, numbers: Numbers) -> Board {
    let lows = [random.below(256), random.below(256)];
    let mut taken = HashSet::from([0]);
    for zone in board.zones.iter_mut().filter(|z| z.carrier != 0) {
        let mut number = 0;
        while !taken.insert(number) {
            number = numbers.next(random, lows) as u32;
        }
        zone.carrier = number;
    }
    board
}

/// The bytes of a board in a version that has room for its numbers.
pub fn written(random: &mut Random, board: &Board) -> Vec<u8> {
    let mut versions = board.in_each_version();
    versions.swap_remove(random.below(versions.len()))
}

/// Every board of so many points and up to three zones, with every home, pair of ends, heading and choice of held zones, accepted or not.
/// The carriers' order isn't that of their zones.
pub fn every(points: usize, zones: usize) -> impl Iterator<Item = Board> {
    let numbers = [9, 5, 7];
    let kinds = 3 * points * points;
    (0..points * kinds.pow(zones as u32)).map(move |n| {
        let mut rest = n / points;
        let zones = (0..zones)
            .map(|z| {
                let kind = rest % kinds;
                rest /= kinds;
                let (carrier, heading) = [(0, 0), (numbers[z], 0), (numbers[z], 1)][kind % 3];
                Zone { a: kind / 3 / points, b: kind / 3 % points, carrier, heading }
            })
            .collect();
        Board { points, home: n % points, zones }
    })
}

pub fn shuffle<T>(random: &mut Random, items: &mut [T]) {
    for i in (1..items.len()).rev() {
        items.swap(i, random.below(i + 1));
    }
}

/// The bytes of a board, in either version, with a few of them changed, cut off or added.
pub fn damaged(random: &mut Random, mut bytes: Vec<u8>) -> Vec<u8> {
    for _ in 0..1 + random.below(3) {
        let size = if bytes.get(2) == Some(&2) { 5 } else { 4 };
        let zones = bytes.len().saturating_sub(6) / size;
        match random.below(9) {
            0 => {
                bytes.truncate(random.below(bytes.len() + 1));
            }
            1 => {
                let more = random.below(9);
                bytes.extend((0..more).map(|_| random.next() as u8));
            }
            2 if zones >= 2 => {
                // A zone more or fewer, with the lengths put right: later rows are met.
                let kept = zones - random.below(2);
                bytes.truncate(6 + size * kept);
                bytes[5] = kept as u8;
                set_length(&mut bytes);
            }
            3 if zones >= 2 => {
                // A zone's ends made equal: a point may lose its second zone, or hang together with the others no more.
                let end = 6 + size * random.below(zones);
                bytes[end + 1] = bytes[end];
            }
            4 if zones >= 2 => {
                // A carrier in two zones, or its low byte alone.
                let from = 6 + size * random.below(zones);
                let to = 6 + size * random.below(zones);
                let first = if random.once_in(2) { 2 } else { size - 2 };
                bytes.copy_within(from + first..from + size - 1, to + first);
            }
            5 if zones >= 2 => {
                // The other version is said: L fits the one that was.
                bytes[2] = if size == 4 { 2 } else { 1 };
            }
            6 if zones >= 2 => {
                // A byte more or fewer in each zone: L fits the other version.
                let high: &[u8] = if size == 4 { &[0] } else { &[] };
                for zone in bytes.split_off(6).chunks_exact(size) {
                    bytes.extend([&zone[..2], high, &zone[size - 2..]].concat());
                }
                set_length(&mut bytes);
            }
            _ if !bytes.is_empty() => {
                let end = if random.once_in(2) { bytes.len().min(6) } else { bytes.len() };
                let at = random.below(end);
                bytes[at] = if random.once_in(2) { random.below(4) as u8 } else { random.next() as u8 };
            }
            _ => {}
        }
    }
    bytes
}

fn set_length(bytes: &mut [u8]) {
    let said = bytes.len() as u16 - 2;
    bytes[..2].copy_from_slice(&said.to_be_bytes());
}
