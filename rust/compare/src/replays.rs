//! Compares replays, whole: number, count of moves, every word of the position sheet, and canaries past what may be written.

use crate::places::compare_forbidden;
use crate::replay_tally::{forbidden, ReplayTally};
use crate::{differ, whole};
use compare::logs::{noise, of_plan, shuffled, spoilt, walk};
use compare::random::Random;
use compare::sheets;
use second::{Board, Key, Move, Replay, HOME};

/// A move log, with so many words lent for the position sheet. These hold canaries; or zeros, which past the last zone look like free zones; or what
/// a zone holds in which a carrier of the log stands.
#[derive(Debug)]
pub struct Lent {
    pub log: Vec<u16>,
    pub room: usize,
    pub canary: u32,
}

impl Lent {
    pub fn new(random: &mut Random, log: Vec<u16>, room: usize) -> Lent {
        let named = log.get(2 * random.below(log.len() / 2 + 1)).map_or(7, |&carrier| u32::from(carrier));
        Lent { canary: [0, 0xC9EB_8D71, 2 * named + random.below(2) as u32][random.below(3)], log, room }
    }

    /// The position sheet with these words written to its start.
    fn whole(&self, words: &[u32]) -> Vec<u32> {
        whole(words.iter().copied(), self.room, self.canary)
    }

    /// The replay by the library, with the position sheet whole.
    pub fn by_library(&self, bytes: &[u8]) -> (nizkabel::Replay, Vec<u32>) {
        let mut sheet = self.whole(&[]);
        (nizkabel::replay(bytes, &self.log, &mut sheet[..self.room]), sheet)
    }

    /// The replay by both implementations.
    pub fn by_both(&self, bytes: &[u8]) -> Replay {
        let expected = second::replay(bytes, &self.log, self.room);
        let (got, sheet) = self.by_library(bytes);
        let same = got == nizkabel::Replay { number: expected.number, moves: expected.moves };
        if !same || sheet != self.whole(&expected.sheet) {
            differ("replay", bytes, format!("{self:?}\nexpected {expected:?}\ngot {got:?}\nsheet {sheet:?}"));
        }
        expected
    }
}

/// The replay of a log on a board in bytes, with the board where it is accepted.
pub fn compare_replay(tally: &mut ReplayTally, bytes: &[u8], board: Option<&Board>, lent: &Lent) -> Replay {
    let replay = lent.by_both(bytes);
    if !tally.add(bytes, board, lent, &replay) {
        differ("a replay stopped where nothing forbids it, or went on", bytes, format!("{lent:?}\n{replay:?}"));
    }
    if let (Some(board), 38) = (board, replay.number) {
        let at = 2 * replay.moves as usize;
        let next = [lent.log[at], lent.log[at + 1]];
        compare_forbidden(bytes, &led_to(bytes, &replay.sheet), next, forbidden(board, &replay.sheet, next));
    }
    replay
}

/// An accepted board with the position of a sheet, as the examiner's tool holds it.
fn led_to(bytes: &[u8], sheet: &[u32]) -> examiner::board::Board {
    let mut copy = [0; nizkabel::COPY_ROOM];
    let write = nizkabel::write(bytes, sheet, &mut copy);
    examiner::board::Board::accepted(&copy[..write.bytes]).unwrap_or_else(|refused| differ("a copy is refused", bytes, format!("{sheet:?}\n{refused}")))
}

/// Every single move on an accepted board, of each carrier out, of 0 and of one that isn't out, into each word, past the last and into home. It is
/// carried out exactly where nothing forbids it. Gives how many there are.
pub fn compare_single_moves(board: &Board) -> usize {
    let (bytes, zones) = (board.bytes(), board.zones.len());
    let first = board.sheet();
    let position = led_to(&bytes, &first);
    let carriers: Vec<u16> = board.carriers().iter().map(|&c| c as u16).chain([0, 256 + 9]).collect();
    let words: Vec<u16> = (0..=board.words() as u16).chain([HOME - 1, HOME]).collect();
    for &carrier in &carriers {
        for &word in &words {
            let replay = Lent { log: vec![carrier, word], room: zones + 1, canary: 0 }.by_both(&bytes);
            let why = forbidden(board, &first, [carrier, word]);
            if (replay.number == 0) != why.is_none() {
                differ("a single move", &bytes, format!("{carrier} {word}: {replay:?}"));
            }
            compare_forbidden(&bytes, &position, [carrier, word], why);
        }
    }
    carriers.len() * words.len()
}

/// Logs of every kind on an accepted board, with its key, a sheet that is right as far as it goes, and one that was so by the older rule. Gives
/// the logs with the words that were lent.
pub fn compare_logs(tally: &mut ReplayTally, random: &mut Random, board: &Board, bytes: &[u8], key: &Key, [tried, run_on]: [&[u16]; 2]) -> Vec<Lent> {
    let zones = board.zones.len();
    let first = board.sheet();
    let blocked: Vec<u32> = first.iter().map(|&held| if key.list.contains(&(held / 2)) { held } else { 0 }).collect();
    let full = board.zones.iter().all(|z| z.carrier != 0);
    let mut logs = Vec::new();
    let mut compare = |random: &mut Random, log: &[Move]| {
        // Once in a while more words are lent than a byte can count.
        let room = if random.once_in(64) { 256 + random.below(zones) } else { zones + random.below(3) };
        let lent = Lent::new(random, log.concat(), room);
        let replay = compare_replay(tally, bytes, Some(board), &lent);
        if full && blocked.iter().zip(&replay.sheet).any(|(&stood, &held)| stood != 0 && stood != held) {
            differ("a named carrier moved on a full board", bytes, format!("log {log:?}\n{replay:?}"));
        }
        tally.full += (full && key.verdict == 20 && replay.moves > 0) as usize;
        logs.push(lent);
        replay
    };

    let (most, arrivals) = (10 + random.below(40), [1, 4, 16][random.below(3)]);
    let walked = walk(random, board, most, arrivals);
    let [planned, tried, ran_on] = [&key.plan[..], &tried[1..], &run_on[1..]].map(of_plan);
    for log in [&walked, &tried] {
        if compare(random, log).number != 0 {
            differ("moves that are allowed", bytes, format!("log {log:?}"));
        }
    }
    let replay = compare(random, &planned);
    if replay.number != 0 || replay.sheet != blocked {
        differ("the moves of the key's plan", bytes, format!("log {planned:?}\n{replay:?}"));
    }
    if (compare(random, &ran_on).number == 38) != sheets::runs_on(board, run_on) {
        differ("moves that were allowed by the older rule", bytes, format!("log {ran_on:?}"));
    }
    for log in [spoilt(random, board, &walked), spoilt(random, board, &planned), shuffled(random, &walked), noise(random, board)] {
        compare(random, &log);
    }

    // An odd log, then one of either kind with too few words lent.
    let odd = [walked.as_flattened(), &[random.below(12) as u16]].concat();
    let either = if random.once_in(2) { odd.clone() } else { walked.concat() };
    for (log, room) in [(odd, zones + random.below(2)), (either, random.below(zones))] {
        let lent = Lent::new(random, log, room);
        compare_replay(tally, bytes, Some(board), &lent);
        logs.push(lent);
    }
    logs
}
