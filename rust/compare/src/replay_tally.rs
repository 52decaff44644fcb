//! How many replays of a comparison end in each way, so that a run in which some rule of the moves hardly shows is no success.

use crate::replays::Lent;
use crate::versions::Kinds;
use second::{Board, Move, Replay, HOME};
use std::collections::BTreeMap;

/// What forbids a move. The last five are of a carrier that is out and a word below 2 × Z; four of them say that nothing else forbids it.
#[derive(Clone, Copy, Debug, PartialEq, Eq, PartialOrd, Ord)]
pub enum Forbidden {
    /// Carrier 0, which is never out.
    Zero,
    /// Not out, but one with the same low byte is.
    LowByteOut,
    NotOut,
    /// Into home, and the carrier doesn't head for it.
    HomeFromElsewhere,
    PastTheLastWord,
    /// The carrier heads for home: by the older rule it might go on.
    GateAlone,
    /// Another carrier is in the zone.
    HeldAlone,
    /// The carrier itself is in the zone.
    OwnZoneAlone,
    /// The word doesn't start where the carrier leaves.
    ApartAlone,
    ForSeveralReasons,
}

use Forbidden::*;

const REASONS: [Forbidden; 10] =
    [Zero, LowByteOut, NotOut, HomeFromElsewhere, PastTheLastWord, GateAlone, HeldAlone, OwnZoneAlone, ApartAlone, ForSeveralReasons];

/// What forbids a move in the position of a sheet, if anything does: the rules tested one by one.
pub fn forbidden(board: &Board, sheet: &[u32], [carrier, word]: Move) -> Option<Forbidden> {
    let carriers: Vec<u32> = sheet.iter().map(|held| held / 2).collect();
    if carrier == 0 {
        return Some(Zero);
    }
    let Some(zone) = carriers.iter().position(|&c| c == carrier.into()) else {
        let low_byte_out = carriers.iter().any(|&c| c != 0 && c % 256 == u32::from(carrier) % 256);
        return Some(if low_byte_out { LowByteOut } else { NotOut });
    };
    let standing = 2 * zone + (sheet[zone] % 2) as usize;
    let heads_home = board.leaves_home(standing);
    if word == HOME {
        return (!heads_home).then_some(HomeFromElsewhere);
    }
    let word = usize::from(word);
    if word >= board.words() {
        return Some(PastTheLastWord);
    }
    let apart = board.start(word) != board.leave(standing);
    match (heads_home, carriers[word / 2] != 0, apart) {
        (false, false, false) => None,
        (true, false, false) => Some(GateAlone),
        (false, true, false) => Some(if zone == word / 2 { OwnZoneAlone } else { HeldAlone }),
        (false, false, true) => Some(ApartAlone),
        _ => Some(ForSeveralReasons),
    }
}

/// The replays by their numbers, and those with 38 by what forbade the move, and of these the ones of a carrier that isn't out but stands past Z on
/// the sheet as lent. Of those with 0 and 38 the boards by kind; those whose moves, 16 or more, and 1,000 or more, were all carried out; those with a
/// move done into a turning loop, and into home; those on full boards with carriers that are blocked, where some move was done. Then 36 with an odd
/// log, and the refused boards with an odd log and no word lent.
#[derive(Debug, Default)]
pub struct ReplayTally {
    numbers: BTreeMap<u32, usize>,
    stopped: BTreeMap<Forbidden, usize>,
    past_zones: usize,
    kinds: Kinds,
    many_moves: usize,
    long: usize,
    into_loops: usize,
    arrivals: usize,
    pub full: usize,
    short_and_odd: usize,
    refused_and_odd: usize,
}

impl ReplayTally {
    /// One replay more, with the board where it is accepted. Gives whether it ended as it must: after the last move, or at one that something
    /// forbids.
    pub fn add(&mut self, bytes: &[u8], board: Option<&Board>, lent: &Lent, replay: &Replay) -> bool {
        *self.numbers.entry(replay.number).or_default() += 1;
        let odd = lent.log.len() % 2 == 1;
        self.short_and_odd += (replay.number == 36 && odd) as usize;
        self.refused_and_odd += (board.is_none() && odd && lent.room == 0) as usize;
        let (Some(board), 0 | 38) = (board, replay.number) else { return true };
        self.kinds.add(board, bytes);
        let moves: Vec<Move> = lent.log.chunks(2).map(|pair| [pair[0], pair[1]]).collect();
        let (done, rest) = moves.split_at(replay.moves as usize);
        self.many_moves += (rest.is_empty() && done.len() >= 16) as usize;
        self.long += (rest.is_empty() && done.len() >= 1_000) as usize;
        self.into_loops += done.iter().any(|&[_, word]| word != HOME && board.zones[usize::from(word) / 2].is_loop()) as usize;
        self.arrivals += done.iter().any(|&[_, word]| word == HOME) as usize;
        let Some(&next) = rest.first() else { return replay.number == 0 };
        let Some(why) = forbidden(board, &replay.sheet, next) else { return false };
        *self.stopped.entry(why).or_default() += 1;
        let past_zones = lent.room > board.zones.len() && lent.canary / 2 == u32::from(next[0]);
        self.past_zones += (matches!(why, NotOut | LowByteOut) && past_zones) as usize;
        replay.number == 38
    }

    pub fn replays(&self) -> usize {
        self.numbers.values().sum()
    }

    /// Whether there are enough of each kind.
    pub fn fair(&self) -> bool {
        let given = |number| self.numbers.get(&number).copied().unwrap_or(0);
        let stopped = |why| self.stopped.get(why).copied().unwrap_or(0);
        let kinds = [self.past_zones, self.many_moves, self.into_loops, self.arrivals, self.full, self.short_and_odd];
        [0, 36, 37, 38].into_iter().all(|number| 50_000 <= given(number))
            && (1..=9).all(|number| 100 <= given(number))
            && REASONS.iter().all(|why| 1_000 <= stopped(why))
            && kinds.iter().chain(&self.kinds.counts()).all(|&n| 1_000 <= n)
            && 100 <= self.refused_and_odd
            && 20 <= self.long
    }
}
