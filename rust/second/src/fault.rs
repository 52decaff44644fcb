//! What is wrong with a sheet, and where: its entries and the words of their routes are gone through one after another, up to the first that breaks a
//! rule. The board stays as it was first given, and beside it stands who went home: so a carrier that never was out is told from one that is home.

use crate::board::{read, Board};
use crate::collapse::left;
use std::collections::HashSet;

/// Why a sheet is wrong, in the order in which the reasons are tried. Entries, words and the places of a claim count from 0.
#[derive(Clone, Debug, PartialEq, Eq)]
pub enum Reason {
    /// The sheet has no words.
    Empty,
    /// It starts with this word, neither 0 nor 1.
    Starts(u16),
    /// The sheet ends after the entry's carrier.
    CarrierAlone,
    /// The entry's count is 0.
    NoWords,
    /// The entry's count, and how many words the sheet has after it, which are fewer.
    PastEnd { counted: u16, left: usize },
    /// The carrier stands nowhere on the board as first given.
    NotOnBoard,
    /// It went home by this entry.
    HomeAlready { by: usize },
    /// The route's first word isn't this one, where the carrier stands.
    NotItsStanding { standing: u16 },
    /// The board has no zone for the word.
    NoSuchZone,
    /// The word before leaves at the home point.
    RunsOn,
    /// The word starts elsewhere than where the word before leaves.
    DoesNotTouch,
    /// It is in the zone of the word before.
    SameZone,
    /// Its zone holds this other carrier, which is still out.
    HeldBy(u16),
    /// The route's last word leaves at this point, which isn't home.
    LeavesElsewhere { point: usize },
    /// These carriers have no entry; ascending.
    StillOut(Vec<u16>),
    /// The carriers that are blocked, ascending; those that are claimed to be and are not, in the claim's order, each once; those that are and aren't
    /// claimed to be, ascending; the first place in the claim whose number isn't above the one before it. Where none is blocked, all of them may be
    /// empty: a claim of nobody is false then too.
    Claim { blocked: Vec<u16>, too_many: Vec<u16>, too_few: Vec<u16>, not_ascending: Option<usize> },
}

use Reason::*;

impl Reason {
    /// The number that the marker gives for it.
    fn number(&self) -> u32 {
        match self {
            Empty | Starts(_) | CarrierAlone | NoWords | PastEnd { .. } => 30,
            NotOnBoard | HomeAlready { .. } => 31,
            NotItsStanding { .. } | NoSuchZone | RunsOn | DoesNotTouch | SameZone | HeldBy(_) => 32,
            LeavesElsewhere { .. } => 33,
            StillOut(_) => 34,
            Claim { .. } => 35,
        }
    }
}

/// The number of a wrong sheet, and its reason with the entry and the word of its route, where it lies in one.
#[derive(Clone, Debug, PartialEq, Eq)]
pub struct Fault {
    pub number: u32,
    pub entry: Option<usize>,
    pub word: Option<usize>,
    pub reason: Reason,
}

impl Fault {
    fn new(entry: Option<usize>, word: Option<usize>, reason: Reason) -> Fault {
        Fault { number: reason.number(), entry, word, reason }
    }
}

/// What is wrong with a sheet on a board in bytes; none where the sheet is right or the board is refused.
pub fn fault(bytes: &[u8], sheet: &[u16]) -> Option<Fault> {
    let board = read(bytes).ok()?;
    let whole = |reason| Fault::new(None, None, reason);
    match sheet.split_first() {
        None => Some(whole(Empty)),
        Some((0, plan)) => in_plan(&board, plan),
        Some((1, claim)) => in_claim(&board, claim).map(whole),
        Some((&first, _)) => Some(whole(Starts(first))),
    }
}

/// The carriers' numbers as a sheet has them.
fn in_words(carriers: Vec<u32>) -> Vec<u16> {
    carriers.into_iter().map(|c| c as u16).collect()
}

/// A claim is right if some carrier is blocked, none is named too many or too few, and the numbers ascend.
fn in_claim(board: &Board, claim: &[u16]) -> Option<Reason> {
    let blocked = in_words(left(board));
    let mut seen = HashSet::new();
    let too_many: Vec<u16> = claim.iter().copied().filter(|c| !blocked.contains(c) && seen.insert(*c)).collect();
    let too_few: Vec<u16> = blocked.iter().copied().filter(|c| !claim.contains(c)).collect();
    let not_ascending = (1..claim.len()).find(|&at| claim[at] <= claim[at - 1]);
    let right = !blocked.is_empty() && too_many.is_empty() && too_few.is_empty() && not_ascending.is_none();
    (!right).then_some(Claim { blocked, too_many, too_few, not_ascending })
}

fn in_plan(board: &Board, mut plan: &[u16]) -> Option<Fault> {
    // Each entry so far sent one carrier home, so the entry that did it is the carrier's place here.
    let mut home = Vec::new();
    while !plan.is_empty() {
        match first_entry(board, &home, plan) {
            Ok((carrier, rest)) => {
                home.push(carrier);
                plan = rest;
            }
            Err((word, reason)) => return Some(Fault::new(Some(home.len()), word, reason)),
        }
    }
    let mut out = in_words(board.carriers());
    out.retain(|c| !home.contains(c));
    (!out.is_empty()).then(|| Fault::new(None, None, StillOut(out)))
}

/// The carrier that the first entry sends home, and the words after the entry; or what is wrong with it, and at which word of its route.
fn first_entry<'a>(board: &Board, home: &[u16], plan: &'a [u16]) -> Result<(u16, &'a [u16]), (Option<usize>, Reason)> {
    let whole = |reason| Err((None, reason));
    let &[carrier, counted, ref words @ ..] = plan else {
        return whole(CarrierAlone);
    };
    if counted == 0 {
        return whole(NoWords);
    }
    let Some((route, rest)) = words.split_at_checked(counted.into()) else {
        return whole(PastEnd { counted, left: words.len() });
    };
    let Some(standing) = board.standing(carrier.into()) else {
        return whole(NotOnBoard);
    };
    if let Some(by) = home.iter().position(|&gone| gone == carrier) {
        return whole(HomeAlready { by });
    }
    match in_route(board, home, carrier, standing, route) {
        Some((at, reason)) => Err((Some(at), reason)),
        None => Ok((carrier, rest)),
    }
}

/// The first word of a route that is wrong. That the last doesn't leave at home is looked at once every word keeps the rules.
fn in_route(board: &Board, home: &[u16], carrier: u16, standing: usize, route: &[u16]) -> Option<(usize, Reason)> {
    let route: Vec<usize> = route.iter().map(|&w| w.into()).collect();
    if route[0] != standing {
        return Some((0, NotItsStanding { standing: standing as u16 }));
    }
    let last = route.len() - 1;
    let wrong = (1..=last).find_map(|at| Some((at, against(board, home, carrier, route[at - 1], route[at])?)));
    wrong.or_else(|| {
        let point = board.leave(route[last]);
        (point != board.home).then_some((last, LeavesElsewhere { point }))
    })
}

/// What is against a carrier's going on from word w, which is one of the board's, by word v. Its own zone is free, since it has left it.
fn against(board: &Board, home: &[u16], carrier: u16, w: usize, v: usize) -> Option<Reason> {
    if v >= board.words() {
        return Some(NoSuchZone);
    }
    let holder = board.zones[v / 2].carrier as u16;
    if board.leaves_home(w) {
        Some(RunsOn)
    } else if board.start(v) != board.leave(w) {
        Some(DoesNotTouch)
    } else if v / 2 == w / 2 {
        Some(SameZone)
    } else if ![0, carrier].contains(&holder) && !home.contains(&holder) {
        Some(HeldBy(holder))
    } else {
        None
    }
}
