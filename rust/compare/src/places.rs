//! Compares the place and the reason of a sheet's fault as the examiner's tool finds them, by asking the marker, with the second implementation's own
//! reading; and what the tool says of a refused board, and of a forbidden move.

use crate::differ;
use crate::replay_tally::Forbidden;
use examiner::board::Board;
use examiner::fault::{self, At, Fault, Reason};
use examiner::moves;
use examiner::refused::Wrong;
use second::Move;
use std::collections::BTreeMap;

/// How many sheets and refused boards there were for each reason.
#[derive(Debug, Default)]
pub struct PlaceTally {
    sheets: BTreeMap<String, usize>,
    boards: BTreeMap<String, usize>,
}

const OF_SHEETS: [&str; 19] = [
    "Empty", "Starts", "CarrierAlone", "NoWords", "PastEnd", "NotOnBoard", "HomeAlready", "NotItsStanding", "NoSuchZone", "RunsOn", "DoesNotTouch",
    "SameZone", "HeldBy", "LeavesElsewhere", "StillOut", "NoneBlocked", "TooMany", "TooFew", "NotAscending",
];

const OF_BOARDS: [&str; 13] =
    ["Short", "Length", "Version", "Points", "Home", "Zones", "ZoneBytes", "End", "Heading", "FreeHeading", "Twice", "Loose", "Apart"];

/// A name without what it holds.
fn kind(reason: &impl std::fmt::Debug) -> String {
    let said = format!("{reason:?}");
    said.split([' ', '(']).next().unwrap_or_default().to_string()
}

/// The kinds of a claim, all of which may hold of one.
fn claim_kinds(reason: &Reason) -> Vec<String> {
    let Reason::Claim { blocked, too_many, too_few, not_ascending } = reason else { return vec![kind(reason)] };
    let held = [blocked.is_empty(), !too_many.is_empty(), !too_few.is_empty(), not_ascending.is_some()];
    ["NoneBlocked", "TooMany", "TooFew", "NotAscending"].iter().zip(held).filter(|(_, held)| *held).map(|(name, _)| name.to_string()).collect()
}

/// The second implementation's reason for what the tool says.
fn as_second(reason: &Reason) -> Option<second::Reason> {
    Some(match reason.clone() {
        Reason::Empty => second::Reason::Empty,
        Reason::Starts(word) => second::Reason::Starts(word),
        Reason::CarrierAlone => second::Reason::CarrierAlone,
        Reason::NoWords => second::Reason::NoWords,
        Reason::PastEnd { counted, left } => second::Reason::PastEnd { counted, left },
        Reason::NotOnBoard => second::Reason::NotOnBoard,
        Reason::HomeAlready { by } => second::Reason::HomeAlready { by },
        Reason::NotItsStanding { standing } => second::Reason::NotItsStanding { standing },
        Reason::NoSuchZone { .. } => second::Reason::NoSuchZone,
        Reason::RunsOn => second::Reason::RunsOn,
        Reason::DoesNotTouch { .. } => second::Reason::DoesNotTouch,
        Reason::SameZone => second::Reason::SameZone,
        Reason::HeldBy(carrier) => second::Reason::HeldBy(carrier),
        Reason::BreaksRules => return None,
        Reason::LeavesElsewhere { point } => second::Reason::LeavesElsewhere { point: point.into() },
        Reason::StillOut(carriers) => second::Reason::StillOut(carriers),
        Reason::Claim { blocked, too_many, too_few, not_ascending } => {
            second::Reason::Claim { blocked, too_many, too_few, not_ascending: not_ascending.map(|at| at.place) }
        }
    })
}

/// Whether the sheet has these numbers at the places that are said: the entry's carrier, and a word of its route.
fn said_there(sheet: &[u16], Fault { entry, word, .. }: &Fault) -> bool {
    let Some(At { place, said }) = *entry else { return word.is_none() };
    let start = (0..place).fold(1, |start, _| start + 2 + usize::from(sheet[start + 1]));
    sheet[start] == said && word.is_none_or(|word| sheet[start + 2 + word.place] == word.said)
}

/// Why the tool says that a move is forbidden, in the position of a board in bytes, beside what forbids it by the rules tested one by one.
pub fn compare_forbidden(bytes: &[u8], position: &Board, [carrier, word]: Move, expected: Option<Forbidden>) {
    let found = moves::forbidden(position, carrier, word);
    let fits = match (&found, expected) {
        (None, None) => true,
        (Some(moves::Forbidden::NotOut), Some(why)) => matches!(why, Forbidden::Zero | Forbidden::LowByteOut | Forbidden::NotOut),
        (Some(moves::Forbidden::NotHome { .. }), Some(why)) => why == Forbidden::HomeFromElsewhere,
        (Some(moves::Forbidden::OnlyHome), Some(why)) => matches!(why, Forbidden::GateAlone | Forbidden::ForSeveralReasons),
        (Some(moves::Forbidden::Word(Reason::NoSuchZone { .. })), Some(why)) => why == Forbidden::PastTheLastWord,
        (Some(moves::Forbidden::Word(Reason::DoesNotTouch { .. })), Some(why)) => matches!(why, Forbidden::ApartAlone | Forbidden::ForSeveralReasons),
        (Some(moves::Forbidden::OwnZone), Some(why)) => why == Forbidden::OwnZoneAlone,
        (Some(moves::Forbidden::Word(Reason::HeldBy(holder))), Some(why)) => {
            why == Forbidden::HeldAlone && position.zones[usize::from(word / 2)].held.is_some_and(|held| held.carrier == *holder)
        }
        _ => false,
    };
    if !fits {
        differ("why a move is forbidden", bytes, format!("{carrier} {word} on\n{position}expected {expected:?}\ngot {found:?}"));
    }
}

impl PlaceTally {
    /// A sheet on a board in bytes. On a refused board there is nothing to find.
    pub fn compare(&mut self, bytes: &[u8], sheet: &[u16]) {
        let Ok(board) = Board::accepted(bytes) else { return };
        let (number, found) = fault::mark(&board, sheet);
        let expected = second::fault(bytes, sheet);
        let as_found = found.as_ref().map(|fault| {
            let place = |at: Option<At>| at.map(|at| at.place);
            (Some(number), place(fault.entry), place(fault.word), as_second(&fault.reason))
        });
        let as_expected = expected.as_ref().map(|fault| (Some(fault.number), fault.entry, fault.word, Some(fault.reason.clone())));
        if as_found != as_expected || found.as_ref().is_some_and(|fault| !said_there(sheet, fault)) {
            differ("the place of a fault", bytes, format!("sheet {sheet:?}\nexpected {expected:?}\ngot {number} {found:?}"));
        }
        for kind in found.iter().flat_map(|fault| claim_kinds(&fault.reason)) {
            *self.sheets.entry(kind).or_default() += 1;
        }
    }

    /// A board in bytes: what is wrong with it where it is refused.
    pub fn compare_refused(&mut self, bytes: &[u8]) {
        let Err(refused) = Board::accepted(bytes) else { return };
        let (found, expected) = (Wrong::by_row(refused.number(), bytes), second::refused_at(bytes));
        // The two have the same names for the same things.
        if found.as_ref().map(|wrong| format!("{wrong:?}")) != expected.as_ref().map(|wrong| format!("{wrong:?}")) {
            differ("what is wrong with a board", bytes, format!("expected {expected:?}\ngot {found:?}"));
        }
        *self.boards.entry(found.as_ref().map(kind).unwrap_or_default()).or_default() += 1;
    }

    /// Whether there are enough of each reason.
    pub fn fair(&self) -> bool {
        let enough = |counts: &BTreeMap<String, usize>, kinds: &[&str], least| kinds.iter().all(|&kind| counts.get(kind).is_some_and(|&n| least <= n));
        enough(&self.sheets, &OF_SHEETS, 1_000) && enough(&self.boards, &OF_BOARDS, 100)
    }
}
