//! Where a sheet fails and why, found by asking the proved marker about parts of the sheet, by halving: so the place is as sure as the mark. Only why
//! it turns a word back is read off the board, in a fixed order.

use crate::board::Board;
use crate::text::{numbers_cut, word_shown};
use nizkabel::owned;
use std::collections::HashSet;
use std::fmt;

/// A place in a sheet, counted from 0, and the number that the sheet has there: an entry's carrier, a word.
#[derive(Clone, Copy, Debug, PartialEq, Eq)]
pub struct At {
    pub place: usize,
    pub said: u16,
}

/// The place of the first fault, and its reason. An entry that isn't whole may lack its carrier's words; 34 and 35 are of the whole sheet.
#[derive(Clone, Debug, PartialEq, Eq)]
pub struct Fault {
    pub entry: Option<At>,
    pub word: Option<At>,
    pub reason: Reason,
}

/// Why a sheet gets its number, 30 to 35 in turn.
#[derive(Clone, Debug, PartialEq, Eq)]
pub enum Reason {
    Empty,
    Starts(u16),
    CarrierAlone,
    NoWords,
    PastEnd { counted: u16, left: usize },

    NotOnBoard,
    HomeAlready { by: usize },

    NotItsStanding { standing: u16 },
    NoSuchZone { zones: usize },
    RunsOn,
    DoesNotTouch { leaves: u8, starts: u8 },
    SameZone,
    HeldBy(u16),
    /// None of these fits, which never comes: the comparison fails on it.
    BreaksRules,

    LeavesElsewhere { point: u8 },

    StillOut(Vec<u16>),

    Claim { blocked: Vec<u16>, too_many: Vec<u16>, too_few: Vec<u16>, not_ascending: Option<At> },
}

/// An entry of a plan: where it starts in the sheet, its carrier and its route.
struct Entry<'a> {
    start: usize,
    carrier: u16,
    route: &'a [u16],
}

impl Entry<'_> {
    fn end(&self) -> usize {
        self.start + 2 + self.route.len()
    }
}

/// The whole entries that a plan's sheet starts with.
fn entries(sheet: &[u16]) -> Vec<Entry<'_>> {
    let mut found = Vec::new();
    let mut start = 1;
    while let Some([carrier, count, rest @ ..]) = sheet.get(start..) {
        let Some(route) = rest.get(..usize::from(*count)).filter(|route| !route.is_empty()) else { break };
        let entry = Entry { start, carrier: *carrier, route };
        start = entry.end();
        found.push(entry);
    }
    found
}

/// A sheet on an accepted board, and the marker that is asked about it.
struct Asked<'a> {
    board: &'a Board,
    sheet: &'a [u16],
}

/// The mark of a sheet, and where it isn't 0 the fault.
pub fn mark(board: &Board, sheet: &[u16]) -> (u32, Option<Fault>) {
    let number = nizkabel::mark(board.bytes(), sheet);
    (number, Asked { board, sheet }.fault(number))
}

impl Asked<'_> {
    fn marked(&self, sheet: &[u16]) -> u32 {
        nizkabel::mark(self.board.bytes(), sheet)
    }

    fn fault(&self, number: u32) -> Option<Fault> {
        match number {
            30 => Some(self.not_whole()),
            31..=33 => Some(self.faulty_entry(number)),
            34 => Some(Fault { entry: None, word: None, reason: Reason::StillOut(self.still_out()) }),
            35 => Some(Fault { entry: None, word: None, reason: self.false_claim() }),
            _ => None,
        }
    }

    /// 30, read off the words: the first entry that isn't whole, for those before it pass.
    fn not_whole(&self) -> Fault {
        let of_sheet = |reason| Fault { entry: None, word: None, reason };
        match self.sheet {
            [] => return of_sheet(Reason::Empty),
            [0, ..] => {}
            [first, ..] => return of_sheet(Reason::Starts(*first)),
        }
        let whole = entries(self.sheet);
        let rest = &self.sheet[whole.last().map_or(1, Entry::end)..];
        let reason = match *rest {
            [_, 0, ..] => Reason::NoWords,
            [_, counted, ref words @ ..] => Reason::PastEnd { counted, left: words.len() },
            _ => Reason::CarrierAlone,
        };
        Fault { entry: Some(At { place: whole.len(), said: rest[0] }), word: None, reason }
    }

    /// 31 to 33: cut after an entry, the sheet gets 0 or 34 while all entries so far pass, and its own mark from the first faulty one on.
    fn faulty_entry(&self, number: u32) -> Fault {
        let entries = entries(self.sheet);
        let place = entries.partition_point(|entry| matches!(self.marked(&self.sheet[..entry.end()]), 0 | 34));
        let entry = &entries[place];
        let (word, reason) = match number {
            31 => (None, self.not_out(&entries, entry)),
            32 => {
                let (word, reason) = self.faulty_word(entry);
                (Some(word), reason)
            }
            _ => {
                let last = entry.route.len() - 1;
                (Some(last), Reason::LeavesElsewhere { point: self.board.leave(entry.route[last]) })
            }
        };
        let word = word.map(|word| At { place: word, said: entry.route[word] });
        Fault { entry: Some(At { place, said: entry.carrier }), word, reason }
    }

    /// 31: an entry of this carrier alone gets 31 too exactly where it isn't on the board at all; else an entry before has sent it home.
    fn not_out(&self, entries: &[Entry], entry: &Entry) -> Reason {
        match self.marked(&[0, entry.carrier, 1, 0]) {
            31 => Reason::NotOnBoard,
            _ => Reason::HomeAlready { by: entries.iter().take_while(|earlier| earlier.carrier != entry.carrier).count() },
        }
    }

    /// 32: after the entries before it, the carrier with the first words of its route alone gets 0, 33 or 34 below the faulty word, 32 from it on.
    fn faulty_word(&self, entry: &Entry) -> (usize, Reason) {
        let up_to = |words: usize| self.marked(&[&self.sheet[..entry.start], &[entry.carrier, words as u16], &entry.route[..words]].concat());
        let counts: Vec<usize> = (1..=entry.route.len()).collect();
        let word = counts.partition_point(|&words| up_to(words) != 32);
        let reason = match word {
            0 => self.board.standing(entry.carrier).map(|standing| Reason::NotItsStanding { standing }),
            _ if !self.board.has_zone(entry.route[word]) => Some(Reason::NoSuchZone { zones: self.board.zones.len() }),
            // The word before leaves at home.
            _ if matches!(up_to(word), 0 | 34) => Some(Reason::RunsOn),
            _ => self.against(entry, entry.route[word - 1], entry.route[word]),
        };
        (word, reason.unwrap_or(Reason::BreaksRules))
    }

    /// What is against a word after another one by the moving rules, as the board has it.
    fn against(&self, entry: &Entry, last: u16, word: u16) -> Option<Reason> {
        let (leaves, starts) = (self.board.leave(last), self.board.start(word));
        if leaves != starts {
            return Some(Reason::DoesNotTouch { leaves, starts });
        }
        if last / 2 == word / 2 {
            return Some(Reason::SameZone);
        }
        let holder = self.board.zones[usize::from(word / 2)].held?.carrier;
        let home = entries(&self.sheet[..entry.start]).iter().any(|earlier| earlier.carrier == holder);
        (holder != entry.carrier && !home).then_some(Reason::HeldBy(holder))
    }

    /// 34: a carrier is still out exactly where an entry of it after the sheet doesn't get 31. Those that have an entry passed with it, and are home.
    fn still_out(&self) -> Vec<u16> {
        let gone: Vec<u16> = entries(self.sheet).iter().map(|entry| entry.carrier).collect();
        let mut asked = [self.sheet, &[0; 3]].concat();
        let mut out = |&(carrier, standing): &(u16, u16)| {
            asked[self.sheet.len()..].copy_from_slice(&[carrier, 1, standing]);
            self.marked(&asked) != 31
        };
        self.board.standings().into_iter().filter(|(carrier, _)| !gone.contains(carrier)).filter(&mut out).map(|(carrier, _)| carrier).collect()
    }

    /// 35: the claim beside the library's own list.
    fn false_claim(&self) -> Reason {
        let claim = &self.sheet[1..];
        let blocked = owned::collapse(self.board.bytes()).unwrap_or_default();
        let mut seen = HashSet::new();
        let too_many = claim.iter().copied().filter(|carrier| !blocked.contains(carrier) && seen.insert(*carrier)).collect();
        let too_few = blocked.iter().copied().filter(|carrier| !claim.contains(carrier)).collect();
        let not_ascending = (1..claim.len()).find(|&place| claim[place] <= claim[place - 1]).map(|place| At { place, said: claim[place] });
        Reason::Claim { blocked, too_many, too_few, not_ascending }
    }
}

/// A mark in words.
pub fn meaning(number: u32) -> &'static str {
    match number {
        0 => "right",
        30 => "not a whole sheet",
        31 => "carrier isn't still out",
        32 => "word breaks the moving rules",
        33 => "route doesn't leave at home",
        34 => "carrier still out at the end",
        _ => "false claim of blocked",
    }
}

impl fmt::Display for Reason {
    fn fmt(&self, f: &mut fmt::Formatter<'_>) -> fmt::Result {
        match self {
            Reason::Empty => write!(f, "empty"),
            Reason::Starts(word) => write!(f, "starts with {word}, neither 0 nor 1"),
            Reason::CarrierAlone => write!(f, "has no count of words"),
            Reason::NoWords => write!(f, "has no route"),
            Reason::PastEnd { counted, left } => write!(f, "counts {counted} words where {left} are left"),
            Reason::NotOnBoard => write!(f, "isn't on the board"),
            Reason::HomeAlready { by } => write!(f, "home already by entry {}", by + 1),
            Reason::NotItsStanding { standing } => write!(f, "not its standing: it stands in {}", word_shown(*standing)),
            Reason::NoSuchZone { zones } => write!(f, "no such zone; the last is {}", zones - 1),
            Reason::RunsOn => write!(f, "runs on through home"),
            Reason::DoesNotTouch { leaves, starts } => write!(f, "doesn't touch: starts at point {starts}, not at {leaves}"),
            Reason::SameZone => write!(f, "the same zone again"),
            Reason::HeldBy(carrier) => write!(f, "held by {carrier}"),
            Reason::BreaksRules => write!(f, "breaks the moving rules"),
            Reason::LeavesElsewhere { point } => write!(f, "leaves at point {point}"),
            Reason::StillOut(carriers) => write!(f, "{}", numbers_cut(carriers)),
            Reason::Claim { blocked, .. } if blocked.is_empty() => write!(f, "no carrier is blocked"),
            Reason::Claim { too_many, too_few, not_ascending, .. } => {
                let list = |what: &str, carriers: &[u16]| (!carriers.is_empty()).then(|| format!("{what}: {}", numbers_cut(carriers)));
                let order = not_ascending.map(|at| format!("not ascending: {} in place {}", at.said, at.place + 1));
                let parts = [list("named but not blocked", too_many), list("blocked but not named", too_few), order];
                write!(f, "{}", parts.into_iter().flatten().collect::<Vec<_>>().join("; "))
            }
        }
    }
}

impl fmt::Display for Fault {
    fn fmt(&self, f: &mut fmt::Formatter<'_>) -> fmt::Result {
        if let Some(At { place, said }) = self.entry {
            write!(f, "entry {} (carrier {said})", place + 1)?;
        }
        if let Some(At { place, said }) = self.word {
            write!(f, ", word {} ({})", place + 1, word_shown(said))?;
        }
        if self.entry.is_some() {
            write!(f, ": ")?;
        }
        write!(f, "{}", self.reason)
    }
}
