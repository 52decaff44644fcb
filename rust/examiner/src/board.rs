//! An accepted board: what its bytes say.

use crate::text::word_shown;
use nizkabel::owned::{self, Held, Refused};
use std::fmt;

/// A zone: its ends and what it holds.
#[derive(Clone, Copy, Debug, PartialEq, Eq)]
pub struct Zone {
    pub a: u8,
    pub b: u8,
    pub held: Option<Held>,
}

/// A board that the library accepts.
#[derive(Clone, Debug, PartialEq, Eq)]
pub struct Board {
    bytes: Vec<u8>,
    pub points: u8,
    pub home: u8,
    pub zones: Vec<Zone>,
}

/// How many bytes a zone has in a version.
pub fn stride(version: u8) -> usize {
    if version == 1 { 4 } else { 5 }
}

impl Board {
    /// The board that these bytes are, or the library's refusal. What the zones hold is the library's answer too, that to a log without a move.
    pub fn accepted(bytes: &[u8]) -> Result<Board, Refused> {
        let position = owned::replay(bytes, &[])?.position;
        let zones = bytes[6..].chunks(stride(bytes[2])).zip(position).map(|(zone, held)| Zone { a: zone[0], b: zone[1], held }).collect();
        Ok(Board { bytes: bytes.to_vec(), points: bytes[3], home: bytes[4], zones })
    }

    pub fn bytes(&self) -> &[u8] {
        &self.bytes
    }

    pub fn position(&self) -> Vec<Option<Held>> {
        self.zones.iter().map(|zone| zone.held).collect()
    }

    /// The point where a word of a zone that there is starts.
    pub fn start(&self, word: u16) -> u8 {
        let zone = &self.zones[usize::from(word / 2)];
        if word % 2 == 0 { zone.a } else { zone.b }
    }

    /// The point where it leaves.
    pub fn leave(&self, word: u16) -> u8 {
        self.start(word ^ 1)
    }

    pub fn has_zone(&self, word: u16) -> bool {
        usize::from(word / 2) < self.zones.len()
    }

    /// The carriers out with the words where they stand, ascending.
    pub fn standings(&self) -> Vec<(u16, u16)> {
        let word = |zone: usize, held: Held| (held.carrier, 2 * zone as u16 + held.heading);
        let mut out: Vec<(u16, u16)> = self.zones.iter().enumerate().filter_map(|(z, zone)| zone.held.map(|held| word(z, held))).collect();
        out.sort_unstable();
        out
    }

    /// The word where a carrier stands.
    pub fn standing(&self, carrier: u16) -> Option<u16> {
        self.standings().into_iter().find_map(|(out, word)| (out == carrier).then_some(word))
    }
}

/// Its standings, a line a carrier.
pub fn standings_shown(board: &Board) -> String {
    let standings = board.standings();
    if standings.is_empty() {
        return "out none\n".to_string();
    }
    standings.iter().map(|&(carrier, word)| format!("out {carrier}: {}\n", word_shown(word))).collect()
}

/// The readable form.
impl fmt::Display for Board {
    fn fmt(&self, f: &mut fmt::Formatter<'_>) -> fmt::Result {
        writeln!(f, "points {} home {}", self.points, self.home)?;
        for Zone { a, b, held } in &self.zones {
            match held {
                None => writeln!(f, "{a}-{b}")?,
                Some(Held { carrier, heading: 0 }) => writeln!(f, "{a}-{b} {carrier}>")?,
                Some(Held { carrier, .. }) => writeln!(f, "{a}-{b} <{carrier}")?,
            }
        }
        Ok(())
    }
}
