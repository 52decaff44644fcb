//! How many carriers are blocked on the boards of a comparison. On an accepted board it is never exactly one, since a carrier that is alone out
//! goes home.

use std::collections::BTreeMap;

/// How many accepted boards have no blocked carrier, two, three and so on. Then the refused boards on which exactly one is, so that a run that
/// couldn't see one is no success, and the carriers alone out by how they go: straight on, or turned and back through their own zone.
#[derive(Debug, Default)]
pub struct BlockedTally {
    accepted: BTreeMap<usize, usize>,
    pub refused_with_one: usize,
    pub straight: usize,
    pub turned: usize,
}

impl BlockedTally {
    /// One accepted board more. Gives whether so many carriers can be blocked.
    pub fn add(&mut self, blocked: usize) -> bool {
        *self.accepted.entry(blocked).or_default() += 1;
        blocked != 1
    }

    pub fn fair(&self) -> bool {
        let boards = |blocked| self.accepted.get(&blocked).copied().unwrap_or(0);
        [boards(0), boards(2), boards(3), self.refused_with_one, self.straight, self.turned].iter().all(|&n| 1_000 <= n)
    }
}
