//! How many boards and sheets of a comparison have turning loops, so that a run without them is no success.

use second::Board;

/// The random boards by their turning loops: none, fewer than half of the zones, half of them or more; at home, held, free; some and carriers
/// that are blocked. Then the full boards by exhaustion that have them, and the sheets that enter one again straight after itself.
#[derive(Debug, Default)]
pub struct LoopTally {
    none: usize,
    some: usize,
    many: usize,
    at_home: usize,
    held: usize,
    free: usize,
    blocked: usize,
    pub full: usize,
    pub run_again: usize,
}

impl LoopTally {
    /// One board more, with the carriers blocked on it.
    pub fn add(&mut self, board: &Board, blocked: &[u32]) {
        let loops: Vec<_> = board.zones.iter().filter(|z| z.is_loop()).collect();
        match loops.len() {
            0 => self.none += 1,
            n if 2 * n < board.zones.len() => self.some += 1,
            _ => self.many += 1,
        }
        self.at_home += loops.iter().any(|z| z.a == board.home) as usize;
        self.held += loops.iter().any(|z| z.carrier != 0) as usize;
        self.free += loops.iter().any(|z| z.carrier == 0) as usize;
        self.blocked += (!loops.is_empty() && !blocked.is_empty()) as usize;
    }

    /// Whether each kind of board is a tenth of them or more, with enough full boards and sheets.
    pub fn fair(&self) -> bool {
        let kinds = [self.none, self.some, self.many, self.at_home, self.held, self.free, self.blocked];
        let boards = self.none + self.some + self.many;
        kinds.iter().all(|&n| boards <= 10 * n) && 100 <= self.full && 1_000 <= self.run_again
    }
}
