//! How many boards of a comparison tell the search count from what a mistake would make of it, so that a run in which it hardly shows is no
//! success.

use second::{Board, Key, Rule, Try};

/// The accepted boards by what their tries show: two rounds or more; a try in vain in the round of a carrier that goes; a last round in which all
/// are tried in vain, after others went; a search that stops at home finds fewer words; without the home gate more are reached; a turning loop
/// that is entered again straight after itself is a word more. Then those with a count that 16 bits don't hold.
#[derive(Debug, Default)]
pub struct SearchTally {
    boards: usize,
    rounds: usize,
    in_vain: usize,
    then_blocked: usize,
    stopped: usize,
    gate: usize,
    again: usize,
    pub large: usize,
}

/// How many words a queue has found when it comes to the first that leaves at home.
fn found_at_home(board: &Board, carrier: u32) -> usize {
    let mut queue: Vec<usize> = board.standing(carrier).into_iter().collect();
    let mut place = 0;
    while !board.leaves_home(queue[place]) {
        let next: Vec<usize> = (0..board.words()).filter(|v| board.may_follow(carrier, queue[place], *v) && !queue.contains(v)).collect();
        queue.extend(next);
        place += 1;
    }
    queue.len()
}

impl SearchTally {
    /// One accepted board more, with its keys by the home gate's rule and by the older one.
    pub fn add(&mut self, board: &Board, [key, older]: &[Key; 2]) {
        let tries = second::tries(Rule::HomeGate, board);
        let goes = |tried: &Try| tried.reached.iter().any(|&w| board.leaves_home(w));
        let gone = tries.iter().filter(|tried| goes(tried)).count();
        let blocked = tries.last().is_some_and(|last| !goes(last));
        let mut now = board.clone();
        let stopped = tries.iter().filter(|tried| goes(tried)).any(|tried| {
            let found = found_at_home(&now, tried.carrier);
            now = now.without(tried.carrier);
            found < tried.reached.len()
        });
        let again = tries.iter().any(|tried| {
            let standing = board.standing(tried.carrier).unwrap();
            board.zones[standing / 2].is_loop() && !board.leaves_home(standing) && !tried.reached.contains(&(standing ^ 1))
        });
        self.boards += 1;
        self.rounds += (gone + usize::from(blocked) >= 2) as usize;
        self.in_vain += tries.windows(2).any(|pair| !goes(&pair[0]) && goes(&pair[1])) as usize;
        self.then_blocked += (gone > 0 && blocked) as usize;
        self.stopped += stopped as usize;
        self.gate += (key.searched != older.searched) as usize;
        self.again += again as usize;
        self.large += (key.searched > 65_535) as usize;
    }

    /// Whether each kind has at least so many in a hundred of the boards.
    pub fn fair(&self, of_a_hundred: usize) -> bool {
        let kinds = [self.rounds, self.in_vain, self.then_blocked, self.stopped, self.gate, self.again];
        0 < self.boards && kinds.iter().all(|&n| of_a_hundred * self.boards <= 100 * n)
    }
}
