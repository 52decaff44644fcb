//! The key by distances: for each carrier the number of words that it still needs from each word, by a backward fixpoint. By the older
//! moving rule, the key by tables: for each number of words those words from which exactly so many lead home, through home or not.

use crate::board::{read, Board, Rule};
use crate::searched::{searched, tries};

/// The key by one of the two rules. The search count is by that rule too: by the older one it has words past home, and document 02 asks for
/// the home gate's.
#[derive(Clone, Debug, PartialEq, Eq)]
pub struct Key {
    pub verdict: u32,
    pub plan: Vec<u16>,
    pub list: Vec<u32>,
    pub searched: u32,
}

impl Key {
    /// Verdict, plan and list, which are the same by both rules.
    pub fn answer(&self) -> (u32, &[u16], &[u32]) {
        (self.verdict, &self.plan, &self.list)
    }
}

/// For each word those that a carrier may go on by. The home gate takes in every arrival, so with it none follows a word that leaves there.
pub(crate) fn next_words(rule: Rule, board: &Board, carrier: u32) -> Vec<Vec<usize>> {
    let goes_on = |w: usize| rule == Rule::Older || !board.leaves_home(w);
    (0..board.words()).map(|w| (0..board.words()).filter(|&v| goes_on(w) && board.may_follow(carrier, w, v)).collect()).collect()
}

/// How many words after each word bring the carrier home, at least; none where no number does.
fn distances(board: &Board, carrier: u32) -> Vec<Option<usize>> {
    let mut far: Vec<Option<usize>> = (0..board.words()).map(|w| board.leaves_home(w).then_some(0)).collect();
    let follow = next_words(Rule::HomeGate, board, carrier);
    loop {
        let mut changed = false;
        for w in 0..board.words() {
            let best = follow[w].iter().filter_map(|&v| far[v]).min().map(|d| d + 1);
            if let Some(d) = best {
                if far[w].map_or(true, |old| d < old) {
                    far[w] = Some(d);
                    changed = true;
                }
            }
        }
        if !changed {
            return far;
        }
    }
}

/// The route with the fewest words, smallest at the first difference.
fn least_route(board: &Board, carrier: u32) -> Option<Vec<usize>> {
    let mut word = board.standing(carrier)?;
    let far = distances(board, carrier);
    let mut left = far[word]?;
    let mut route = vec![word];
    while left > 0 {
        left -= 1;
        word = (0..board.words()).find(|&v| board.may_follow(carrier, word, v) && far[v] == Some(left))?;
        route.push(word);
    }
    Some(route)
}

/// The same by the older rule. No least route has more than 2 × Z words.
fn older_least_route(board: &Board, carrier: u32) -> Option<Vec<usize>> {
    let standing = board.standing(carrier)?;
    let follow = next_words(Rule::Older, board, carrier);
    let mut exactly: Vec<Vec<bool>> = vec![(0..board.words()).map(|w| board.leaves_home(w)).collect()];
    while !exactly.last()?[standing] {
        if exactly.len() == board.words() {
            return None;
        }
        let fewer = exactly.last()?;
        let more = follow.iter().map(|next| next.iter().any(|&v| fewer[v])).collect();
        exactly.push(more);
    }
    let mut route = vec![standing];
    for fewer in exactly.iter().rev().skip(1) {
        let last = *route.last()?;
        route.push(*follow[last].iter().find(|&&v| fewer[v])?);
    }
    Some(route)
}

pub(crate) fn plan_with(board: &Board, least: impl Fn(&Board, u32) -> Option<Vec<usize>>) -> (Vec<u16>, Board) {
    let mut now = board.clone();
    let mut plan = Vec::new();
    while let Some((carrier, route)) = now.carriers().into_iter().find_map(|c| least(&now, c).map(|r| (c, r))) {
        plan.push(carrier as u16);
        plan.push(route.len() as u16);
        plan.extend(route.iter().map(|&w| w as u16));
        now = now.without(carrier);
    }
    (plan, now)
}

pub(crate) fn verdict(list: &[u32]) -> u32 {
    if list.is_empty() { 0 } else { 20 }
}

fn plan_by(rule: Rule, board: &Board) -> (Vec<u16>, Board) {
    match rule {
        Rule::HomeGate => plan_with(board, least_route),
        Rule::Older => plan_with(board, older_least_route),
    }
}

/// The carriers that the key names.
pub fn named(rule: Rule, board: &Board) -> Vec<u32> {
    plan_by(rule, board).1.carriers()
}

/// The key of a board in bytes with this room lent.
pub fn key(bytes: &[u8], plan_room: usize, list_room: usize) -> Key {
    key_by(Rule::HomeGate, bytes, plan_room, list_room)
}

/// The key by one of the two rules.
pub fn key_by(rule: Rule, bytes: &[u8], plan_room: usize, list_room: usize) -> Key {
    let refused = |verdict| Key { verdict, plan: Vec::new(), list: Vec::new(), searched: 0 };
    let board = match read(bytes) {
        Err(number) => return refused(number),
        Ok(board) => board,
    };
    let out = board.carriers().len();
    if plan_room < out * (2 + 2 * board.zones.len()) {
        return refused(10);
    }
    if list_room < out {
        return refused(11);
    }
    key_of(rule, &board)
}

/// The same of a board as it was read, with room enough.
pub fn key_of(rule: Rule, board: &Board) -> Key {
    let (plan, last) = plan_by(rule, board);
    let list = last.carriers();
    Key { verdict: verdict(&list), plan, list, searched: searched(&tries(rule, board)) }
}
