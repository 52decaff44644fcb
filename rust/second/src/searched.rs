//! The search count: how many words the carriers that the key tries reach, by a fixpoint over a set of words.

use crate::board::{Board, Rule};
use crate::key::next_words;

/// A carrier that the key tries, and the words that it reaches from its standing while the others stand still, ascending.
#[derive(Clone, Debug, PartialEq, Eq)]
pub struct Try {
    pub carrier: u32,
    pub reached: Vec<usize>,
}

/// The least set of words that has the carrier's standing and, with each word, those that it may go on by.
fn reached(rule: Rule, board: &Board, carrier: u32) -> Vec<usize> {
    let follow = next_words(rule, board, carrier);
    let mut inside = vec![false; board.words()];
    board.standing(carrier).into_iter().for_each(|w| inside[w] = true);
    loop {
        let before = inside.clone();
        for w in 0..board.words() {
            if inside[w] {
                follow[w].iter().for_each(|&v| inside[v] = true);
            }
        }
        if inside == before {
            return (0..board.words()).filter(|&w| inside[w]).collect();
        }
    }
}

/// The tries of the key one after another: in each round the lowest-numbered first, up to the one that can go, and in the last all that are left.
pub(crate) fn tries_with(board: &Board, reached: impl Fn(&Board, u32) -> Vec<usize>) -> Vec<Try> {
    let mut now = board.clone();
    let mut tries = Vec::new();
    loop {
        let gone = now.carriers().into_iter().find(|&carrier| {
            let reached = reached(&now, carrier);
            let arrives = reached.iter().any(|&w| now.leaves_home(w));
            tries.push(Try { carrier, reached });
            arrives
        });
        let Some(carrier) = gone else { return tries };
        now = now.without(carrier);
    }
}

/// The tries of the key by one of the two rules.
pub fn tries(rule: Rule, board: &Board) -> Vec<Try> {
    tries_with(board, |b, c| reached(rule, b, c))
}

/// How many words these tries reach, those of each try for themselves.
pub(crate) fn searched(tries: &[Try]) -> u32 {
    tries.iter().map(|tried| tried.reached.len() as u32).sum()
}
