//! Small boards by exhaustion: every way, every route, every order, every position that single moves reach.

use crate::board::{Board, Rule};
use crate::key::{plan_with, verdict, Key};
use crate::replay::Position;
use crate::searched::{searched, tries_with};
use std::collections::{BTreeSet, HashSet};

/// Shows every way of a carrier from its standing that passes no word twice. With the home gate none goes on from a word that leaves at home.
fn each_way(rule: Rule, board: &Board, carrier: u32, show: &mut impl FnMut(&[usize])) {
    fn go(rule: Rule, board: &Board, carrier: u32, path: &mut Vec<usize>, show: &mut impl FnMut(&[usize])) {
        show(path);
        let last = *path.last().unwrap();
        if rule == Rule::HomeGate && board.leaves_home(last) {
            return;
        }
        for v in 0..board.words() {
            if !path.contains(&v) && board.may_follow(carrier, last, v) {
                path.push(v);
                go(rule, board, carrier, path, show);
                path.pop();
            }
        }
    }
    if let Some(word) = board.standing(carrier) {
        go(rule, board, carrier, &mut vec![word], show);
    }
}

/// Every route of a carrier that passes no word twice; the least route is among them. With the home gate each ends where it first leaves at home.
pub fn routes(rule: Rule, board: &Board, carrier: u32) -> Vec<Vec<usize>> {
    let mut all = Vec::new();
    each_way(rule, board, carrier, &mut |way| {
        if board.leaves_home(way[way.len() - 1]) {
            all.push(way.to_vec());
        }
    });
    all
}

/// The words on all ways of a carrier. A word that can be reached is on a way that passes no word twice.
fn reached(rule: Rule, board: &Board, carrier: u32) -> Vec<usize> {
    let mut words = BTreeSet::new();
    each_way(rule, board, carrier, &mut |way| words.extend(way));
    words.into_iter().collect()
}

fn least(rule: Rule, board: &Board, carrier: u32) -> Option<Vec<usize>> {
    routes(rule, board, carrier).into_iter().min_by(|a, b| a.len().cmp(&b.len()).then_with(|| a.cmp(b)))
}

fn can_go(rule: Rule, board: &Board, carrier: u32) -> bool {
    !routes(rule, board, carrier).is_empty()
}

/// Whether some order of all carriers gives each a route, all orders tried.
fn ordered_by_permutation(rule: Rule, board: &Board) -> bool {
    let out = board.carriers();
    out.is_empty() || out.into_iter().any(|c| can_go(rule, board, c) && ordered_by_permutation(rule, &board.without(c)))
}

pub struct Outcome {
    pub key: Key,
    pub ordered: bool,
}

/// The key with every way and route enumerated, the blocked carriers as those in no sequence of retirements.
pub fn key_by_enumeration(rule: Rule, board: &Board) -> Outcome {
    fn gone(rule: Rule, board: &Board, seen: &mut HashSet<Vec<u32>>, ever: &mut HashSet<u32>) {
        if !seen.insert(board.carriers()) {
            return;
        }
        for c in board.carriers() {
            if can_go(rule, board, c) {
                ever.insert(c);
                gone(rule, &board.without(c), seen, ever);
            }
        }
    }
    let mut ever = HashSet::new();
    gone(rule, board, &mut HashSet::new(), &mut ever);
    let list: Vec<u32> = board.carriers().into_iter().filter(|c| !ever.contains(c)).collect();
    let (plan, _) = plan_with(board, |b, c| least(rule, b, c));
    let searched = searched(&tries_with(board, |b, c| reached(rule, b, c)));
    Outcome { ordered: ordered_by_permutation(rule, board), key: Key { verdict: verdict(&list), plan, list, searched } }
}

/// Whether in every position that single moves reach each of these carriers stands where it stood. Every position is visited.
pub fn all_positions_keep(board: &Board, carriers: &[u32]) -> bool {
    let first = Position::first(board);
    let mut seen: HashSet<Position> = HashSet::from([first.clone()]);
    let mut work = vec![first.clone()];
    while let Some(now) = work.pop() {
        if carriers.iter().any(|&c| now.standing(c) != first.standing(c)) {
            return false;
        }
        for next in now.moves(board) {
            let left = now.clone().after(next);
            if seen.insert(left.clone()) {
                work.push(left);
            }
        }
    }
    true
}
