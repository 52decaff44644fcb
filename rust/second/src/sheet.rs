//! The marker, from the table of document 01, with the home gate of document 02 or without it.

use crate::board::{read, Board, Rule};
use crate::collapse::left;
use crate::key::named;

/// The number of a sheet on a board in bytes.
pub fn mark(bytes: &[u8], sheet: &[u16]) -> u32 {
    mark_by(Rule::HomeGate, bytes, sheet)
}

/// The number by one of the two rules.
pub fn mark_by(rule: Rule, bytes: &[u8], sheet: &[u16]) -> u32 {
    let board = match read(bytes) {
        Err(number) => return number,
        Ok(board) => board,
    };
    match sheet.split_first() {
        Some((0, entries)) => mark_entries(rule, board, entries),
        Some((1, claim)) => mark_claim(rule, &board, claim),
        _ => 30,
    }
}

fn mark_claim(rule: Rule, board: &Board, claim: &[u16]) -> u32 {
    let truth = match rule {
        Rule::HomeGate => left(board),
        Rule::Older => named(rule, board),
    };
    let right = !truth.is_empty() && truth.len() == claim.len() && truth.iter().zip(claim).all(|(&t, &c)| t == c as u32);
    if right { 0 } else { 35 }
}

fn mark_entries(rule: Rule, mut board: Board, mut rest: &[u16]) -> u32 {
    while !rest.is_empty() {
        if rest.len() < 2 {
            return 30;
        }
        let (carrier, count) = (rest[0] as u32, rest[1] as usize);
        if count == 0 || rest.len() - 2 < count {
            return 30;
        }
        let route: Vec<usize> = rest[2..2 + count].iter().map(|&w| w as usize).collect();
        let Some(standing) = board.standing(carrier) else { return 31 };
        let inside = route.iter().all(|&w| w < board.words());
        if !inside || route[0] != standing || route.windows(2).any(|pair| !board.may_follow(carrier, pair[0], pair[1])) {
            return 32;
        }
        let arrives = route.iter().position(|&w| board.leaves_home(w));
        if rule == Rule::HomeGate && arrives.is_some_and(|at| at + 1 < count) {
            return 32;
        }
        if !board.leaves_home(route[count - 1]) {
            return 33;
        }
        board = board.without(carrier);
        rest = &rest[2 + count..];
    }
    if board.carriers().is_empty() { 0 } else { 34 }
}
