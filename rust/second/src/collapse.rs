//! What the collapse leaves, by reachability: a free part holds a loop where deleting dead ends leaves a zone or where it has a turning
//! loop, and home's set is the closure of the home point under free zones, joined zones and held zones that lead in.

use crate::board::{read, Board, Zone};

/// The points linked to a point over free zones.
fn part(board: &Board, from: usize) -> Vec<bool> {
    let mut inside = vec![false; board.points];
    let mut work = vec![from];
    while let Some(p) = work.pop() {
        if !std::mem::replace(&mut inside[p], true) {
            for z in board.zones.iter().filter(|z| z.carrier == 0) {
                if z.a == p {
                    work.push(z.b);
                }
                if z.b == p {
                    work.push(z.a);
                }
            }
        }
    }
    inside
}

/// Whether the free part of a point holds a loop: it has a turning loop, or zones with an end that no other free zone touches are deleted
/// until none is left to delete, and some zone stays.
fn holds_loop(board: &Board, from: usize) -> bool {
    let inside = part(board, from);
    let mut zones: Vec<&Zone> = board.zones.iter().filter(|z| z.carrier == 0 && inside[z.a]).collect();
    if zones.iter().any(|z| z.is_loop()) {
        return true;
    }
    loop {
        let touching = |p: usize| zones.iter().filter(|z| z.a == p || z.b == p).count();
        let kept: Vec<&Zone> = zones.iter().copied().filter(|z| touching(z.a) > 1 && touching(z.b) > 1).collect();
        if kept.len() == zones.len() {
            return !kept.is_empty();
        }
        zones = kept;
    }
}

/// The carriers that the collapse leaves, ascending.
pub fn left(board: &Board) -> Vec<u32> {
    let mut home = vec![false; board.points];
    home[board.home] = true;
    let both_ways: Vec<bool> = (0..board.zones.len())
        .map(|z| {
            let zone = &board.zones[z];
            zone.carrier == 0 || holds_loop(board, board.leave(2 * z + zone.heading as usize))
        })
        .collect();
    loop {
        let before = home.clone();
        for (z, zone) in board.zones.iter().enumerate() {
            let word = 2 * z + zone.heading as usize;
            if home[board.leave(word)] {
                home[board.start(word)] = true;
            }
            if both_ways[z] && home[board.start(word)] {
                home[board.leave(word)] = true;
            }
        }
        if home == before {
            break;
        }
    }
    board.carriers().into_iter().filter(|&c| !home[board.leave(board.standing(c).unwrap())]).collect()
}

/// The collapse of a board in bytes: its number and what it writes.
pub fn collapse(bytes: &[u8], list_room: usize) -> (u32, Vec<u32>) {
    match read(bytes) {
        Err(number) => (number, Vec::new()),
        Ok(board) if list_room < board.carriers().len() => (11, Vec::new()),
        Ok(board) => (0, left(&board)),
    }
}
