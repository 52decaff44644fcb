//! The replay of a move log. A position says where each carrier stands; all moves that the rules allow in it are listed, and the log's next move
//! is looked for among them.

use crate::board::{read, Board};
use std::collections::BTreeMap;

/// What a move has in the place of a word where it goes into home.
pub const HOME: u16 = 65_535;

/// A carrier, and the word that it goes into, or `HOME`.
pub type Move = [u16; 2];

/// The word that each carrier out stands in.
#[derive(Clone, Debug, PartialEq, Eq, Hash)]
pub struct Position(BTreeMap<u32, usize>);

impl Position {
    /// The board's first position.
    pub fn first(board: &Board) -> Position {
        Position(board.carriers().into_iter().filter_map(|c| Some((c, board.standing(c)?))).collect())
    }

    pub fn standing(&self, carrier: u32) -> Option<usize> {
        self.0.get(&carrier).copied()
    }

    /// Every move that the rules allow. At the home gate a carrier goes only into home.
    pub fn moves(&self, board: &Board) -> Vec<Move> {
        let mut free = vec![true; board.zones.len()];
        self.0.values().for_each(|w| free[w / 2] = false);
        let free: Vec<usize> = (0..board.words()).filter(|v| free[v / 2]).collect();
        let mut moves = Vec::new();
        for (&carrier, &w) in &self.0 {
            if board.leaves_home(w) {
                moves.push([carrier as u16, HOME]);
            } else {
                moves.extend(free.iter().filter(|&&v| board.start(v) == board.leave(w)).map(|&v| [carrier as u16, v as u16]));
            }
        }
        moves
    }

    /// The position that an allowed move leaves.
    pub fn after(mut self, [carrier, word]: Move) -> Position {
        self.0.remove(&carrier.into());
        if word != HOME {
            self.0.insert(carrier.into(), word.into());
        }
        self
    }

    /// For each of so many zones 0, or 2 × carrier + heading.
    pub fn sheet(&self, zones: usize) -> Vec<u32> {
        let mut sheet = vec![0; zones];
        self.0.iter().for_each(|(carrier, w)| sheet[w / 2] = 2 * carrier + (w % 2) as u32);
        sheet
    }
}

/// What a replay gives: its number, the count of moves done, and the words that it writes from the start of the position sheet.
#[derive(Clone, Debug, PartialEq, Eq)]
pub struct Replay {
    pub number: u32,
    pub moves: u64,
    pub sheet: Vec<u32>,
}

/// The replay of a log on a board in bytes, with so many words lent for the position sheet.
pub fn replay(bytes: &[u8], log: &[u16], sheet_room: usize) -> Replay {
    let refused = |number| Replay { number, moves: 0, sheet: Vec::new() };
    let board = match read(bytes) {
        Err(number) => return refused(number),
        Ok(board) => board,
    };
    if sheet_room < board.zones.len() {
        return refused(36);
    }
    if log.len() % 2 == 1 {
        return refused(37);
    }
    let mut position = Position::first(&board);
    let (mut number, mut moves) = (0, 0);
    for pair in log.chunks(2) {
        let next = [pair[0], pair[1]];
        if !position.moves(&board).contains(&next) {
            number = 38;
            break;
        }
        position = position.after(next);
        moves += 1;
    }
    Replay { number, moves, sheet: position.sheet(board.zones.len()) }
}
