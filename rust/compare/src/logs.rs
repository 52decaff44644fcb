//! Move logs for a board: walks of moves that the rules allow, the moves of a plan, spoilt, shuffled and random ones.

use crate::boards::shuffle;
use crate::random::Random;
use second::{Board, Move, Position, HOME};

/// At most so many moves, each drawn from all that the rules allow after those before it. While another is allowed, a carrier that could go into
/// home does so once in `arrivals` times only.
pub fn walk(random: &mut Random, board: &Board, most: usize, arrivals: usize) -> Vec<Move> {
    let mut position = Position::first(board);
    let mut log = Vec::new();
    while log.len() < most {
        let (home, into): (Vec<Move>, Vec<Move>) = position.moves(board).into_iter().partition(|&[_, word]| word == HOME);
        let arrives = into.is_empty() || (!home.is_empty() && random.once_in(arrivals));
        let allowed = if arrives { home } else { into };
        let Some(&next) = allowed.get(random.below(allowed.len().max(1))) else { break };
        position = position.after(next);
        log.push(next);
    }
    log
}

/// The moves of a plan: each carrier goes into the words of its route after the first, then home.
pub fn of_plan(plan: &[u16]) -> Vec<Move> {
    let mut log = Vec::new();
    let mut rest = plan;
    while let [carrier, count, words @ ..] = rest {
        let (route, next) = words.split_at(usize::from(*count));
        log.extend(route[1..].iter().chain([&HOME]).map(|&word| [*carrier, word]));
        rest = next;
    }
    log
}

/// A move into some word, of a carrier that is out on the board or, once in a while, of any number.
fn any_move(random: &mut Random, board: &Board) -> Move {
    let out = board.carriers();
    let carrier = out.get(random.below(out.len() + 1)).map_or(random.next() as u16, |&c| c as u16);
    [carrier, random.below(board.words()) as u16]
}

/// A log with one of its moves changed, taken out, repeated or put off.
pub fn spoilt(random: &mut Random, board: &Board, log: &[Move]) -> Vec<Move> {
    let mut log = log.to_vec();
    if log.is_empty() {
        return vec![any_move(random, board)];
    }
    let at = random.below(log.len());
    let [carrier, word] = &mut log[at];
    match random.below(16) {
        0 => *carrier = 0,
        1 => *carrier = random.next() as u16,
        2 | 3 => *carrier = any_move(random, board)[0],
        // The same low byte.
        4 => *carrier = carrier.wrapping_add(256 * (1 + random.below(3) as u16)),
        5 => *word = word.wrapping_add(1),
        6 => *word = word.wrapping_sub(1),
        7 => *word ^= 1,
        8 | 9 => *word = random.below(board.words()) as u16,
        10 => *word = board.words() as u16,
        11 => *word = HOME - 1,
        12 => *word = HOME,
        13 => drop(log.remove(at)),
        14 => log.insert(at, log[at]),
        _ => log[at..].rotate_left(1),
    }
    log
}

/// The same moves in another order.
pub fn shuffled(random: &mut Random, log: &[Move]) -> Vec<Move> {
    let mut log = log.to_vec();
    shuffle(random, &mut log);
    log
}

/// A few moves of any kind.
pub fn noise(random: &mut Random, board: &Board) -> Vec<Move> {
    let moves = random.below(7);
    (0..moves).map(|_| if random.once_in(4) { [random.next() as u16, random.next() as u16] } else { any_move(random, board) }).collect()
}
