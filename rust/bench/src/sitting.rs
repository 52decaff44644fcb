//! Times the examiner's tool on sittings: from the text of a file of sheets to the lines with marks, places and reasons. The goal is 10,000 sheets a
//! second on boards of 96 zones.

use crate::median;
use compare::boards::{self, Loops};
use compare::random::Random;
use compare::{sheets, texts};
use examiner::board::Board;
use examiner::candidates::candidates;
use examiner::marks::{marked, table, Marked};
use std::hint::black_box;
use std::time::Instant;

/// What a sitting's sheets are like.
#[derive(Clone, Copy)]
enum Kind {
    /// The key's plan.
    Right,
    Mistaken,
    /// All but the last carrier of the key go home.
    OneForgotten,
    /// Half of them do.
    HalfDone,
}

const KINDS: [(&str, Kind); 4] =
    [("right", Kind::Right), ("mistaken", Kind::Mistaken), ("forgotten", Kind::OneForgotten), ("half done", Kind::HalfDone)];

/// A sheet of this kind, from the plan of the board's key.
fn sheet(random: &mut Random, board: &second::Board, plan: &[u16], kind: Kind) -> Vec<u16> {
    let right = [&[0], plan].concat();
    let entries = sheets::entries(&right);
    match kind {
        Kind::Right => right,
        Kind::Mistaken => sheets::mistaken(random, board, &right),
        Kind::OneForgotten => right[..entries.last().copied().unwrap_or(1)].to_vec(),
        Kind::HalfDone => right[..entries.get(entries.len() / 2).copied().unwrap_or(1)].to_vec(),
    }
}

/// An ordered board with 96 zones, of which about one in so many is held.
fn ordered(random: &mut Random, sparse: usize) -> second::Board {
    loop {
        let board = boards::accepted(random, 40, 96, sparse, Loops::OnceIn(8));
        if board.zones.len() == 96 && nizkabel::key(&board.bytes(), &mut [0; nizkabel::PLAN_ROOM], &mut [0; nizkabel::LIST_ROOM]).verdict == 0 {
            return board;
        }
    }
}

/// A line for each kind on random boards, on the one that is long to search and on the one with long routes: the median over boards, and how many
/// sheets a second that is.
pub fn rows(random: &mut Random) {
    let drawn: Vec<second::Board> = (0..20).map(|round| ordered(random, 2 + round % 4)).collect();
    let alike = |board: second::Board| vec![board; 5];
    for (name, boards) in [("96 zones", drawn), ("worst", alike(boards::worst())), ("fan", alike(boards::fan()))] {
        for (kind_name, kind) in KINDS {
            let times: Vec<f64> = boards.iter().map(|board| time(random, board, kind)).collect();
            let slowest = times.iter().copied().fold(0.0, f64::max);
            let a_second = |time: f64| 1e9 / time;
            let (middle, least) = (median(times), a_second(slowest));
            println!("{name:<10} {kind_name:<9} {middle:>10.0} ns   sheets a second {:.0}, on the slowest board {least:.0}", a_second(middle));
        }
    }
}

/// Nanoseconds a sheet, of a file with 1,000 sheets.
fn time(random: &mut Random, board: &second::Board, kind: Kind) -> f64 {
    let (mut plan, mut list) = (vec![0; nizkabel::PLAN_ROOM], vec![0; nizkabel::LIST_ROOM]);
    let key = nizkabel::key(&board.bytes(), &mut plan, &mut list);
    plan.truncate(key.planned);
    let lines = |random: &mut Random| texts::sheet_lines(&sheet(random, board, &plan, kind)).expect("a sheet of whole entries").join("\n");
    let file: String = (0..1_000).map(|number| format!("candidate {number}\n{}\n", lines(random))).collect();
    let accepted = Board::accepted(&board.bytes()).expect("an accepted board");
    let began = Instant::now();
    let sheets = candidates("file", black_box(file.as_bytes()));
    let marks: Vec<Marked> = sheets.into_iter().map(|candidate| marked(&accepted, "file", candidate)).collect();
    black_box(table(&marks));
    began.elapsed().as_nanos() as f64 / marks.len() as f64
}
