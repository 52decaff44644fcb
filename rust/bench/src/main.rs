//! Times the proved library against a Rust port of the same algorithm, a search that scans all words at each step, and the second
//! implementation, all in one run, and where one is linked against an older build of it. Prints nanoseconds a call and ratios; below 1 the
//! proved library is faster. Then times the examiner's tool on files of sheets.

#[cfg(before)]
mod before;
mod port;
mod sitting;

use compare::{boards::{self, Loops}, logs, random::Random, sheets};
use second::{Board, Key};
use std::hint::black_box;
use std::time::Instant;

/// Nanoseconds a call in each round, for each of several programs. In each round every program has its turn, so that a machine that slows
/// down for a while slows down all of them.
fn times<const N: usize>(rounds: usize, calls: usize, mut programs: [&mut dyn FnMut(); N]) -> [Vec<f64>; N] {
    let mut times = [const { Vec::new() }; N];
    for _ in 0..rounds {
        for (program, times) in programs.iter_mut().zip(&mut times) {
            let began = Instant::now();
            program();
            times.push(began.elapsed().as_nanos() as f64 / calls as f64);
        }
    }
    times
}

fn median(mut numbers: Vec<f64>) -> f64 {
    numbers.sort_by(f64::total_cmp);
    numbers[numbers.len() / 2]
}

/// The boards with every carrier renumbered to over 255, for which version 2 alone has room. The numbers' order stays, and so do the routes.
fn renumbered(boards: &[Board], number: impl Fn(u32) -> u32) -> Vec<Board> {
    let mut boards = boards.to_vec();
    for zone in boards.iter_mut().flat_map(|b| &mut b.zones).filter(|z| z.carrier != 0) {
        zone.carrier = number(zone.carrier);
    }
    boards
}

/// The library and the port, by both of its searches, give the same, before any of them is timed; the sheet is right.
fn agree(board: &[u8], sheet: &[u16]) {
    let rooms = || (vec![0u16; 96 * 194], vec![0u16; 96]);
    let (mut plan, mut list) = rooms();
    let key = nizkabel::key(board, &mut plan, &mut list);
    for scan in [false, true] {
        let (mut port_plan, mut port_list) = rooms();
        let port_key = port::key(board, &mut port_plan, &mut port_list, scan);
        assert_eq!((key.verdict, key.planned, key.listed, key.searched), port_key);
        assert_eq!((&plan, &list), (&port_plan, &port_list));
    }
    agree_on_collapse(board);
    assert_eq!((nizkabel::mark(board, sheet), port::mark(board, sheet)), (0, 0));
}

fn agree_on_collapse(board: &[u8]) {
    let (mut left, mut port_left) = (vec![0u16; 96], vec![0u16; 96]);
    let collapse = nizkabel::collapse(board, &mut left);
    assert_eq!(collapse.number, 0);
    assert_eq!((0, collapse.listed), port::collapse(board, &mut port_left));
    assert_eq!(left, port_left);
}

fn agree_on_replay(board: &[u8], log: &[u16]) {
    let (mut sheet, mut port_sheet) = ([1u32; 97], [1u32; 97]);
    let replay = nizkabel::replay(board, log, &mut sheet);
    assert_eq!((replay.number, replay.moves), (0, log.len() as u64 / 2));
    assert_eq!((replay.number, replay.moves), port::replay(board, log, &mut port_sheet));
    assert_eq!(sheet, port_sheet);
}

fn agree_on_write(board: &[u8], sheet: &[u32]) {
    let (mut copy, mut port_copy) = ([1u8; 487], [1u8; 487]);
    let write = nizkabel::write(board, sheet, &mut copy);
    assert_eq!((write.number, write.bytes), (0, board.len()));
    assert_eq!((write.number, write.bytes), port::write(board, sheet, &mut port_copy));
    assert_eq!(copy, port_copy);
}

fn group(name: &str, boards: &[Board], rounds: usize) {
    let bytes: Vec<Vec<u8>> = boards.iter().map(|b| b.bytes()).collect();
    let mut plan = vec![0u16; 96 * 194];
    let mut list = vec![0u16; 96];
    let keys: Vec<Key> = bytes.iter().map(|b| second::key(b, 96 * 194, 96)).collect();
    let sheets: Vec<Vec<u16>> = keys.iter().map(|key| if key.verdict == 0 { [&[0], &key.plan[..]].concat() } else { sheets::claim(&key.list) }).collect();
    let n = bytes.len();
    for (b, sheet) in bytes.iter().zip(&sheets) {
        agree(b, sheet);
    }
    let (mut plan2, mut list2, mut plan3, mut list3) = (plan.clone(), list.clone(), plan.clone(), list.clone());
    let [key, key_port, key_scan] = times(rounds, n, [
        &mut || bytes.iter().for_each(|b| { black_box(nizkabel::key(black_box(b), &mut plan, &mut list)); }),
        &mut || bytes.iter().for_each(|b| { black_box(port::key(black_box(b), &mut plan2, &mut list2, false)); }),
        &mut || bytes.iter().for_each(|b| { black_box(port::key(black_box(b), &mut plan3, &mut list3, true)); }),
    ]);
    let few = &bytes[..n.min(4)];
    let [key_second] = times(1, few.len(), [&mut || few.iter().for_each(|b| { black_box(second::key(black_box(b), 96 * 194, 96)); })]);
    row(name, "key", &key, &[("port", &key_port), ("scan", &key_scan), ("second", &key_second)]);
    collapses(name, &bytes, rounds);
    let pairs: Vec<(&Vec<u8>, &Vec<u16>)> = bytes.iter().zip(&sheets).collect();
    let [mark, mark_port] = times(10 * rounds, n, [
        &mut || pairs.iter().for_each(|(b, s)| { black_box(nizkabel::mark(black_box(b), s)); }),
        &mut || pairs.iter().for_each(|(b, s)| { black_box(port::mark(black_box(b), s)); }),
    ]);
    let [mark_second] = times(2, n, [&mut || pairs.iter().for_each(|(b, s)| { black_box(second::mark(black_box(b), s)); })]);
    row(name, "mark", &mark, &[("port", &mark_port), ("second", &mark_second)]);
    let logs: Vec<Vec<u16>> = keys.iter().map(|key| logs::of_plan(&key.plan).concat()).collect();
    replays(name, &bytes.iter().zip(&logs).collect::<Vec<_>>(), 10 * rounds);
    let positions: Vec<Vec<u32>> = boards.iter().map(|b| b.sheet()).collect();
    writes(name, &bytes.iter().zip(&positions).collect::<Vec<_>>(), 10 * rounds);
    #[cfg(before)]
    if bytes.iter().all(|b| b[2] == 1) {
        before::group(name, &pairs, rounds);
    }
}

/// The row of the collapse.
fn collapses(name: &str, bytes: &[Vec<u8>], rounds: usize) {
    let (mut list, mut list2) = (vec![0u16; 96], vec![0u16; 96]);
    let n = bytes.len();
    let [collapse, collapse_port] = times(10 * rounds, n, [
        &mut || bytes.iter().for_each(|b| { black_box(nizkabel::collapse(black_box(b), &mut list)); }),
        &mut || bytes.iter().for_each(|b| { black_box(port::collapse(black_box(b), &mut list2)); }),
    ]);
    let [collapse_second] = times(2, n, [&mut || bytes.iter().for_each(|b| { black_box(second::collapse(black_box(b), 96)); })]);
    row(name, "collapse", &collapse, &[("port", &collapse_port), ("second", &collapse_second)]);
}

/// The row of the replay, of logs that are carried out whole.
fn replays(name: &str, pairs: &[(&Vec<u8>, &Vec<u16>)], rounds: usize) {
    pairs.iter().for_each(|(b, log)| agree_on_replay(b, log));
    let (mut sheet, mut sheet2) = ([0u32; 96], [0u32; 96]);
    let [replay, replay_port] = times(rounds, pairs.len(), [
        &mut || pairs.iter().for_each(|(b, log)| { black_box(nizkabel::replay(black_box(b), log, &mut sheet)); }),
        &mut || pairs.iter().for_each(|(b, log)| { black_box(port::replay(black_box(b), log, &mut sheet2)); }),
    ]);
    let few = &pairs[..pairs.len().min(4)];
    let [replay_second] = times(1, few.len(), [&mut || few.iter().for_each(|(b, log)| { black_box(second::replay(black_box(b), log, 96)); })]);
    row(name, "replay", &replay, &[("port", &replay_port), ("second", &replay_second)]);
}

/// The row of the writer, of boards with their own positions.
fn writes(name: &str, pairs: &[(&Vec<u8>, &Vec<u32>)], rounds: usize) {
    pairs.iter().for_each(|(b, sheet)| agree_on_write(b, sheet));
    let (mut copy, mut copy2) = ([0u8; 486], [0u8; 486]);
    let [write, write_port] = times(rounds, pairs.len(), [
        &mut || pairs.iter().for_each(|(b, sheet)| { black_box(nizkabel::write(black_box(b), sheet, &mut copy)); }),
        &mut || pairs.iter().for_each(|(b, sheet)| { black_box(port::write(black_box(b), sheet, &mut copy2)); }),
    ]);
    let few = &pairs[..pairs.len().min(4)];
    let [write_second] = times(1, few.len(), [&mut || few.iter().for_each(|(b, sheet)| { black_box(second::write(black_box(b), sheet, 486)); })]);
    row(name, "write", &write, &[("port", &write_port), ("second", &write_second)]);
}

/// So many carriers out on 90 zones, and logs of 4,000 moves, so a move takes a 4,000th of the time. They go into home only where nothing else is
/// allowed, so nearly all stay out, and the look for a carrier's zone is long.
fn long_replays(random: &mut Random, out: usize) {
    let mut pairs = Vec::new();
    while pairs.len() < 20 {
        let full = boards::accepted(random, 40, 90, 1, Loops::None);
        let board = full.carriers()[out..].iter().fold(full.clone(), |board, &carrier| board.without(carrier));
        let log = logs::walk(random, &board, 4_000, usize::MAX);
        if log.len() == 4_000 {
            pairs.push((board.bytes(), log.concat()));
        }
    }
    replays(&format!("4000 by {out}"), &pairs.iter().map(|(board, log)| (board, log)).collect::<Vec<_>>(), 40);
}

/// One line: the median time, and the median over the rounds of its ratio to each other program's time in the same round. The second
/// implementation is timed apart, in few rounds on few boards: its ratio tells only the order of size.
fn row(name: &str, what: &str, ours: &[f64], others: &[(&str, &[f64])]) {
    let ratio = |others: &[f64]| median(ours.iter().zip(others).map(|(a, b)| a / b).collect());
    let ratios: Vec<String> = others.iter().map(|(who, times)| format!("{who} {:.3}", ratio(times))).collect();
    println!("{name:<10} {what:<9} {:>10.0} ns   {}", median(ours.to_vec()), ratios.join("   "));
}

/// The rows of the collapse on boards on which nothing else is timed.
fn collapses_alone(name: &str, bytes: &[Vec<u8>], rounds: usize) {
    bytes.iter().for_each(|b| agree_on_collapse(b));
    collapses(name, bytes, rounds);
    #[cfg(before)]
    before::collapses(name, &bytes.iter().collect::<Vec<_>>(), rounds);
}

/// A chain, named by its kind and its points. A call is short, so 200 are timed at once.
fn chain(name: &str, board: Board) {
    collapses_alone(&format!("{name} {}", board.points), &vec![board.bytes(); 200], 100);
}

fn main() {
    let mut random = Random::new(7);
    for (board, sheet, _, number) in second::document_02::at_gate() {
        assert_eq!((nizkabel::mark(&board, sheet), port::mark(&board, sheet)), (number, number));
    }
    for (board, log, room, number, moves, written) in second::document_02::replays() {
        let mut sheet = vec![0; room];
        assert_eq!(port::replay(&board, log, &mut sheet), (number, moves));
        assert!(sheet.starts_with(written));
    }
    for (board, sheet, room, number, written) in second::document_02::copies() {
        let mut copy = vec![0; room];
        assert_eq!(port::write(&board, sheet, &mut copy), (number, written.len()));
        assert!(copy.starts_with(&written));
    }
    println!("ratios of the proved library's time to each other one's");
    let small: Vec<Board> = (0..2000).map(|_| boards::accepted(&mut random, 4, 6, 3, Loops::None)).collect();
    let mut about_90_zones = |count, sparse, loops| -> Vec<Board> {
        (0..count).map(|_| boards::accepted(&mut random, 40, 90, sparse, loops)).filter(|b| b.zones.len() <= 96).collect()
    };
    let (large, full) = (about_90_zones(60, 4, Loops::None), about_90_zones(60, 1, Loops::None));
    group("small", &small, 100);
    group("large", &large, 100);
    group("full", &full, 100);
    group("worst", &vec![boards::worst(); 20], 40);
    group("loops", &about_90_zones(60, 4, Loops::OnceIn(2)), 100);
    // In version 2; on the last boards all carriers have one low byte.
    group("small 2", &renumbered(&small, |c| c + 256), 100);
    group("large 2", &renumbered(&large, |c| c + 256), 100);
    group("full 2", &renumbered(&full, |c| c + 256), 100);
    group("alike 2", &renumbered(&full, |c| c * 256), 100);
    // On the 60 boards above a collapse's time swings with where the code lies; it seems that the processor's branch predictor learns so few.
    for (name, sparse, loops) in [("large", 4, Loops::None), ("full", 1, Loops::None), ("loops", 4, Loops::OnceIn(2))] {
        let bytes: Vec<Vec<u8>> = about_90_zones(2800, sparse, loops).iter().map(|b| b.bytes()).collect();
        collapses_alone(&format!("many {name}"), &bytes, 10);
    }
    long_replays(&mut random, 45);
    long_replays(&mut random, 80);
    sitting::rows(&mut random);
    // Chains with one free part, one for each point, and one for every two points.
    for points in [8, 16, 32, 64] {
        chain("free", boards::chain(points, |_| false));
        chain("held", boards::chain(points, |_| true));
        chain("pairs", boards::chain(points, |z| z % 2 == 1));
    }
}
