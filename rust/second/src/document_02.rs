//! Boards, sheets, move logs and positions of the requests of document 02 with what they give, for the tests of this implementation and of the
//! wrapper.

use crate::document_01::{far_loop, k, refused, t, turn, Row};
use crate::replay::HOME;

/// A board with home 0, so many points, and for each zone its bytes: four in version 1, five in version 2.
fn laid_out<const N: usize>(points: u8, zones: &[[u8; N]]) -> Vec<u8> {
    let said = (4 + N * zones.len()) as u16;
    let head = [N as u8 - 3, points, 0, zones.len() as u8];
    [&said.to_be_bytes()[..], &head, &zones.concat()].concat()
}

/// Carrier 5 heads for point 1, which has this zone too.
pub fn to_loop(last: [u8; 4]) -> Vec<u8> {
    laid_out(2, &[[0, 1, 5, 0], last])
}

/// Carrier 5 stands in a turning loop at home.
fn loop_at_home() -> Vec<u8> {
    laid_out(2, &[[0, 1, 0, 0], [0, 1, 0, 0], [0, 0, 5, 1]])
}

/// Request c: accepted boards with turning loops.
pub fn turning_loops() -> Vec<Row> {
    vec![
        (laid_out(2, &[[0, 1, 0, 0], [1, 1, 0, 0]]), 0, &[], &[]),
        (to_loop([1, 1, 0, 0]), 0, &[5, 3, 0, 2, 1], &[]),
        (to_loop([1, 1, 6, 0]), 20, &[], &[5, 6]),
        (to_loop([1, 1, 6, 1]), 20, &[], &[5, 6]),
        (laid_out(2, &[[0, 1, 5, 1], [1, 1, 6, 0]]), 0, &[5, 1, 1, 6, 2, 2, 1], &[]),
        (laid_out(2, &[[0, 1, 0, 0], [1, 1, 6, 0]]), 0, &[6, 2, 2, 1], &[]),
        (laid_out(2, &[[0, 1, 0, 0], [1, 1, 6, 1]]), 0, &[6, 2, 3, 1], &[]),
        (loop_at_home(), 0, &[5, 1, 5], &[]),
        (laid_out(2, &[[0, 1, 7, 0], [0, 1, 9, 0], [0, 0, 0, 0]]), 20, &[], &[7, 9]),
        (laid_out(2, &[[0, 1, 5, 0], [0, 1, 6, 0], [1, 1, 0, 0]]), 0, &[5, 3, 0, 4, 1, 6, 2, 2, 1], &[]),
        (laid_out(2, &[[0, 1, 5, 0], [1, 1, 6, 0], [1, 1, 0, 0]]), 0, &[5, 3, 0, 4, 1, 6, 2, 2, 1], &[]),
        (laid_out(3, &[[0, 1, 5, 0], [1, 2, 6, 0], [2, 2, 0, 0]]), 20, &[], &[5, 6]),
    ]
}

/// Request c: boards with turning loops, or with equal ends, that are turned back.
pub fn loops_refused() -> Vec<(Vec<u8>, u32)> {
    let last_of_t = |last| laid_out(2, &[[0, 1, 0, 0], last]);
    vec![
        (last_of_t([0, 0, 0, 0]), 8),
        (last_of_t([2, 2, 0, 0]), 6),
        (last_of_t([0, 0, 0, 1]), 6),
        (last_of_t([0, 0, 7, 2]), 6),
        (laid_out(2, &[[0, 0, 0, 0], [1, 1, 0, 0]]), 9),
    ]
}

/// Request c: sheets for `to_loop` with a free turning loop, and their marks.
pub const SHEETS_FOR_LOOP: [(&[u16], u32); 4] = [
    (&[0, 5, 4, 0, 2, 2, 1], 32),
    (&[0, 5, 4, 0, 2, 3, 1], 32),
    (&[0, 5, 3, 0, 3, 1], 0),
    (&[1, 5], 35),
];

/// Board T with carrier 7 heading for point 0, and this home.
fn toward_0(home: u8) -> Vec<u8> {
    let mut board = t([7, 1], [0, 0]);
    board[4] = home;
    board
}

/// Request d: boards and sheets with their marks by the older moving rule and with the home gate.
pub fn at_gate() -> Vec<(Vec<u8>, &'static [u16], u32, u32)> {
    vec![
        (k(), &[0, 7, 4, 0, 3, 0, 3], 0, 32),
        (toward_0(0), &[0, 7, 3, 1, 2, 1], 0, 32),
        (toward_0(0), &[0, 7, 2, 1, 2], 33, 32),
        (toward_0(0), &[0, 7, 1, 1], 0, 0),
        (loop_at_home(), &[0, 5, 3, 5, 0, 3], 0, 32),
        (toward_0(1), &[0, 7, 4, 1, 2, 1, 2], 0, 32),
        (toward_0(1), &[0, 7, 2, 1, 2], 0, 0),
    ]
}

/// Two free zones between home and point 1, then these.
fn beyond(points: u8, zones: &[[u8; 4]]) -> Vec<u8> {
    laid_out(points, &[&[[0, 1, 0, 0]; 2], zones].concat())
}

/// Request g: accepted boards on which carrier 5 heads for a point with another zone, free or held.
pub fn two_zones() -> Vec<Row> {
    vec![
        (beyond(3, &[[1, 2, 5, 0], [1, 2, 0, 0]]), 0, &[5, 3, 4, 7, 1], &[]),
        (beyond(3, &[[1, 2, 5, 0], [2, 2, 0, 0]]), 0, &[5, 4, 4, 6, 5, 1], &[]),
        (beyond(3, &[[1, 2, 5, 0], [1, 2, 6, 0]]), 20, &[], &[5, 6]),
        (beyond(3, &[[1, 2, 5, 0], [2, 2, 6, 0]]), 20, &[], &[5, 6]),
    ]
}

/// Request g: boards that are turned back; carrier 5 would be blocked alone.
pub fn one_blocked() -> Vec<(Vec<u8>, u32)> {
    vec![(beyond(3, &[[1, 2, 5, 0]]), 8), (beyond(4, &[[2, 3, 5, 0], [2, 3, 0, 0]]), 9)]
}

const FREE: (u16, u8) = (0, 0);

/// Board T in version 2 with these carriers and headings in its two zones.
pub fn wide_t(first: (u16, u8), second: (u16, u8)) -> Vec<u8> {
    let zone = |(carrier, heading): (u16, u8)| {
        let [high, low] = carrier.to_be_bytes();
        [0, 1, high, low, heading]
    };
    laid_out(2, &[zone(first), zone(second)])
}

/// So many zones with these ends, each with a carrier; those of version 2 have the highest numbers that there are.
fn all_held(version: u8, points: u8, zones: u8, heading: u8, ends: impl Fn(u8) -> (u8, u8)) -> Vec<u8> {
    let ends = (0..zones).map(|z| (z, ends(z)));
    match version {
        1 => laid_out(points, &ends.map(|(z, (a, b))| [a, b, z + 1, heading]).collect::<Vec<_>>()),
        _ => laid_out(points, &ends.map(|(z, (a, b))| [a, b, 255, 255 - z, heading]).collect::<Vec<_>>()),
    }
}

/// So many zones, two between each point and the next, each with a carrier.
pub fn held(version: u8, zones: u8, heading: u8) -> Vec<u8> {
    all_held(version, zones / 2 + 1, zones, heading, |z| (z / 2, z / 2 + 1))
}

/// 64 points in a ring and 96 zones, each with a carrier.
pub fn held_ring(version: u8, heading: u8) -> Vec<u8> {
    all_held(version, 64, 96, heading, |z| (z % 64, (z + 1) % 64))
}

/// Request i: accepted boards in version 2.
pub fn wide_carriers() -> Vec<Row> {
    vec![
        (wide_t(FREE, FREE), 0, &[], &[]),
        (vec![0, 14, 2, 2, 0, 2, 0, 1, 0, 7, 0, 0, 1, 0, 0, 0], 0, &[7, 2, 0, 3], &[]),
        (vec![0, 14, 2, 2, 0, 2, 0, 1, 1, 0, 0, 0, 1, 0, 0, 0], 0, &[256, 2, 0, 3], &[]),
        (wide_t((256, 1), FREE), 0, &[256, 1, 1], &[]),
        (wide_t((263, 0), FREE), 0, &[263, 2, 0, 3], &[]),
        (wide_t(FREE, (263, 1)), 0, &[263, 1, 3], &[]),
        (wide_t((65535, 0), FREE), 0, &[65535, 2, 0, 3], &[]),
        (wide_t((65535, 1), FREE), 0, &[65535, 1, 1], &[]),
        (wide_t((7, 0), (263, 0)), 20, &[], &[7, 263]),
        (wide_t((263, 0), (7, 0)), 20, &[], &[7, 263]),
        (wide_t((7, 0), (263, 1)), 0, &[263, 1, 3, 7, 2, 0, 3], &[]),
        (wide_t((263, 1), (7, 1)), 0, &[7, 1, 3, 263, 1, 1], &[]),
        (wide_t((256, 1), (255, 1)), 0, &[255, 1, 3, 256, 1, 1], &[]),
        (wide_t((65535, 0), (256, 0)), 20, &[], &[256, 65535]),
        (laid_out(2, &[[0, 1, 2, 7, 1], [0, 1, 1, 7, 1], [0, 1, 0, 7, 1]]), 0, &[7, 1, 5, 263, 1, 3, 519, 1, 1], &[]),
        (laid_out(2, &[[0, 1, 1, 5, 0], [1, 1, 0, 0, 0]]), 0, &[261, 3, 0, 2, 1], &[]),
    ]
}

/// Request i: boards of either version, or of neither, that are turned back.
pub fn versions_refused() -> Vec<(Vec<u8>, u32)> {
    let with = |at: usize, byte: u8, mut board: Vec<u8>| {
        board[at] = byte;
        board
    };
    let (t, wide) = (t([0, 0], [0, 0]), wide_t(FREE, FREE));
    vec![
        (with(2, 0, t.clone()), 3),
        (with(2, 3, wide.clone()), 3),
        (with(2, 0, wide.clone()), 3),
        (with(3, 0, with(2, 3, t.clone())), 3),
        (with(3, 0, with(2, 2, t.clone())), 4),
        (with(3, 0, wide.clone()), 4),
        (held(2, 97, 0), 4),
        (with(2, 2, t), 5),
        (with(2, 1, wide.clone()), 5),
        (with(5, 3, wide), 5),
        (vec![0, 4, 2, 2, 0, 2], 5),
        (wide_t((0, 1), FREE), 6),
        (wide_t((256, 2), FREE), 6),
        (laid_out(2, &[[0, 1, 0, 0, 0], [0, 2, 0, 0, 0]]), 6),
        (wide_t((7, 0), (7, 0)), 7),
        (wide_t((256, 0), (256, 1)), 7),
        (wide_t((263, 0), (263, 0)), 7),
        (wide_t((65535, 1), (65535, 0)), 7),
        (laid_out(2, &[[0, 1, 1, 7, 0], [0, 1, 0, 7, 0], [0, 1, 1, 7, 0]]), 7),
        (laid_out(3, &[[0, 1, 0, 0, 0], [0, 1, 0, 0, 0], [1, 2, 1, 7, 0]]), 8),
        (laid_out(4, &[[0, 1, 0, 0, 0], [0, 1, 0, 0, 0], [2, 3, 1, 7, 0], [2, 3, 0, 0, 0]]), 9),
    ]
}

/// Request i: boards in version 2 and sheets with their marks.
pub fn wide_sheets() -> Vec<(Vec<u8>, &'static [u16], u32)> {
    let k_with = |carrier| wide_t((carrier, 0), FREE);
    let (blocked, one_out) = (wide_t((7, 0), (263, 0)), wide_t((7, 0), (263, 1)));
    vec![
        (k_with(263), &[0, 263, 2, 0, 3], 0),
        (k_with(263), &[0, 7, 2, 0, 3], 31),
        (k_with(7), &[0, 263, 2, 0, 3], 31),
        (k_with(263), &[0, 263, 2, 0, 2], 32),
        (k_with(263), &[0, 263, 1, 0], 33),
        (k_with(263), &[0], 34),
        (k_with(263), &[1, 263], 35),
        (k_with(65535), &[0, 65535, 2, 0, 3], 0),
        (k_with(65535), &[0, 255, 2, 0, 3], 31),
        (one_out.clone(), &[0, 263, 1, 3, 7, 2, 0, 3], 0),
        (one_out, &[0, 7, 2, 0, 3], 32),
        (blocked.clone(), &[1, 7, 263], 0),
        (blocked.clone(), &[1, 7, 7], 35),
        (blocked.clone(), &[1, 263, 7], 35),
        (blocked, &[1, 7], 35),
    ]
}

/// Carrier 5 can go home straight on, or run on into a loop.
fn beside_a_loop() -> Vec<u8> {
    laid_out(3, &[[0, 1, 5, 0], [0, 1, 0, 0], [1, 2, 0, 0], [1, 2, 0, 0]])
}

/// The far loop with a fifth zone, a turning loop at home where carrier 9 stands.
fn far_loop_with_9() -> Vec<u8> {
    laid_out(4, &[[0, 1, 5, 0], [1, 2, 6, 0], [2, 3, 0, 0], [2, 3, 0, 0], [0, 0, 9, 0]])
}

/// Request j: accepted boards on which a search goes on past an arrival, or others are tried again in vain once a carrier is home.
pub fn searches() -> Vec<Row> {
    vec![(beside_a_loop(), 0, &[5, 2, 0, 3], &[]), (far_loop_with_9(), 20, &[9, 1, 8], &[5, 6])]
}

/// A board with its search count, and for each try in turn the carrier and the words that it reaches.
pub type Searched = (Vec<u8>, u32, &'static [(u32, &'static [usize])]);

/// Request j: what the key's tries reach. On the last board a turning loop is held, and entering it again straight after itself would reach a
/// word more.
pub fn searched() -> Vec<Searched> {
    vec![
        (t([0, 0], [0, 0]), 0, &[]),
        (k(), 2, &[(7, &[0, 3])]),
        (t([7, 1], [9, 1]), 2, &[(7, &[1]), (9, &[3])]),
        (t([7, 0], [9, 1]), 4, &[(7, &[0]), (9, &[3]), (7, &[0, 3])]),
        (t([7, 0], [9, 0]), 2, &[(7, &[0]), (9, &[2])]),
        (turn(0, 0), 6, &[(5, &[0, 1, 2, 3, 4, 5])]),
        (turn(6, 1), 4, &[(5, &[0, 4]), (6, &[3, 4])]),
        (far_loop(), 7, &[(5, &[0]), (6, &[2, 3, 4, 5, 6, 7])]),
        (to_loop([1, 1, 0, 0]), 4, &[(5, &[0, 1, 2, 3])]),
        (beside_a_loop(), 7, &[(5, &[0, 1, 3, 4, 5, 6, 7])]),
        (far_loop_with_9(), 15, &[(5, &[0]), (6, &[2, 3, 4, 5, 6, 7]), (9, &[8]), (5, &[0]), (6, &[2, 3, 4, 5, 6, 7])]),
        (to_loop([1, 1, 6, 0]), 2, &[(5, &[0]), (6, &[2])]),
    ]
}

/// A board, a log and so many words lent for the position sheet; the number, the count of moves done, and the words written.
pub type Replayed = (Vec<u8>, &'static [u16], usize, u32, u64, &'static [u32]);

/// Request a: replays. Those of bad boards have an odd log and no word lent, so 1 to 9 are seen to come first.
pub fn replays() -> Vec<Replayed> {
    let k_263 = || wide_t((263, 0), FREE);
    let mut rows: Vec<Replayed> = vec![
        (k(), &[7, 3, 7, HOME], 2, 0, 2, &[0, 0]),
        (k(), &[7, 3], 2, 0, 1, &[0, 15]),
        (k(), &[], 2, 0, 0, &[14, 0]),
        (k(), &[7, HOME], 2, 38, 0, &[14, 0]),
        (k(), &[7, 3, 7, 0], 2, 38, 1, &[0, 15]),
        (k(), &[7, 3, 8, HOME, 7, HOME], 2, 38, 1, &[0, 15]),
        (k(), &[7, 3, 7, HOME, 7, HOME], 3, 38, 2, &[0, 0]),
        (k(), &[0, 3], 2, 38, 0, &[14, 0]),
        (k(), &[0, HOME], 2, 38, 0, &[14, 0]),
        (k(), &[263, 3], 2, 38, 0, &[14, 0]),
        (k(), &[7, 1], 2, 38, 0, &[14, 0]),
        (k(), &[7, 0], 2, 38, 0, &[14, 0]),
        (k(), &[7, 2], 2, 38, 0, &[14, 0]),
        (k(), &[7, 4], 2, 38, 0, &[14, 0]),
        (k(), &[7, 65_534], 2, 38, 0, &[14, 0]),
        (k(), &[7], 2, 37, 0, &[]),
        (k(), &[7, 3, 7], 2, 37, 0, &[]),
        (k(), &[7], 1, 36, 0, &[]),
        (k(), &[7, 3], 1, 36, 0, &[]),
        (k(), &[], 0, 36, 0, &[]),
        (k(), &[7, 3], 3, 0, 1, &[0, 15]),
        (k(), &[7, 3, 7, 0], 3, 38, 1, &[0, 15]),
        (t([0, 0], [0, 0]), &[], 2, 0, 0, &[0, 0]),
        (t([0, 0], [0, 0]), &[0, 0], 2, 38, 0, &[0, 0]),
        (t([7, 0], [9, 1]), &[7, 3], 2, 38, 0, &[14, 19]),
        (t([7, 0], [9, 1]), &[9, HOME, 7, 3], 2, 0, 2, &[0, 15]),
        (turn(6, 1), &[5, 4, 6, 1, 6, HOME, 5, 3, 5, 1, 5, HOME], 3, 0, 6, &[0, 0, 0]),
        (turn(6, 1), &[5, 4, 6, 1, 6, HOME, 5, 3], 3, 0, 4, &[0, 11, 0]),
        (toward_0(0), &[7, 2], 2, 38, 0, &[15, 0]),
        (toward_0(0), &[7, HOME], 2, 0, 1, &[0, 0]),
        (toward_0(1), &[7, HOME], 2, 38, 0, &[15, 0]),
        (toward_0(1), &[7, 2, 7, HOME], 2, 0, 2, &[0, 0]),
        (k_263(), &[263, 3], 2, 0, 1, &[0, 527]),
        (k_263(), &[7, 3], 2, 38, 0, &[526, 0]),
        (wide_t((65_535, 0), FREE), &[65_535, 3], 2, 0, 1, &[0, 131_071]),
        (wide_t((65_535, 0), FREE), &[65_535, 3, 65_535, HOME], 2, 0, 2, &[0, 0]),
        (to_loop([1, 1, 0, 0]), &[5, 2, 5, 1, 5, HOME], 2, 0, 3, &[0, 0]),
        (to_loop([1, 1, 0, 0]), &[5, 3], 2, 0, 1, &[0, 11]),
        (to_loop([1, 1, 0, 0]), &[5, 2, 5, 3], 2, 38, 1, &[0, 10]),
        (to_loop([1, 1, 0, 0]), &[5, 2, 5, 2], 2, 38, 1, &[0, 10]),
        (loop_at_home(), &[5, 0], 3, 38, 0, &[0, 0, 11]),
        (loop_at_home(), &[5, HOME], 3, 0, 1, &[0, 0, 0]),
    ];
    rows.extend((1..).zip(refused()).map(|(number, board)| -> Replayed { (board, &[7], 0, number, 0, &[]) }));
    rows
}

/// Request a: long logs on the turn, with the number, the count of moves done and the words written. Carrier 5 goes round the loop many times, two
/// moves each time, and then stays, or goes into home in vain or into a word; the last count is more than 16 bits hold.
pub fn long_replays() -> [(Vec<u16>, u32, u64, [u32; 3]); 4] {
    let rounds = |times: usize, last: &[u16]| [&[5, 2, 5, 5].repeat(times)[..], last].concat();
    [
        (rounds(5_000, &[]), 0, 10_000, [0, 0, 11]),
        (rounds(5_000, &[5, 1]), 0, 10_001, [11, 0, 0]),
        (rounds(5_000, &[5, HOME]), 38, 10_000, [0, 0, 11]),
        (rounds(40_000, &[5, 2]), 0, 80_001, [0, 10, 0]),
    ]
}

/// A board, a position sheet and so many bytes lent for the copy; the number, and the bytes written.
pub type Copied = (Vec<u8>, &'static [u32], usize, u32, Vec<u8>);

/// Request b: fair copies. Those of bad boards have a sheet of one word and no byte lent, so 1 to 9 are seen to come before 39.
pub fn copies() -> Vec<Copied> {
    let t_free = || t([0, 0], [0, 0]);
    let k_with = |carrier| wide_t((carrier, 0), FREE);
    let mut rows: Vec<Copied> = vec![
        (t_free(), &[0, 0], 14, 0, t_free()),
        (k(), &[14, 0], 14, 0, k()),
        (t_free(), &[14, 0], 14, 0, k()),
        (k(), &[0, 0], 14, 0, t_free()),
        (k(), &[0, 15], 14, 0, t([0, 0], [7, 1])),
        (t([7, 0], [9, 1]), &[14, 19], 14, 0, t([7, 0], [9, 1])),
        (t([7, 0], [9, 1]), &[19, 14], 14, 0, t([9, 1], [7, 0])),
        (wide_t(FREE, FREE), &[0, 0], 14, 0, t_free()),
        (k_with(7), &[14, 0], 14, 0, k()),
        (t_free(), &[526, 0], 16, 0, k_with(263)),
        (k_with(263), &[526, 0], 16, 0, k_with(263)),
        (k_with(263), &[14, 0], 14, 0, k()),
        (t_free(), &[14, 526], 16, 0, wide_t((7, 0), (263, 0))),
        (t_free(), &[511, 0], 14, 0, t([255, 1], [0, 0])),
        (t_free(), &[512, 0], 16, 0, k_with(256)),
        (t_free(), &[513, 511], 16, 0, wide_t((256, 1), (255, 1))),
        (t_free(), &[131_071, 0], 16, 0, wide_t((65_535, 1), FREE)),
        (turn(6, 1), &[0, 11, 0], 18, 0, laid_out(3, &[[0, 1, 0, 0], [1, 2, 5, 1], [1, 2, 0, 0]])),
        (to_loop([1, 1, 0, 0]), &[0, 11], 14, 0, laid_out(2, &[[0, 1, 0, 0], [1, 1, 5, 1]])),
        (loop_at_home(), &[0, 0, 11], 18, 0, loop_at_home()),
        (toward_0(1), &[15, 0], 14, 0, toward_0(1)),
        (t_free(), &[14, 0], 20, 0, k()),
        (t_free(), &[526, 0], 20, 0, k_with(263)),
        (t_free(), &[131_072, 0], 16, 39, vec![]),
        (t_free(), &[0, u32::MAX], 16, 39, vec![]),
        (t_free(), &[14, 0, 0], 16, 39, vec![]),
        (t_free(), &[14], 16, 39, vec![]),
        (t_free(), &[], 16, 39, vec![]),
        (k(), &[14, 0], 13, 39, vec![]),
        (k(), &[14, 0], 0, 39, vec![]),
        (t_free(), &[526, 0], 15, 39, vec![]),
        (t_free(), &[526, 0], 14, 39, vec![]),
        (t_free(), &[131_072, 1], 16, 39, vec![]),
        (t_free(), &[1, 131_072], 16, 39, vec![]),
        (t_free(), &[1, 0], 13, 39, vec![]),
        (t_free(), &[1], 14, 39, vec![]),
        (t_free(), &[1, 0, 0], 14, 39, vec![]),
        (t_free(), &[14, 14], 13, 39, vec![]),
        (t_free(), &[14, 14, 0], 14, 39, vec![]),
        (turn(0, 0), &[14, 14, 131_072], 21, 39, vec![]),
        (t_free(), &[1, 0], 14, 6, vec![]),
        (k(), &[14, 1], 14, 6, vec![]),
        (turn(0, 0), &[1, 14, 14], 18, 6, vec![]),
        (turn(0, 0), &[14, 14, 1], 18, 6, vec![]),
        (t_free(), &[14, 15], 14, 7, vec![]),
        (t_free(), &[14, 14], 14, 7, vec![]),
        (t_free(), &[526, 527], 16, 7, vec![]),
        (turn(0, 0), &[131_071, 14, 131_070], 21, 7, vec![]),
    ];
    rows.extend((1..).zip(refused()).map(|(number, board)| -> Copied { (board, &[1], 0, number, vec![]) }));
    rows
}
