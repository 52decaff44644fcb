//! What is wrong with sheets and boards, and where, worked out by hand from the rules; and at random, against the marker and the reader.

use second::document_01::{far_loop, k, refused, starred, t, turn, SHEETS_FOR_K};
use second::document_02::{at_gate, loops_refused, one_blocked, to_loop, turning_loops, two_zones, versions_refused, SHEETS_FOR_LOOP};
use second::document_02::{wide_carriers, wide_sheets, wide_t};
use second::Reason::{self, *};
use second::Wrong::{self, *};
use second::{fault, left, mark, read, refused_at, Board, Fault, Zone};
use std::collections::HashMap;
use std::mem::discriminant;

/// A board with this home, and for each zone its bytes: four in version 1, five in version 2.
fn laid_out<const N: usize>(points: u8, home: u8, zones: &[[u8; N]]) -> Vec<u8> {
    let said = (4 + N * zones.len()) as u16;
    let head = [N as u8 - 3, points, home, zones.len() as u8];
    [&said.to_be_bytes()[..], &head, &zones.concat()].concat()
}

/// Board T with one byte changed.
fn t_with(at: usize, byte: u8) -> Vec<u8> {
    let mut board = t([0, 0], [0, 0]);
    board[at] = byte;
    board
}

/// The marker's number with what is wrong and where.
fn assert_fault(board: &[u8], sheet: &[u16], entry: Option<usize>, word: Option<usize>, reason: Reason) {
    assert_eq!(fault(board, sheet), Some(Fault { number: mark(board, sheet), entry, word, reason }), "{board:?} {sheet:?}");
}

#[test]
fn sheets_out_of_form() {
    for (sheet, entry, reason) in [
        (&[][..], None, Empty),
        (&[2], None, Starts(2)),
        (&[7, 2, 0, 3], None, Starts(7)),
        (&[65_535], None, Starts(65_535)),
        (&[0, 7], Some(0), CarrierAlone),
        (&[0, 8], Some(0), CarrierAlone),
        (&[0, 7, 2, 0, 3, 7], Some(1), CarrierAlone),
        (&[0, 7, 0], Some(0), NoWords),
        (&[0, 8, 0], Some(0), NoWords),
        (&[0, 7, 0, 0, 3], Some(0), NoWords),
        (&[0, 7, 2, 0, 3, 7, 0, 1], Some(1), NoWords),
        (&[0, 7, 1], Some(0), PastEnd { counted: 1, left: 0 }),
        (&[0, 7, 3, 0, 3], Some(0), PastEnd { counted: 3, left: 2 }),
        (&[0, 8, 3, 9, 9], Some(0), PastEnd { counted: 3, left: 2 }),
        (&[0, 7, 65_535, 0, 3], Some(0), PastEnd { counted: 65_535, left: 2 }),
        (&[0, 7, 2, 0, 3, 7, 2, 0], Some(1), PastEnd { counted: 2, left: 1 }),
    ] {
        assert_eq!(mark(&k(), sheet), 30);
        assert_fault(&k(), sheet, entry, None, reason);
    }
}

#[test]
fn carriers_not_out() {
    let both_go = t([7, 1], [9, 1]);
    for (board, sheet, entry, reason) in [
        (k(), &[0, 8, 1, 0][..], 0, NotOnBoard),
        (k(), &[0, 263, 2, 0, 3], 0, NotOnBoard),
        (k(), &[0, 0, 1, 2], 0, NotOnBoard),
        (k(), &[0, 8, 1, 99, 7], 0, NotOnBoard),
        (k(), &[0, 7, 2, 0, 3, 8, 1, 0], 1, NotOnBoard),
        (k(), &[0, 7, 2, 0, 3, 0, 1, 0], 1, NotOnBoard),
        (k(), &[0, 7, 2, 0, 3, 7, 1, 99], 1, HomeAlready { by: 0 }),
        (both_go.clone(), &[0, 9, 1, 3, 7, 1, 1, 9, 1, 3], 2, HomeAlready { by: 0 }),
        (both_go.clone(), &[0, 9, 1, 3, 7, 1, 1, 7, 1, 1], 2, HomeAlready { by: 1 }),
        (both_go, &[0, 9, 1, 3, 9, 1, 3], 1, HomeAlready { by: 0 }),
    ] {
        assert_eq!(mark(&board, sheet), 31);
        assert_fault(&board, sheet, Some(entry), None, reason);
    }
}

/// Carriers 7 and 4 head for point 1 and 9 for home, each in its own zone between them.
fn three_zones() -> Vec<u8> {
    laid_out(2, 0, &[[0, 1, 7, 0], [0, 1, 9, 1], [0, 1, 4, 0]])
}

#[test]
fn routes_that_break_rules() {
    let toward_home = || t([7, 1], [0, 0]);
    let home_1 = || laid_out(2, 1, &[[0, 1, 7, 1], [0, 1, 0, 0]]);
    for (board, sheet, entry, word, reason) in [
        (k(), &[0, 7, 2, 1, 3][..], 0, 0, NotItsStanding { standing: 0 }),
        (k(), &[0, 7, 1, 1], 0, 0, NotItsStanding { standing: 0 }),
        (k(), &[0, 7, 1, 65_535], 0, 0, NotItsStanding { standing: 0 }),
        (k(), &[0, 7, 2, 3, 99], 0, 0, NotItsStanding { standing: 0 }),
        (toward_home(), &[0, 7, 1, 0], 0, 0, NotItsStanding { standing: 1 }),
        (three_zones(), &[0, 9, 1, 3, 4, 1, 3], 1, 0, NotItsStanding { standing: 4 }),
        (k(), &[0, 7, 2, 0, 4], 0, 1, NoSuchZone),
        (k(), &[0, 7, 2, 0, 65_535], 0, 1, NoSuchZone),
        (k(), &[0, 7, 3, 0, 3, 4], 0, 2, NoSuchZone),
        (k(), &[0, 7, 3, 0, 3, 0], 0, 2, RunsOn),
        (k(), &[0, 7, 4, 0, 3, 0, 3], 0, 2, RunsOn),
        (k(), &[0, 7, 4, 0, 3, 0, 99], 0, 2, RunsOn),
        (k(), &[0, 7, 3, 0, 3, 3], 0, 2, RunsOn),
        (k(), &[0, 7, 3, 0, 3, 2], 0, 2, RunsOn),
        (toward_home(), &[0, 7, 2, 1, 2], 0, 1, RunsOn),
        (t([7, 1], [9, 1]), &[0, 7, 2, 1, 2], 0, 1, RunsOn),
        (home_1(), &[0, 7, 3, 1, 2, 1], 0, 2, RunsOn),
        (k(), &[0, 7, 2, 0, 2], 0, 1, DoesNotTouch),
        (k(), &[0, 7, 2, 0, 0], 0, 1, DoesNotTouch),
        (k(), &[0, 7, 3, 0, 2, 99], 0, 1, DoesNotTouch),
        (t([7, 0], [9, 1]), &[0, 7, 2, 0, 2], 0, 1, DoesNotTouch),
        (home_1(), &[0, 7, 2, 1, 3], 0, 1, DoesNotTouch),
        (turn(0, 0), &[0, 5, 4, 0, 2, 4, 1], 0, 2, DoesNotTouch),
        (k(), &[0, 7, 2, 0, 1], 0, 1, SameZone),
        (turn(0, 0), &[0, 5, 4, 0, 2, 3, 1], 0, 2, SameZone),
        (to_loop([1, 1, 0, 0]), &[0, 5, 4, 0, 2, 2, 1], 0, 2, SameZone),
        (to_loop([1, 1, 0, 0]), &[0, 5, 4, 0, 2, 3, 1], 0, 2, SameZone),
        (t([7, 0], [9, 1]), &[0, 7, 2, 0, 3], 0, 1, HeldBy(9)),
        (wide_t((7, 0), (263, 1)), &[0, 7, 2, 0, 3], 0, 1, HeldBy(263)),
        (to_loop([1, 1, 6, 0]), &[0, 5, 3, 0, 2, 1], 0, 1, HeldBy(6)),
        (far_loop(), &[0, 6, 5, 2, 4, 7, 3, 1, 5, 1, 0], 0, 4, HeldBy(5)),
        (three_zones(), &[0, 9, 1, 3, 7, 2, 0, 5], 1, 1, HeldBy(4)),
        (three_zones(), &[0, 9, 1, 3, 7, 2, 0, 3, 4, 2, 4, 5], 2, 1, SameZone),
    ] {
        assert_eq!(mark(&board, sheet), 32);
        assert_fault(&board, sheet, Some(entry), Some(word), reason);
    }
}

/// A carrier may pass the zone that it left, and those of carriers that are home.
#[test]
fn right_sheets() {
    for (board, sheet) in [
        (k(), &[0, 7, 2, 0, 3][..]),
        (turn(0, 0), &[0, 5, 4, 0, 2, 5, 1]),
        (turn(0, 0), &[0, 5, 4, 0, 4, 3, 1]),
        (to_loop([1, 1, 0, 0]), &[0, 5, 3, 0, 3, 1]),
        (t([7, 0], [9, 1]), &[0, 9, 1, 3, 7, 2, 0, 3]),
        (three_zones(), &[0, 9, 1, 3, 7, 2, 0, 3, 4, 2, 4, 1]),
        (t([0, 0], [0, 0]), &[0]),
        (t([7, 0], [9, 0]), &[1, 7, 9]),
    ] {
        assert_eq!((mark(&board, sheet), fault(&board, sheet)), (0, None));
    }
    for board in refused() {
        assert_eq!((fault(&board, &[]), fault(&board, &[1])), (None, None));
    }
}

#[test]
fn routes_that_stop() {
    for (board, sheet, entry, word, point) in [
        (k(), &[0, 7, 1, 0][..], 0, 0, 1),
        (k(), &[0, 7, 1, 0, 7], 0, 0, 1),
        (k(), &[0, 7, 1, 0, 8, 1, 0], 0, 0, 1),
        (turn(0, 0), &[0, 5, 2, 0, 2], 0, 1, 2),
        (turn(0, 0), &[0, 5, 3, 0, 2, 5], 0, 2, 1),
        (to_loop([1, 1, 0, 0]), &[0, 5, 2, 0, 2], 0, 1, 1),
        (far_loop(), &[0, 6, 4, 2, 4, 7, 3, 5, 1, 0], 0, 3, 1),
        (laid_out(2, 1, &[[0, 1, 7, 1], [0, 1, 0, 0]]), &[0, 7, 1, 1], 0, 0, 0),
        (t([7, 0], [9, 1]), &[0, 9, 1, 3, 7, 1, 0], 1, 0, 1),
    ] {
        assert_eq!(mark(&board, sheet), 33);
        assert_fault(&board, sheet, Some(entry), Some(word), LeavesElsewhere { point });
    }
}

#[test]
fn carriers_left_out() {
    for (board, sheet, out) in [
        (k(), &[0][..], &[7][..]),
        (t([9, 1], [7, 1]), &[0], &[7, 9]),
        (t([9, 1], [7, 1]), &[0, 9, 1, 1], &[7]),
        (t([7, 0], [9, 0]), &[0], &[7, 9]),
        (wide_t((65_535, 1), (7, 1)), &[0], &[7, 65_535]),
        (three_zones(), &[0, 9, 1, 3], &[4, 7]),
    ] {
        assert_eq!(mark(&board, sheet), 34);
        assert_fault(&board, sheet, None, None, StillOut(out.to_vec()));
    }
}

#[test]
fn false_claims() {
    let blocked = || t([9, 0], [7, 0]);
    for (board, sheet, blocked, too_many, too_few, not_ascending) in [
        (k(), &[1][..], &[][..], &[][..], &[][..], None),
        (t([0, 0], [0, 0]), &[1], &[], &[], &[], None),
        (k(), &[1, 7], &[], &[7], &[], None),
        (k(), &[1, 7, 7], &[], &[7], &[], Some(1)),
        (blocked(), &[1], &[7, 9], &[], &[7, 9], None),
        (blocked(), &[1, 7], &[7, 9], &[], &[9], None),
        (blocked(), &[1, 9], &[7, 9], &[], &[7], None),
        (blocked(), &[1, 7, 7], &[7, 9], &[], &[9], Some(1)),
        (blocked(), &[1, 9, 7], &[7, 9], &[], &[], Some(1)),
        (blocked(), &[1, 7, 9, 9], &[7, 9], &[], &[], Some(2)),
        (blocked(), &[1, 0, 7, 9], &[7, 9], &[0], &[], None),
        (blocked(), &[1, 7, 9, 265], &[7, 9], &[265], &[], None),
        (blocked(), &[1, 9, 8, 8, 3, 9], &[7, 9], &[8, 3], &[7], Some(1)),
        (far_loop(), &[1, 6, 8, 7, 8], &[5, 6], &[8, 7], &[5], Some(2)),
        (wide_t((263, 0), (7, 0)), &[1, 263], &[7, 263], &[], &[7], None),
    ] {
        let [blocked, too_many, too_few] = [blocked, too_many, too_few].map(<[u16]>::to_vec);
        assert_eq!(mark(&board, sheet), 35);
        assert_fault(&board, sheet, None, None, Claim { blocked, too_many, too_few, not_ascending });
    }
}

#[test]
fn refused_boards() {
    let [short, cut, .., loose, apart] = refused();
    let pair = |a, b| [a, b, 0, 0];
    let rows: Vec<(Vec<u8>, Wrong)> = vec![
        (vec![], Short { bytes: 0 }),
        (short, Short { bytes: 3 }),
        (vec![0, 3, 9, 9, 9], Short { bytes: 5 }),
        (cut, Length { said: 12, follow: 11 }),
        (t_with(0, 1), Length { said: 268, follow: 12 }),
        (vec![0, 0, 3, 0, 0, 0], Length { said: 0, follow: 4 }),
        (t_with(2, 0), Version(0)),
        (vec![0, 4, 3, 0, 0, 0], Version(3)),
        (t_with(3, 1), Points(1)),
        (t_with(3, 65), Points(65)),
        (vec![0, 4, 1, 0, 9, 0], Points(0)),
        (t_with(4, 2), Home { home: 2, points: 2 }),
        (vec![0, 4, 2, 64, 255, 0], Home { home: 255, points: 64 }),
        (t_with(5, 1), Zones(1)),
        (t_with(5, 97), Zones(97)),
        (vec![0, 4, 2, 2, 0, 0], Zones(0)),
        (t_with(5, 3), ZoneBytes { said: 12, needed: 16 }),
        (t_with(2, 2), ZoneBytes { said: 12, needed: 14 }),
        (vec![0, 4, 2, 2, 0, 96], ZoneBytes { said: 4, needed: 484 }),
        (laid_out(2, 0, &[[0, 1, 0, 0], [2, 3, 0, 9]]), End { zone: 1, end: 2 }),
        (laid_out(2, 0, &[[0, 255, 0, 1], [2, 3, 0, 9]]), End { zone: 0, end: 255 }),
        (laid_out(2, 0, &[[0, 1, 7, 2], [2, 3, 7, 0]]), Heading { zone: 0, heading: 2 }),
        (laid_out(2, 0, &[[0, 1, 0, 0, 0], [0, 1, 0, 0, 255]]), Heading { zone: 1, heading: 255 }),
        (laid_out(2, 0, &[[0, 1, 0, 1], [0, 1, 0, 2]]), FreeHeading { zone: 0 }),
        (laid_out(2, 0, &[[0, 1, 1, 0, 1], [0, 1, 0, 0, 1]]), FreeHeading { zone: 1 }),
        (t([7, 0], [7, 1]), Twice { carrier: 7, zones: [0, 1] }),
        (laid_out(3, 0, &[[0, 1, 5, 0], [0, 1, 7, 0], [0, 1, 7, 0], [0, 1, 5, 0]]), Twice { carrier: 7, zones: [1, 2] }),
        (laid_out(3, 0, &[[0, 1, 0, 0], [0, 1, 5, 0], [0, 1, 0, 0], [0, 1, 5, 0], [0, 1, 5, 1]]), Twice { carrier: 5, zones: [1, 3] }),
        (laid_out(2, 0, &[[0, 1, 1, 7, 0], [0, 1, 0, 7, 0], [0, 1, 1, 7, 0]]), Twice { carrier: 263, zones: [0, 2] }),
        (wide_t((65_535, 1), (65_535, 0)), Twice { carrier: 65_535, zones: [0, 1] }),
        (loose, Loose { point: 2, zones: 1 }),
        (laid_out(2, 0, &[pair(0, 1), pair(0, 0)]), Loose { point: 1, zones: 1 }),
        (laid_out(5, 0, &[pair(0, 1), pair(0, 1), pair(1, 3)]), Loose { point: 2, zones: 0 }),
        (laid_out(5, 0, &[pair(0, 1), pair(0, 2), pair(2, 2)]), Loose { point: 1, zones: 1 }),
        (laid_out(3, 1, &[pair(0, 1), pair(2, 2)]), Loose { point: 0, zones: 1 }),
        (apart, Apart { point: 2 }),
        (laid_out(2, 0, &[pair(0, 0), pair(1, 1)]), Apart { point: 1 }),
        (laid_out(2, 1, &[pair(0, 0), pair(1, 1)]), Apart { point: 0 }),
        (laid_out(3, 0, &[pair(1, 2), pair(2, 1)]), Apart { point: 1 }),
        (laid_out(4, 2, &[pair(0, 1), pair(0, 1), pair(3, 2), pair(2, 3)]), Apart { point: 0 }),
        (laid_out(5, 0, &[pair(4, 2), pair(2, 0), pair(4, 4), pair(1, 3), pair(3, 1)]), Apart { point: 1 }),
    ];
    for (board, expected) in rows {
        assert_eq!((read(&board), refused_at(&board)), (Err(expected.number()), Some(expected)), "{board:?}");
    }
}

/// The documents' boards and sheets get the numbers that they have there.
#[test]
fn numbers_of_the_documents() {
    let number = |board: &[u8], sheet: &[u16]| fault(board, sheet).map_or(0, |found| found.number);
    for (sheet, expected) in SHEETS_FOR_K {
        assert_eq!(number(&k(), sheet), expected);
    }
    for (sheet, expected) in SHEETS_FOR_LOOP {
        assert_eq!(number(&to_loop([1, 1, 0, 0]), sheet), expected);
    }
    for (board, sheet, _, expected) in at_gate() {
        assert_eq!(number(&board, sheet), expected);
    }
    for (board, sheet, expected) in wide_sheets() {
        assert_eq!(number(&board, sheet), expected);
    }
    let rows = (1..).zip(refused()).map(|(row, board)| (board, row));
    for (board, row) in rows.chain(loops_refused()).chain(one_blocked()).chain(versions_refused()) {
        assert_eq!(refused_at(&board).map(|found| found.number()), Some(row));
    }
    for (board, ..) in starred().into_iter().chain(turning_loops()).chain(two_zones()).chain(wide_carriers()) {
        assert_eq!(refused_at(&board), None);
    }
}

/// A generator of random numbers that can be repeated (splitmix64).
struct Random(u64);

impl Random {
    /// A number below n.
    fn below(&mut self, n: usize) -> usize {
        self.0 = self.0.wrapping_add(0x9E37_79B9_7F4A_7C15);
        let mut z = self.0;
        z = (z ^ (z >> 30)).wrapping_mul(0xBF58_476D_1CE4_E5B9);
        z = (z ^ (z >> 27)).wrapping_mul(0x94D0_49BB_1331_11EB);
        ((z ^ (z >> 31)) % n as u64) as usize
    }

    fn once_in(&mut self, n: usize) -> bool {
        self.below(n) == 0
    }

    /// A board of a few points and zones, which may be refused by the rows 7 to 9.
    fn board(&mut self) -> Board {
        let points = 2 + self.below(3);
        let zones = (0..2 + self.below(5)).map(|z| {
            let carrier = if self.once_in(2) { 0 } else if self.once_in(12) { 1 + self.below(9) } else { 300 * self.below(2) + z + 1 };
            let heading = if carrier == 0 { 0 } else { self.below(2) };
            Zone { a: self.below(points), b: self.below(points), carrier: carrier as u32, heading: heading as u32 }
        });
        Board { points, zones: zones.collect(), home: self.below(points) }
    }

    /// Such a board's bytes with a few changed, in half of the cases with the length that they have.
    fn damaged(&mut self) -> Vec<u8> {
        let versions = self.board().in_each_version();
        let mut bytes = versions[self.below(versions.len())].clone();
        for _ in 0..self.below(3) {
            let at = self.below(bytes.len());
            bytes[at] = if self.once_in(8) { self.below(256) } else { self.below(7) } as u8;
        }
        match self.below(20) {
            0 => bytes.truncate(self.below(bytes.len())),
            1 => bytes.push(0),
            _ => {}
        }
        if self.once_in(2) && bytes.len() >= 2 {
            let follow = (bytes.len() - 2) as u16;
            bytes[..2].copy_from_slice(&follow.to_be_bytes());
        }
        bytes
    }

    /// A plan that sends carriers home by random walks, with some entries and words that are wrong.
    fn plan(&mut self, board: &Board) -> Vec<u16> {
        let mut now = board.clone();
        let mut sheet = vec![if self.once_in(30) { 2 } else { 0 }];
        while sheet.len() < 40 && (!now.carriers().is_empty() || self.once_in(3)) && !self.once_in(12) {
            let (all, out) = (board.carriers(), now.carriers());
            let from = if out.is_empty() || self.once_in(12) { all } else { out };
            let carrier = if from.is_empty() || self.once_in(20) { self.below(10) as u32 } else { from[self.below(from.len())] };
            let mut route = vec![board.standing(carrier).unwrap_or(0)];
            while route.len() < 9 && (!now.leaves_home(route[route.len() - 1]) || self.once_in(12)) && !self.once_in(20) {
                let last = route[route.len() - 1];
                let next: Vec<usize> = (0..now.words()).filter(|&v| now.may_follow(carrier, last, v)).collect();
                route.push(if next.is_empty() || self.once_in(20) { self.below(now.words()) } else { next[self.below(next.len())] });
            }
            if self.once_in(12) {
                let at = self.below(route.len());
                route[at] = self.below(now.words() + 2);
            }
            let counted = if self.once_in(20) { route.len() + self.below(3) - 1 } else { route.len() };
            sheet.extend([carrier as u16, counted as u16].into_iter().chain(route.iter().map(|&w| w as u16)));
            now = now.without(carrier);
        }
        if self.once_in(12) {
            sheet.truncate(self.below(sheet.len() + 1));
        }
        sheet
    }

    /// The blocked carriers, or all that are out, as a claim that may be spoilt.
    fn claim(&mut self, board: &Board) -> Vec<u16> {
        let named = if self.once_in(3) { board.carriers() } else { left(board) };
        let mut sheet: Vec<u16> = [1].into_iter().chain(named.into_iter().map(|c| c as u16)).collect();
        for _ in 0..self.below(3) {
            let at = 1 + self.below(sheet.len());
            match self.below(3) {
                0 => sheet.insert(at, self.below(9) as u16),
                1 => sheet.insert(at, sheet[self.below(sheet.len())]),
                _ => sheet.truncate(at),
            }
        }
        sheet
    }
}

/// Where the entries of a plan's sheet start, up to one that can't be told.
fn starts(sheet: &[u16]) -> Vec<usize> {
    let mut starts = vec![1];
    while let Some(&count) = sheet.get(starts[starts.len() - 1] + 1) {
        starts.push(starts[starts.len() - 1] + 2 + usize::from(count));
    }
    starts
}

/// A board with only these of its carriers.
fn with_only(board: &[u8], kept: &[u16]) -> Vec<u8> {
    let board = read(board).unwrap();
    let others = board.carriers().into_iter().filter(|&c| !kept.contains(&(c as u16)));
    others.fold(board.clone(), |now, c| now.without(c)).bytes()
}

/// By the marker alone: the entries before a fault's are right, a route breaks no rule before the word that is told, and that word breaks one on a
/// track without other carriers exactly where no holder is told, else on one with the holder.
fn assert_place(board: &[u8], sheet: &[u16], found: &Fault) {
    let Some(entry) = found.entry else { return };
    let start = starts(sheet)[entry];
    assert!([0, 34].contains(&mark(board, &sheet[..start])));
    let Some(word) = found.word else { return };
    let (carrier, route) = (sheet[start], &sheet[start + 2..]);
    let cut = |count: usize| [&[carrier, count as u16], &route[..count]].concat();
    let marked = |count: usize| mark(board, &[&sheet[..start], &cut(count)].concat());
    assert_eq!(marked(word + 1), found.number);
    assert!((1..=word).all(|count| [0, 33, 34].contains(&marked(count))));
    let alone = |kept: &[u16]| mark(&with_only(board, kept), &[&[0], &cut(word + 1)[..]].concat());
    match found.reason {
        LeavesElsewhere { .. } => assert_eq!(word + 1, sheet[start + 1].into()),
        HeldBy(holder) => assert_eq!((alone(&[carrier]) == 32, alone(&[carrier, holder])), (false, 32)),
        _ => assert_eq!(alone(&[carrier]), 32),
    }
}

/// The marker's number, at a place that the marker bears out; each of the 16 reasons is met, and right sheets are.
#[test]
fn random_sheets() {
    let mut random = Random(1);
    let mut met: HashMap<_, usize> = HashMap::new();
    for _ in 0..20_000 {
        let board = random.board();
        let bytes = board.bytes();
        let sheet = if random.once_in(4) { random.claim(&board) } else { random.plan(&board) };
        let found = fault(&bytes, &sheet);
        if read(&bytes).is_err() {
            assert_eq!(found, None);
            continue;
        }
        assert_eq!(found.as_ref().map_or(0, |found| found.number), mark(&bytes, &sheet), "{bytes:?} {sheet:?}");
        found.iter().for_each(|found| assert_place(&bytes, &sheet, found));
        *met.entry(found.map(|found| discriminant(&found.reason))).or_default() += 1;
    }
    assert!(met.len() == 17 && met.values().all(|&times| times > 20), "{met:?}");
}

/// The reader's number; each of the 13 kinds of bad boards is met, and accepted ones are.
#[test]
fn random_boards() {
    let mut random = Random(2);
    let mut met: HashMap<_, usize> = HashMap::new();
    for _ in 0..20_000 {
        let bytes = random.damaged();
        let found = refused_at(&bytes);
        assert_eq!(found.as_ref().map_or(0, |found| found.number()), read(&bytes).err().unwrap_or(0), "{bytes:?}");
        *met.entry(found.as_ref().map(discriminant)).or_default() += 1;
    }
    assert!(met.len() == 14 && met.values().all(|&times| times > 20), "{met:?}");
}
