//! The boards, sheets, move logs and positions of documents 01 and 02 by the second implementation.

use second::document_01::{k, refused, starred, turn, SHEETS_FOR_K};
use second::document_02::{at_gate, held, loops_refused, one_blocked, searched, searches, to_loop, turning_loops, two_zones, SHEETS_FOR_LOOP};
use second::document_02::{copies, held_ring, long_replays, replays, versions_refused, wide_carriers, wide_sheets, wide_t};
use second::{collapse, key, key_by, key_by_enumeration, mark, mark_by, named, read, replay, tries, write, Board, Key, Replay, Rule, Try, Write, Zone};

#[test]
fn boards() {
    for (row, verdict, plan, blocked) in starred().into_iter().chain(turning_loops()).chain(two_zones()).chain(wide_carriers()).chain(searches()) {
        let said = read(&row).unwrap();
        assert!(said.in_each_version().contains(&row));
        for board in said.in_each_version() {
            assert_eq!(read(&board).as_ref(), Ok(&said));
            let drawn = key(&board, 96, 8);
            let list: Vec<u32> = blocked.iter().map(|&c| c.into()).collect();
            assert_eq!(drawn.answer(), (verdict, plan, &list[..]));
            assert_eq!(key_by(Rule::Older, &board, 96, 8).answer(), drawn.answer());
            let (zones, out) = (said.zones.len(), said.carriers().len());
            assert!(drawn.searched as usize <= zones * out * (out + 1));
            assert_eq!(collapse(&board, 8), (0, list));
        }
    }
}

/// Version 1 is written where every carrier fits, and every number up to 65535 is read as it was written.
#[test]
fn versions() {
    for carrier in 1..=65535 {
        let bytes = wide_t((carrier, 1), (0, 0));
        let board = read(&bytes).unwrap();
        assert_eq!(board.carriers(), [u32::from(carrier)]);
        assert_eq!(board.bytes_in(2), bytes);
        assert_eq!(board.bytes()[2], if carrier < 256 { 1 } else { 2 });
    }
    for (version, length) in [(1, 390), (2, 486)] {
        let bytes = held(version, 96, 0);
        assert_eq!(bytes.len(), length);
        assert_eq!(read(&bytes).unwrap().bytes(), bytes);
        assert_eq!(key(&bytes, 18_624, 96).list.len(), 96);
    }
}

/// Each try of the key with the words that it reaches, by the fixpoint and by enumeration.
#[test]
fn search_counts() {
    for (row, count, expected) in searched() {
        let said = read(&row).unwrap();
        let expected: Vec<Try> = expected.iter().map(|&(carrier, words)| Try { carrier, reached: words.to_vec() }).collect();
        assert_eq!(tries(Rule::HomeGate, &said), expected);
        assert_eq!(key_by_enumeration(Rule::HomeGate, &said).key.searched, count);
        for board in said.in_each_version() {
            assert_eq!(key(&board, 96, 8).searched, count);
        }
    }
    let (past_home, ..) = &searches()[0];
    assert_eq!(key_by(Rule::Older, past_home, 96, 8).searched, 8);
}

#[test]
fn refusals_and_marks() {
    let nothing = |verdict| Key { verdict, plan: Vec::new(), list: Vec::new(), searched: 0 };
    for (row, board) in (1..).zip(refused()) {
        assert_eq!((read(&board), key(&board, 96, 8)), (Err(row), nothing(row)));
    }
    for (board, number) in loops_refused().into_iter().chain(one_blocked()).chain(versions_refused()) {
        assert_eq!((read(&board), key(&board, 96, 8)), (Err(number), nothing(number)));
    }
    assert_eq!(key(&k(), 5, 1), nothing(10));
    assert_eq!(key(&k(), 6, 0), nothing(11));
    let two_out = wide_t((7, 0), (263, 0));
    assert_eq!((key(&two_out, 12, 1), collapse(&two_out, 1).0), (nothing(11), 11));
    for (sheet, number) in SHEETS_FOR_K {
        assert_eq!(mark(&k(), sheet), number);
    }
    for (sheet, number) in SHEETS_FOR_LOOP {
        assert_eq!(mark(&to_loop([1, 1, 0, 0]), sheet), number);
    }
    for (board, sheet, number) in wide_sheets() {
        assert_eq!(mark(&board, sheet), number);
    }
    for (board, sheet, older, now) in at_gate() {
        assert_eq!((mark_by(Rule::Older, &board, sheet), mark(&board, sheet)), (older, now));
    }
}

/// On a board that the two-zone rule or the next row refuses one carrier alone may be blocked.
#[test]
fn blocked_alone() {
    for (bytes, _) in one_blocked() {
        let zone = |z: &[u8]| Zone { a: z[0].into(), b: z[1].into(), carrier: z[2].into(), heading: z[3].into() };
        let board = Board { points: bytes[3].into(), home: bytes[4].into(), zones: bytes[6..].chunks(4).map(zone).collect() };
        assert_eq!(named(Rule::HomeGate, &board), [5]);
    }
}

#[test]
fn replayed() {
    for (row, log, room, number, moves, written) in replays() {
        for board in read(&row).map_or(vec![row], |said| said.in_each_version()) {
            assert_eq!(replay(&board, log, room), Replay { number, moves, sheet: written.to_vec() });
        }
    }
    for (log, number, moves, written) in long_replays() {
        assert_eq!(replay(&turn(0, 0), &log, 3), Replay { number, moves, sheet: written.to_vec() });
    }
}

#[test]
fn copied() {
    for (row, sheet, room, number, copy) in copies() {
        for board in read(&row).map_or(vec![row], |said| said.in_each_version()) {
            assert_eq!(write(&board, sheet, room), Write { number, copy: copy.clone() });
        }
        if number == 0 {
            assert_eq!(read(&copy).unwrap().sheet(), sheet);
        }
    }
    for (version, heading) in [(1, 0), (1, 1), (2, 0), (2, 1)] {
        for board in [held(version, 96, heading), held_ring(version, heading)] {
            let sheet = read(&board).unwrap().sheet();
            assert_eq!(write(&board, &sheet, board.len()), Write { number: 0, copy: board.clone() });
            assert_eq!(write(&board, &sheet, board.len() - 1), Write { number: 39, copy: Vec::new() });
        }
    }
}
