//! The boards, sheets, move logs, positions and refusals of documents 01 and 02 by the wrapper's two layers.

use nizkabel::owned::{self, Entry, Held, Refused};
use nizkabel::{Replay, Write, COPY_ROOM, HOME, POSITION_ROOM};
use second::document_01::{k, refused, starred, turn, SHEETS_FOR_K};
use second::document_02::{at_gate, held, loops_refused, one_blocked, searched, searches, to_loop, turning_loops, two_zones, SHEETS_FOR_LOOP};
use second::document_02::{copies, held_ring, long_replays, replays, versions_refused, wide_carriers, wide_sheets, wide_t};

fn plan(entries: &[Entry]) -> Vec<u16> {
    entries.iter().flat_map(|e| [e.carrier, e.words.len() as u16].into_iter().chain(e.words.iter().copied())).collect()
}

/// The key's plan, carried out move by move, leaves the blocked carriers alone out.
fn run_home(board: &[u8], key: &owned::Key) {
    let moves = |e: &Entry| -> Vec<[u16; 2]> { e.words[1..].iter().chain([&HOME]).map(|&word| [e.carrier, word]).collect() };
    let replay = owned::replay(board, &key.entries.iter().flat_map(moves).collect::<Vec<_>>()).unwrap();
    assert_eq!((replay.stopped_at, replay.position.len()), (None, board[5].into()));
    let mut out: Vec<u16> = replay.position.iter().flatten().map(|held| held.carrier).collect();
    out.sort();
    assert_eq!(out, key.blocked);
}

#[test]
fn boards() {
    for (row, verdict, words, blocked) in starred().into_iter().chain(turning_loops()).chain(two_zones()).chain(wide_carriers()).chain(searches()) {
        for board in second::read(&row).unwrap().in_each_version() {
            let key = owned::key(&board).unwrap();
            assert_eq!((key.verdict, &plan(&key.entries)[..], &key.blocked[..]), (verdict, words, blocked));
            assert_eq!(owned::collapse(&board).unwrap(), key.blocked);
            let sheet = if verdict == 0 { [&[0], words].concat() } else { [&[1], blocked].concat() };
            assert_eq!(owned::mark(&board, &sheet), Ok(0));
            run_home(&board, &key);
        }
    }
}

#[test]
fn search_counts() {
    for (row, count, _) in searched() {
        for board in second::read(&row).unwrap().in_each_version() {
            assert_eq!(owned::key(&board).unwrap().searched, count);
        }
    }
}

/// What the key gives where it is turned back.
fn turned_back(verdict: u32) -> nizkabel::Key {
    nizkabel::Key { verdict, planned: 0, listed: 0, searched: 0 }
}

fn refusal(board: &[u8], number: u32) -> Refused {
    let refused = owned::key(board).unwrap_err();
    assert_eq!(refused.number(), number);
    assert_eq!(nizkabel::key(board, &mut [], &mut []), turned_back(number));
    assert_eq!(owned::collapse(board), Err(refused));
    assert_eq!(owned::mark(board, &[0]), Err(refused));
    assert_eq!(nizkabel::replay(board, &[7], &mut []), Replay { number, moves: 0 });
    assert_eq!(owned::replay(board, &[[7, HOME]]), Err(refused));
    assert_eq!(nizkabel::write(board, &[1], &mut []), Write { number, bytes: 0 });
    assert_eq!(owned::write(board, &[]), Err(refused));
    refused
}

#[test]
fn refusals() {
    let mut told: Vec<(u32, Refused)> = (1..).zip(refused()).map(|(number, board)| (number, refusal(&board, number))).collect();
    told.push((39, owned::write(&k(), &[]).unwrap_err()));
    for (board, number) in loops_refused().into_iter().chain(one_blocked()).chain(versions_refused()) {
        refusal(&board, number);
    }
    let row = |(number, refused): (u32, Refused)| {
        let error: Box<dyn std::error::Error> = refused.into();
        error.to_string().strip_prefix(&format!("refused {number}: ")).unwrap().to_string()
    };
    let mut rows: Vec<String> = told.into_iter().map(row).collect();
    rows.sort();
    rows.dedup();
    assert_eq!(rows.len(), 10);
}

#[test]
fn marks() {
    for (sheet, number) in SHEETS_FOR_K {
        assert_eq!(owned::mark(&k(), sheet), Ok(number));
    }
    for (sheet, number) in SHEETS_FOR_LOOP {
        assert_eq!(owned::mark(&to_loop([1, 1, 0, 0]), sheet), Ok(number));
    }
    for (board, sheet, number) in wide_sheets() {
        assert_eq!(owned::mark(&board, sheet), Ok(number));
    }
    for (board, sheet, _, number) in at_gate() {
        assert_eq!(owned::mark(&board, sheet), Ok(number));
    }
}

#[test]
fn short_rooms() {
    let k = k();
    let (mut plan, mut list) = ([9; 6], [9; 1]);
    assert_eq!(nizkabel::key(&k, &mut plan[..5], &mut list), turned_back(10));
    assert_eq!(nizkabel::key(&k, &mut plan, &mut []), turned_back(11));
    assert_eq!(nizkabel::collapse(&k, &mut []), nizkabel::Collapse { number: 11, listed: 0 });
    assert_eq!((plan, list), ([9; 6], [9; 1]));
    assert_eq!(nizkabel::key(&k, &mut plan, &mut list), nizkabel::Key { verdict: 0, planned: 4, listed: 0, searched: 2 });
    assert_eq!((plan, list), ([7, 2, 0, 3, 9, 9], [9; 1]));
}

/// Two carriers with a word for one of them, then with words for three.
#[test]
fn list_words() {
    let board = wide_t((7, 0), (263, 0));
    let (mut plan, mut list) = ([9; 12], [9; 3]);
    assert_eq!(nizkabel::key(&board, &mut plan, &mut list[..1]), turned_back(11));
    assert_eq!(nizkabel::collapse(&board, &mut list[..1]), nizkabel::Collapse { number: 11, listed: 0 });
    assert_eq!((plan, list), ([9; 12], [9; 3]));
    assert_eq!(nizkabel::key(&board, &mut plan, &mut list), nizkabel::Key { verdict: 20, planned: 0, listed: 2, searched: 2 });
    assert_eq!((plan, list), ([9; 12], [7, 263, 9]));
    list = [9; 3];
    assert_eq!(nizkabel::collapse(&board, &mut list), nizkabel::Collapse { number: 0, listed: 2 });
    assert_eq!(list, [7, 263, 9]);
}

/// 96 zones, each with a carrier: nothing is turned back for want of room, but for a position sheet that lacks a word or a copy that lacks a byte.
#[test]
fn the_largest_boards() {
    for (version, heading) in [(1, 0), (1, 1), (2, 0), (2, 1)] {
        let board = held(version, 96, heading);
        let key = owned::key(&board).unwrap();
        let expected = if heading == 1 { (0, 96, 0) } else { (20, 0, 96) };
        assert_eq!((key.verdict, key.entries.len(), key.blocked.len()), expected);
        assert_eq!(key.searched, second::key(&board, nizkabel::PLAN_ROOM, nizkabel::LIST_ROOM).searched);
        assert_eq!(owned::collapse(&board).unwrap(), key.blocked);
        run_home(&board, &key);
        let first = second::read(&board).unwrap().sheet();
        compare_replay(&board, &[], POSITION_ROOM, Replay { number: 0, moves: 0 }, &first);
        compare_replay(&board, &[], POSITION_ROOM - 1, Replay { number: 36, moves: 0 }, &[]);
        compare_write(&board, &first, COPY_ROOM, 0, &board);
        let ring = held_ring(version, heading);
        compare_write(&ring, &first, ring.len(), 0, &ring);
        compare_write(&ring, &first, ring.len() - 1, 39, &[]);
    }
}

/// A replay by the first layer: so many words are lent, and what isn't written of them, or stands past them, stays as it was, also where it says
/// that carrier 7 is in a zone.
fn compare_replay(board: &[u8], log: &[u16], room: usize, expected: Replay, written: &[u32]) {
    for canary in [0xA5C3_B7D9, 2 * 7 + 1] {
        let mut sheet = vec![canary; room + 4];
        assert_eq!(nizkabel::replay(board, log, &mut sheet[..room]), expected);
        let mut whole = written.to_vec();
        whole.resize(room + 4, canary);
        assert_eq!(sheet, whole);
    }
}

/// The same by the second layer, which lends enough and takes pairs. A copy of where the log leads starts there.
fn compare_owned(board: &[u8], log: &[u16], expected: Replay, written: &[u32]) {
    let pairs: Vec<[u16; 2]> = log.chunks(2).map(|pair| [pair[0], pair[1]]).collect();
    let replay = owned::replay(board, &pairs).unwrap();
    let word = |held: Held| 2 * u32::from(held.carrier) + u32::from(held.heading);
    let sheet: Vec<u32> = replay.position.iter().map(|zone| zone.map_or(0, word)).collect();
    assert_eq!(sheet, written);
    assert_eq!(replay.stopped_at, (expected.number == 38).then_some(expected.moves as usize));
    let copy = owned::write(board, &replay.position).unwrap();
    assert_eq!(owned::replay(&copy, &[]).unwrap().position, replay.position);
}

#[test]
fn replayed() {
    for (row, log, room, number, moves, written) in replays() {
        for board in second::read(&row).map_or(vec![row], |said| said.in_each_version()) {
            let expected = Replay { number, moves };
            compare_replay(&board, log, room, expected, written);
            if [0, 38].contains(&number) {
                compare_owned(&board, log, expected, written);
            }
        }
    }
    for (log, number, moves, written) in long_replays() {
        let expected = Replay { number, moves };
        compare_replay(&turn(0, 0), &log, 3, expected, &written);
        compare_owned(&turn(0, 0), &log, expected, &written);
    }
}

/// A copy by the first layer: so many bytes are lent, and what isn't written of them, or stands past them, stays as it was.
fn compare_write(board: &[u8], sheet: &[u32], room: usize, number: u32, written: &[u8]) {
    for canary in [0xA5, 0] {
        let mut copy = vec![canary; room + 4];
        assert_eq!(nizkabel::write(board, sheet, &mut copy[..room]), Write { number, bytes: written.len() });
        let mut whole = written.to_vec();
        whole.resize(room + 4, canary);
        assert_eq!(copy, whole);
    }
}

/// The second layer says of a position what the first does with room enough.
fn compare_owned_write(board: &[u8], sheet: &[u32]) {
    let held = |&word: &u32| (word != 0).then_some(Held { carrier: (word / 2) as u16, heading: (word % 2) as u16 });
    let mut copy = vec![0; COPY_ROOM];
    let write = nizkabel::write(board, sheet, &mut copy);
    copy.truncate(write.bytes);
    let by_owned = owned::write(board, &sheet.iter().map(held).collect::<Vec<_>>());
    assert_eq!(by_owned.map_err(Refused::number), if write.number == 0 { Ok(copy) } else { Err(write.number) });
}

#[test]
fn copied() {
    for (row, sheet, room, number, written) in copies() {
        for board in second::read(&row).map_or(vec![row], |said| said.in_each_version()) {
            compare_write(&board, sheet, room, number, &written);
            if sheet.iter().all(|&word| word <= 131_071) {
                compare_owned_write(&board, sheet);
            }
        }
        if number == 0 {
            compare_write(&written, sheet, written.len(), 0, &written);
            compare_replay(&written, &[], sheet.len(), Replay { number: 0, moves: 0 }, sheet);
        }
    }
    for heading in [2, 3, u16::MAX] {
        let position = [Some(Held { carrier: 7, heading }), None];
        assert_eq!(owned::write(&k(), &position).map_err(Refused::number), Err(39));
    }
}
