//! Logs' files, and why a move is forbidden.

use examiner::board::Board;
use examiner::board_file;
use examiner::moves::{self, forbidden, move_shown};
use nizkabel::HOME;

fn words(file: &[u8]) -> Result<Vec<u16>, String> {
    moves::read(file).map(|log| log.words).map_err(|mistake| mistake.to_string())
}

#[test]
fn each_form_says_the_words() {
    assert_eq!(words(b"7 1-\n7 home # at last\n"), Ok(vec![7, 3, 7, HOME]));
    assert_eq!(words(b"# none\n"), Ok(vec![]));
    assert_eq!(words(b""), Ok(vec![]));
    assert_eq!(words(&[0, 7, 0, 3, 0, 7, 255, 255]), Ok(vec![7, 3, 7, HOME]));
    // Carrier 8224 starts as two spaces would.
    assert_eq!(words(b"  \x00\x03"), Ok(vec![8224, 3]));
    assert_eq!(words(b"65535 32767+"), Ok(vec![65_535, 65_534]));
    assert_eq!([move_shown(7, 3), move_shown(7, HOME)], ["7 1-", "7 home"]);
}

#[test]
fn mistakes_have_their_lines() {
    // The word of this zone says home, and must not be taken for it.
    assert_eq!(words(b"7 1-\n7 32767-"), Err("2: \"32767-\" is over every zone, and its word would say home".to_string()));
    assert_eq!(words(b"7 32768+"), Err("1: zone 32768 is over 32767".to_string()));
    assert_eq!(words(b"65536 home"), Err("1: carrier 65536 is over 65535".to_string()));
    assert_eq!(words(b"7"), Err("1: \"7\" is no move: write 7 1- for carrier 7 into zone 1, 7 home into home".to_string()));
    assert_eq!(words(b"home 7: 0+"), Err("1: \"home 7: 0+\" is no move: write 7 1- for carrier 7 into zone 1, 7 home into home".to_string()));
    assert_eq!(words(b"x home"), Err("1: carrier \"x\" is no number".to_string()));
    assert_eq!(words(b"\xFF\xFE7\0 \0"), Err("1: a text is to be in UTF-8, and this one is in UTF-16".to_string()));
    assert_eq!(words(b"7 1- # \xFF\n"), Ok(vec![7, 3]));
    assert_eq!(words(b"AB\xFF\xFF"), Ok(vec![0x4142, HOME]));
    assert_eq!(words(&[8, 7, 255, 255]), Ok(vec![2055, HOME]));
    assert_eq!(words(&[0, 7, 0]), Err("1: a log in bytes has two for each word, and these are 3".to_string()));
}

#[test]
fn why_a_move_is_forbidden() {
    let text = "points 3 home 0\n0-1 <5\n1-2 6>\n1-2 <7\n2-2";
    let board = Board::accepted(&board_file::read(text.as_bytes()).expect("a board's text").bytes).expect("an accepted board");
    let why = |carrier, word| forbidden(&board, carrier, word).map(|why| why.to_string());
    assert_eq!(why(5, HOME), None);
    assert_eq!(why(6, 6), None);
    assert_eq!(why(9, HOME).as_deref(), Some("the carrier isn't out"));
    assert_eq!(why(6, HOME).as_deref(), Some("it leaves at point 2, not at home"));
    assert_eq!(why(5, 0).as_deref(), Some("it heads for home and goes nowhere else"));
    assert_eq!(why(6, 8).as_deref(), Some("no such zone; the last is 3"));
    assert_eq!(why(6, 0).as_deref(), Some("doesn't touch: starts at point 0, not at 2"));
    // The first reason that fits.
    assert_eq!(why(5, 8).as_deref(), Some("no such zone; the last is 3"));
    assert_eq!(why(6, 2).as_deref(), Some("doesn't touch: starts at point 1, not at 2"));
    assert_eq!(why(6, 3).as_deref(), Some("it stands in that zone"));
    assert_eq!(why(6, 5).as_deref(), Some("held by 7"));
}
