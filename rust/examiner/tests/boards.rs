//! Boards' files: what each form says, the mistakes in texts, and the places of refusals.

use examiner::board::Board;
use examiner::board_file::{self, hexadecimal_shown};
use examiner::refused;

fn bytes(text: &str) -> Vec<u8> {
    board_file::read(text.as_bytes()).expect("a board's text").bytes
}

/// The mistake in a text, as the program says it after the file's name.
fn mistake(text: &str) -> String {
    board_file::read(text.as_bytes()).expect_err("a text with a mistake").to_string()
}

/// The refusal of a text that the library doesn't accept.
fn refusal(text: &str) -> String {
    let given = board_file::read(text.as_bytes()).expect("a board's text");
    refused::in_words(Board::accepted(&given.bytes).expect_err("a refused board"), &given)
}

const K: [u8; 14] = [0, 12, 1, 2, 0, 2, 0, 1, 7, 0, 0, 1, 0, 0];

#[test]
fn each_form_says_the_bytes() {
    assert_eq!(bytes("points 2 home 0\n0-1 7>\n0-1\n"), K);
    assert_eq!(bytes("# K\n\n  points\t2 home 0 # two\r\n0-1 7>\r\n  0-1#free"), K);
    assert_eq!(bytes("\u{FEFF}points 2 home 0\r0-1 7>\r0-1\r"), K);
    assert_eq!(bytes("000C 01 02 00 02\n00 01 07 00 00010000 # K"), K);
    assert_eq!(board_file::read(&K).expect("bytes").bytes, K);
    assert_eq!(bytes(" # nothing"), []);
    assert_eq!(board_file::read(b"").expect("no bytes").bytes, []);
    // From B to A, and a carrier that only version 2 has room for.
    assert_eq!(bytes("points 2 home 0\n0-1 <263\n0-1"), [0, 14, 2, 2, 0, 2, 0, 1, 1, 7, 1, 0, 1, 0, 0, 0]);
    // Decimal, whatever the digits look like.
    assert_eq!(bytes("points 2 home 0\n0-1 10>\n0-1")[8], 10);
    // As long as a text may be.
    let said = "points 2 home 0\n0-1 7>\n0-1\n";
    let most = said.to_string() + &" ".repeat(65_536 - said.len());
    assert_eq!(bytes(&most), K);
    assert_eq!(mistake(&(most + " ")), "4: a text of over 65536 bytes is no board");
    // A comment in Latin-1.
    assert_eq!(board_file::read(b"points 2 home 0 # zur\xFCck\n0-1 7>\n0-1").expect("a board's text").bytes, K);
}

#[test]
fn the_first_byte_tells_the_form() {
    for first in [0, 8, 14, 31, 127, 128, 255] {
        assert_eq!(board_file::read(&[first, b'0']).map(|given| given.bytes), Ok(vec![first, b'0']), "{first}");
    }
    for first in [9, 10, 11, 12, 13, 32] {
        assert_eq!(board_file::read(&[first, b'0', b'7']).map(|given| given.bytes), Ok(vec![7]), "{first}");
    }
}

#[test]
fn what_is_shown_is_read_again() {
    let board = Board::accepted(&K).expect("board K");
    assert_eq!(board.to_string(), "points 2 home 0\n0-1 7>\n0-1\n");
    assert_eq!(hexadecimal_shown(&K), "00 0C 01 02 00 02\n00 01 07 00\n00 01 00 00\n");
    let in_two = bytes("00 0E 02 02 00 02 00 01 00 07 01 00 01 01 07 00");
    assert_eq!(hexadecimal_shown(&in_two), "00 0E 02 02 00 02\n00 01 00 07 01\n00 01 01 07 00\n");
    assert_eq!(Board::accepted(&in_two).expect("a board in version 2").to_string(), "points 2 home 0\n0-1 <7\n0-1 263>\n");
}

#[test]
fn mistakes_have_their_lines() {
    let board = |lines: &str| mistake(&format!("points 2 home 0\n0-1\n{lines}\n"));
    assert_eq!(mistake("# no\npoints 2\n"), "2: the first line says points and home, as in: points 9 home 0");
    assert_eq!(mistake("points two home 0"), "1: points \"two\" is no number");
    assert_eq!(mistake("points 256 home 0"), "1: points 256 is over 64");
    assert_eq!(mistake("points 2 home 99999999999999999999"), "1: home 99999999999999999999 is over 63");
    assert_eq!(board("0"), "3: \"0\" is no zone: write 1-2 for a free one, 1-2 17> or 1-2 <17 for one with carrier 17");
    assert_eq!(board("0-1 17 >"), "3: \"0-1 17 >\" is no zone: write 1-2 for a free one, 1-2 17> or 1-2 <17 for one with carrier 17");
    assert_eq!(board("0-x"), "3: point \"x\" is no number");
    assert_eq!(board("0--1"), "3: point \"-1\" is no number");
    assert_eq!(board("0-256"), "3: point 256 is over 63");
    assert_eq!(board("0-1 17"), "3: \"17\" has no heading: write 17> from the first end to the second, <17 from the second to the first");
    assert_eq!(board("0-1 <17>"), "3: \"<17>\" has no heading: write 17> from the first end to the second, <17 from the second to the first");
    assert_eq!(board("0-1 +7>"), "3: carrier \"+7\" is no number");
    assert_eq!(board("0-1 65536>"), "3: carrier 65536 is over 65535");
    assert_eq!(board("0-1 0>"), "3: 0 is no carrier; a free zone has its ends alone");
    assert_eq!(mistake("points 2 home 0\r\n\r\n0-x\r\n"), "3: point \"x\" is no number");
    // What is quoted is cut.
    let xs = |count: usize| "x".repeat(count);
    assert_eq!(mistake(&format!("points {} home 0", xs(40))), format!("1: points \"{}\" is no number", xs(40)));
    assert_eq!(mistake(&format!("points {} home 0", xs(41))), format!("1: points \"{}..\" is no number", xs(40)));
    assert_eq!(board(&"0-1\n".repeat(255)), "257: a board has no more than 96 zones");
    assert_eq!(mistake("00 0C\n# not\n00 no\n"), "3: \"n\" is no hexadecimal digit, and a readable board starts with points");
    assert_eq!(mistake("00 0C\n0 1\n"), "2: the digit \"0\" stands alone; digits go in pairs");
    assert_eq!(mistake("00 0C 0"), "1: the digit \"0\" stands alone; digits go in pairs");
    assert_eq!(mistake("00 \u{0}\n"), "1: \"\\u{0}\" is no hexadecimal digit, and a readable board starts with points");
    assert_eq!(mistake(&"00\n".repeat(30_000)), "21846: a text of over 65536 bytes is no board");
}

#[test]
fn refusals_have_their_places() {
    assert_eq!(refusal("00 0C 01"), "refused 1: under 6 bytes: it has 3");
    let row_2 = "refused 2: L isn't the count of bytes after it";
    assert_eq!(refusal("00 0C 01 02 00 02\n00 01 00 00\n00 01 00"), format!("{row_2}: L says 12, and 11 bytes follow, line 1"));
    assert_eq!(refusal("00 0C 03 02 00 02\n00 01 00 00\n00 01 00 00"), "refused 3: version is neither 1 nor 2: version 3, line 1");
    assert_eq!(refusal("\npoints 1 home 0\n0-0\n0-0"), "refused 4: P, home or Z out of range: points 1; a board has 2 to 64, line 2");
    assert_eq!(refusal("points 65 home 0\n0-1\n0-1"), "refused 4: P, home or Z out of range: points 65; a board has 2 to 64, line 1");
    assert_eq!(refusal("points 2 home 2\n0-1\n0-1"), "refused 4: P, home or Z out of range: home 2; it must be below 2, the count of points, line 1");
    assert_eq!(refusal("points 2 home 0\n0-1"), "refused 4: P, home or Z out of range: zones 1; a board has 2 to 96, line 2");
    let zones = "0-1\n".repeat(97);
    assert_eq!(refusal(&format!("points 2 home 0\n{zones}")), "refused 4: P, home or Z out of range: zones 97; a board has 2 to 96, line 98");
    let row_5 = "refused 5: L isn't 4 + 4 × Z in version 1, 4 + 5 × Z in version 2: L says 12, and the zones need 16, line 1";
    assert_eq!(refusal("00 0C 01 02 00 03\n00 01 00 00\n00 01 00 00"), row_5);
    let row_6 = "refused 6: an end not below P, heading over 1, or a free zone with heading 1";
    assert_eq!(refusal("points 2 home 0\n\n0-1\n0-2"), format!("{row_6}: zone 1: there is no point 2, line 4"));
    assert_eq!(refusal("00 0C 01 02 00 02\n00 01 07 02\n00 01 00 00"), format!("{row_6}: zone 0: heading 2, line 2"));
    assert_eq!(refusal("00 0C 01 02 00 02\n00 01 07 00\n00 01 00 01"), format!("{row_6}: zone 1: free with heading 1, line 3"));
    let row_7 = "refused 7: a carrier in two zones";
    assert_eq!(refusal("points 2 home 0\n0-1 20>\n0-1\n# two\n0-1 <20"), format!("{row_7}: carrier 20 in zones 0 and 2, lines 2 and 5"));
    assert_eq!(refusal("00 0C 01 02 00 02 00 01 07 00 00 01 07 00"), format!("{row_7}: carrier 7 in zones 0 and 1, line 1"));
    assert_eq!(refusal("points 2 home 0\n0-1 300>\n0-1\n# two\n0-1 <300"), format!("{row_7}: carrier 300 in zones 0 and 2, lines 2 and 5"));
    let row_8 = "refused 8: a point other than home with under two zones, a turning loop counted twice";
    assert_eq!(refusal("points 3 home 0\n0-1\n0-1\n1-2"), format!("{row_8}: point 2 has one zone"));
    assert_eq!(refusal("points 3 home 0\n0-1\n0-1"), format!("{row_8}: point 2 has no zone"));
    assert_eq!(refusal("points 4 home 0\n0-1\n0-1\n2-3\n2-3"), "refused 9: points that don't hang together: point 2 doesn't hang together with home");
    // Each byte of the head on a line of its own.
    let heads = ["00 0B 01 02 00 02", "00 0C 03 02 00 02", "00 0C 01 01 00 02", "00 0C 01 02 02 02", "00 0C 01 02 00 01", "00 0C 01 02 00 03"];
    for (head, line) in heads.into_iter().zip([1, 3, 4, 5, 6, 1]) {
        let said = refusal(&format!("{head} 00 01 00 00 00 01 00 00").replace(' ', "\n"));
        assert!(said.ends_with(&format!(", line {line}")), "{head}: {said}");
    }
    // In bytes there are no lines.
    let mut wide = K;
    wide[6] = 9;
    let given = board_file::read(&wide).expect("bytes");
    let said = refused::in_words(Board::accepted(&wide).expect_err("a refused board"), &given);
    assert_eq!(said, format!("{row_6}: zone 0: there is no point 9"));
}
