//! The lines and rows of marks: every number with its meaning, place and reason in words.

use examiner::board::Board;
use examiner::board_file;
use examiner::candidates::{candidates, Candidate};
use examiner::marks::{marked, rows, shared_names, table};

fn board(text: &str) -> Board {
    Board::accepted(&board_file::read(text.as_bytes()).expect("a board's text").bytes).expect("an accepted board")
}

/// The line of a sheet in words, without the name.
fn line(board: &Board, sheet: &[u16]) -> String {
    let candidate = Candidate { name: "A".to_string(), sheet: Ok(sheet.to_vec()) };
    let table = table(&[marked(board, "file", candidate)]);
    table.lines().next().unwrap_or_default().trim_start_matches("A  ").to_string()
}

#[test]
fn every_reason_in_words() {
    let k = board("points 2 home 0\n0-1 7>\n0-1");
    assert_eq!(line(&k, &[0, 7, 2, 0, 3]), " 0  right");
    assert_eq!(line(&k, &[]), "30  not a whole sheet: empty");
    assert_eq!(line(&k, &[2]), "30  not a whole sheet: starts with 2, neither 0 nor 1");
    assert_eq!(line(&k, &[0, 7]), "30  not a whole sheet: entry 1 (carrier 7): has no count of words");
    assert_eq!(line(&k, &[0, 7, 0]), "30  not a whole sheet: entry 1 (carrier 7): has no route");
    assert_eq!(line(&k, &[0, 7, 3, 0, 3]), "30  not a whole sheet: entry 1 (carrier 7): counts 3 words where 2 are left");
    assert_eq!(line(&k, &[0, 8, 1, 0]), "31  carrier isn't still out: entry 1 (carrier 8): isn't on the board");
    assert_eq!(line(&k, &[0, 7, 2, 0, 3, 7, 2, 0, 3]), "31  carrier isn't still out: entry 2 (carrier 7): home already by entry 1");
    let breaks = "32  word breaks the moving rules: entry 1 (carrier 7)";
    assert_eq!(line(&k, &[0, 7, 2, 1, 3]), format!("{breaks}, word 1 (0-): not its standing: it stands in 0+"));
    assert_eq!(line(&k, &[0, 7, 2, 0, 4]), format!("{breaks}, word 2 (2+): no such zone; the last is 1"));
    assert_eq!(line(&k, &[0, 7, 4, 0, 3, 0, 3]), format!("{breaks}, word 3 (0+): runs on through home"));
    let apart = "doesn't touch: starts at point 0, not at 1";
    assert_eq!(line(&k, &[0, 7, 2, 0, 2]), format!("{breaks}, word 2 (1+): {apart}"));
    assert_eq!(line(&k, &[0, 7, 2, 0, 1]), format!("{breaks}, word 2 (0-): the same zone again"));
    assert_eq!(line(&k, &[0, 7, 1, 0]), "33  route doesn't leave at home: entry 1 (carrier 7), word 1 (0+): leaves at point 1");
    assert_eq!(line(&k, &[0]), "34  carrier still out at the end: 7");
    assert_eq!(line(&k, &[1, 7]), "35  false claim of blocked: no carrier is blocked");
    let both_in = board("points 2 home 0\n0-1 <7\n0-1 <9");
    assert_eq!(line(&both_in, &[0]), "34  carrier still out at the end: 7 9");
    let one_out = board("points 2 home 0\n0-1 7>\n0-1 <9");
    assert_eq!(line(&one_out, &[0, 7, 2, 0, 3]), format!("{breaks}, word 2 (1-): held by 9"));
    // 9 is home by then, and its zone free.
    assert_eq!(line(&one_out, &[0, 9, 1, 3, 7, 2, 0, 3]), " 0  right");
    let far_loop = board("points 4 home 0\n0-1 5>\n1-2 6>\n2-3\n2-3");
    let claim = "35  false claim of blocked";
    assert_eq!(line(&far_loop, &[1, 5, 6]), " 0  right");
    assert_eq!(line(&far_loop, &[1, 5, 6, 7]), format!("{claim}: named but not blocked: 7"));
    assert_eq!(line(&far_loop, &[1, 6]), format!("{claim}: blocked but not named: 5"));
    assert_eq!(line(&far_loop, &[1, 6, 5]), format!("{claim}: not ascending: 5 in place 2"));
    assert_eq!(line(&far_loop, &[1, 4, 4]), format!("{claim}: named but not blocked: 4; blocked but not named: 5 6; not ascending: 4 in place 2"));
}

#[test]
fn a_long_list_is_cut() {
    let far_loop = board("points 4 home 0\n0-1 5>\n1-2 6>\n2-3\n2-3");
    let claim: Vec<u16> = [1, 5, 6].into_iter().chain(101..=200).collect();
    let named: Vec<String> = (101..=196).map(|carrier: u16| carrier.to_string()).collect();
    assert_eq!(line(&far_loop, &claim), format!("35  false claim of blocked: named but not blocked: {} and 4 more", named.join(" ")));
}

#[test]
fn lines_rows_and_counts() {
    let k = board("points 2 home 0\n0-1 7>\n0-1");
    let sheets = [("Anna", "home 7: 0+ 1-"), ("=1+1", "home 7: 0+ 0-"), ("Cy, \"late\"\x1b[2J", "home 7"), ("D", "blocked 7"), ("E", "home 7: 0+")];
    let file: String = sheets.iter().map(|(name, line)| format!("candidate {name}\n{line}\n")).collect();
    let marks: Vec<_> = candidates("f", file.as_bytes()).into_iter().map(|candidate| marked(&k, "f", candidate)).collect();
    let expected = [
        "Anna                  0  right",
        "=1+1                 32  word breaks the moving rules: entry 1 (carrier 7), word 2 (0-): the same zone again",
        "Cy, \"late\"\\u{1b}[2J   -  malformed, not marked: f:6: a home line is the carrier, a colon and its route, as in: home 7: 0+ 1-",
        "D                    35  false claim of blocked: no carrier is blocked",
        "E                    33  route doesn't leave at home: entry 1 (carrier 7), word 1 (0+): leaves at point 1",
        "sheets 5, right 1, wrong 3 (32: 1, 33: 1, 35: 1), malformed 1",
    ];
    assert_eq!(table(&marks).lines().collect::<Vec<_>>(), expected);
    let expected = [
        "name,number,meaning,entry,carrier,word,zone,heading,reason",
        "Anna,0,right,,,,,,",
        "'=1+1,32,word breaks the moving rules,1,7,2,0,B to A,the same zone again",
        "\"Cy, \"\"late\"\"\\u{1b}[2J\",,malformed,,,,,,\"f:6: a home line is the carrier, a colon and its route, as in: home 7: 0+ 1-\"",
        "D,35,false claim of blocked,,,,,,no carrier is blocked",
        "E,33,route doesn't leave at home,1,7,1,0,A to B,leaves at point 1",
    ];
    assert_eq!(rows(&marks).lines().collect::<Vec<_>>(), expected);
    // What a spreadsheet would take for a formula, and what parts cells.
    let empty_sheet = |name: &&str| marked(&k, "f", Candidate { name: name.to_string(), sheet: Ok(vec![]) });
    let of = |names: &[&str]| -> Vec<_> { names.iter().map(empty_sheet).collect() };
    let empty = "30,not a whole sheet,,,,,,empty";
    for name in ["=1", "+1", "-1", "@1", " =1", "\u{FF1D}1", "\u{FF0B}1", "\u{FF0D}1", "\u{FF20}1"] {
        assert!(rows(&of(&[name])).ends_with(&format!("\n'{name},{empty}\n")), "{name}");
    }
    for name in ["A,B", "A;B", "A B\""] {
        assert!(rows(&of(&[name])).ends_with(&format!("\n\"{}\",{empty}\n", name.replace('"', "\"\""))), "{name}");
    }
    assert!(rows(&of(&["A\tB\u{9B}2J\u{202E}\u{200B}"])).ends_with(&format!("\nA\\u{{9}}B\\u{{9b}}2J\\u{{202e}}\\u{{200b}},{empty}\n")));
    // The names' column is as wide as the longest name, up to 40 characters.
    let long = "n".repeat(41);
    let counted = "sheets 2, right 0, wrong 2 (30: 2), malformed 0\n";
    let empty = "30  not a whole sheet: empty";
    assert_eq!(table(&of(&["A", &long])), format!("A{}  {empty}\n{long}  {empty}\n{counted}", " ".repeat(39)));
    assert_eq!(table(&of(&["Jörg", "A"])), format!("Jörg  {empty}\nA     {empty}\n{counted}"));
    assert_eq!(shared_names(&of(&["A", "B", "A", "A"])), [("A".to_string(), 3)]);
    assert_eq!(table(&[]), "sheets 0, right 0, wrong 0, malformed 0\n");
}
