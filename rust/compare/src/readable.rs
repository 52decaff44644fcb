//! Round trips through the examiner's tool: boards and sheets written as texts, as rows of a spreadsheet and as bytes, and read again.

use crate::differ;
use compare::random::Random;
use compare::texts;
use examiner::board::Board;
use examiner::board_file::{self, hexadecimal_shown, Given};
use examiner::candidates::{candidates, Candidate};
use examiner::page::page;
use second::Key;

/// The bytes that a board's file says, with a line for each byte of a text.
fn read(bytes: &[u8], file: &[u8], text: bool) -> Vec<u8> {
    match board_file::read(file) {
        Ok(Given { bytes, lines }) if lines.len() == if text { bytes.len() } else { 0 } => bytes,
        other => differ("a board's file", bytes, format!("{}\n{other:?}", String::from_utf8_lossy(file))),
    }
}

/// An accepted board through each form: its bytes and hexadecimal give these bytes again, the readable form what the library's writer gives.
pub fn compare_forms(random: &mut Random, board: &second::Board, bytes: &[u8]) {
    let mut copy = vec![0; nizkabel::COPY_ROOM];
    let write = nizkabel::write(bytes, &board.sheet(), &mut copy);
    copy.truncate(write.bytes);
    let shown = match Board::accepted(bytes) {
        Ok(accepted) => accepted.to_string(),
        Err(refused) => differ("an accepted board", bytes, refused.to_string()),
    };
    if shown != texts::board_lines(board).join("\n") + "\n" {
        differ("a board's readable form", bytes, shown);
    }
    let again = [read(bytes, shown.as_bytes(), true), read(bytes, texts::written(random, &texts::board_lines(board)).as_bytes(), true)];
    let same = [read(bytes, bytes, false), read(bytes, hexadecimal_shown(bytes).as_bytes(), true)];
    if write.number != 0 || again.iter().any(|again| *again != copy) || same.iter().any(|same| same != bytes) {
        differ("a board read again", bytes, format!("{shown}\nread {again:?} {same:?}\ncopy {copy:?}"));
    }
}

/// What `key` prints, from the second implementation's key.
pub fn compare_page(bytes: &[u8], key: &Key) {
    let page = page(bytes);
    let expected = match (second::read(bytes), texts::sheet_lines(&[&[0], &key.plan[..]].concat())) {
        _ if bytes.len() > 486 => "too long\n".to_string(),
        (Err(number), _) => format!("refused {number}\n"),
        (Ok(board), lines) => {
            let (points, zones, out) = (board.points, board.zones.len(), board.carriers().len());
            let homes: String = lines.unwrap_or_default().iter().filter(|line| line.starts_with("home")).map(|line| format!("{line}\n")).collect();
            let list: Vec<String> = key.list.iter().map(|c| c.to_string()).collect();
            let blocked = if list.is_empty() { "none".to_string() } else { list.join(" ") };
            format!("board {points} points {zones} zones {out} out\nverdict {}\n{homes}blocked {blocked}\n", key.verdict)
        }
    };
    if page != expected {
        differ("the key's page", bytes, format!("expected {expected}\ngot {page}"));
    }
}

/// Sheets through each form. Gives how many of them could be said in lines.
pub fn compare_sheets(random: &mut Random, bytes: &[u8], sheets: &[Vec<u16>]) -> usize {
    let check = |what: &str, file: &[u8], expected: Vec<(String, &Vec<u16>)>| {
        let expected: Vec<Candidate> = expected.into_iter().map(|(name, sheet)| Candidate { name, sheet: Ok(sheet.clone()) }).collect();
        let got = candidates("file", file);
        if got != expected {
            differ(what, bytes, format!("{}\nexpected {expected:?}\ngot {got:?}", String::from_utf8_lossy(file)));
        }
    };
    let (mut named, mut said) = (Vec::new(), Vec::new());
    for (number, sheet) in sheets.iter().enumerate() {
        // A sheet whose first byte is a character's would be taken for a text, and gets 30 in either case.
        if sheet.first().is_none_or(|&first| first < 2) {
            let file: Vec<u8> = sheet.iter().flat_map(|word| word.to_be_bytes()).collect();
            check("a sheet in bytes", &file, vec![("file".to_string(), sheet)]);
        }
        let Some(lines) = texts::sheet_lines(sheet) else { continue };
        let file = texts::with_passed_over(random, &lines);
        check("a sheet in lines", texts::written(random, &file).as_bytes(), vec![("file".to_string(), sheet)]);
        let name = texts::name(random, number);
        said.push((name.clone(), sheet));
        named.push((name, lines));
    }
    if !named.is_empty() {
        check("candidates", texts::of_candidates(random, &named).as_bytes(), said.clone());
        check("rows of a spreadsheet", texts::as_rows(random, &named).as_bytes(), said);
    }
    named.len()
}
