//! Files of sheets: what each form says, and the mistakes in them.

use examiner::candidates::candidates;

/// The names and the sheets of a file, or the mistakes in them.
fn read(file: &str) -> Vec<(String, Result<Vec<u16>, String>)> {
    candidates("file", file.as_bytes()).into_iter().map(|c| (c.name, c.sheet.map_err(|mistake| mistake.to_string()))).collect()
}

/// The one sheet of a file that names nobody.
fn sheet(text: &str) -> Result<Vec<u16>, String> {
    let [(name, sheet)] = &read(text)[..] else { panic!("one sheet: {text}") };
    assert_eq!(name, "file");
    sheet.clone()
}

fn right(names: &[(&str, &[u16])]) -> Vec<(String, Result<Vec<u16>, String>)> {
    names.iter().map(|(name, sheet)| (name.to_string(), Ok(sheet.to_vec()))).collect()
}

#[test]
fn lines_say_the_words() {
    assert_eq!(sheet("home 7: 0+ 1-\n"), Ok(vec![0, 7, 2, 0, 3]));
    assert_eq!(sheet("home 7: 0+ 1-\nblocked none\n"), Ok(vec![0, 7, 2, 0, 3]));
    assert_eq!(sheet("blocked none\nhome 9: 1-\nhome 7: 0+ 1-"), Ok(vec![0, 9, 1, 3, 7, 2, 0, 3]));
    assert_eq!(sheet("board 2 points 2 zones 1 out\nverdict 0\nhome 7: 0+ 1-\nblocked none\n"), Ok(vec![0, 7, 2, 0, 3]));
    assert_eq!(sheet("verdict 20\nblocked 5 6 # both"), Ok(vec![1, 5, 6]));
    assert_eq!(sheet("blocked none"), Ok(vec![0]));
    assert_eq!(sheet(""), Ok(vec![]));
    assert_eq!(sheet(" \n\r\n"), Ok(vec![]));
    assert_eq!(sheet("board\t4\tpoints\nverdict"), Ok(vec![]));
    assert_eq!(sheet("\thome  007 :\t0+   32767- \r\n"), Ok(vec![0, 7, 2, 0, 65_535]));
    assert_eq!(sheet("home 65535:"), Ok(vec![0, 65_535, 0]));
    assert_eq!(sheet("home 0: 0+"), Ok(vec![0, 0, 1, 0]));
}

#[test]
fn mistakes_have_their_lines() {
    assert_eq!(sheet("home 7: 0+\n\nblocked 9"), Err("3: blocked carriers after home: a sheet is a plan or a claim".to_string()));
    assert_eq!(sheet("blocked 9\nhome 7: 0+"), Err("2: home after blocked carriers: a sheet is a plan or a claim".to_string()));
    assert_eq!(sheet("blocked none\nblocked 9"), Err("2: a second blocked line".to_string()));
    assert_eq!(sheet("blocked none\nhome 7: 0+\nblocked none"), Err("3: a second blocked line".to_string()));
    assert_eq!(sheet("blocked 9\nblocked 8"), Err("2: a second blocked line".to_string()));
    assert_eq!(sheet("blocked 9\nblocked none"), Err("2: a second blocked line".to_string()));
    assert_eq!(sheet("blocked none 5"), Err("1: carrier \"none\" is no number".to_string()));
    assert_eq!(sheet("blocked None"), Err("1: carrier \"None\" is no number".to_string()));
    assert_eq!(sheet("blocked"), Err("1: blocked says none, or the carriers that are".to_string()));
    assert_eq!(sheet("blocked 5 none"), Err("1: carrier \"none\" is no number".to_string()));
    assert_eq!(sheet("home 7: 0+\nhmoe 9: 1-"), Err("2: \"hmoe\" starts no line of a sheet: those are home and blocked".to_string()));
    assert_eq!(sheet("refused 7"), Err("1: \"refused\" starts no line of a sheet: those are home and blocked".to_string()));
    assert_eq!(sheet("home 7 0+ 1-"), Err("1: a home line is the carrier, a colon and its route, as in: home 7: 0+ 1-".to_string()));
    assert_eq!(sheet("home : 0+"), Err("1: carrier \"\" is no number".to_string()));
    assert_eq!(sheet("home 7: 0"), Err("1: \"0\" is no zone with + or - for its heading".to_string()));
    assert_eq!(sheet("home 7: 0+, 1-"), Err("1: \"0+,\" is no zone with + or - for its heading".to_string()));
    assert_eq!(sheet("home 7: -"), Err("1: zone \"\" is no number".to_string()));
    assert_eq!(sheet("home 7: 0A+"), Err("1: zone \"0A\" is no number".to_string()));
    assert_eq!(sheet("home 7: 32768+"), Err("1: zone 32768 is over 32767".to_string()));
    assert_eq!(sheet("home 65536: 0+"), Err("1: carrier 65536 is over 65535".to_string()));
    assert_eq!(sheet("blocked 65536"), Err("1: carrier 65536 is over 65535".to_string()));
    assert_eq!(sheet("\n# nothing, at all; really\n"), Err("1: nothing but comments".to_string()));
    // A page on one line.
    assert_eq!(sheet("board 2 points verdict 0 home 7: 0+ 1- blocked none"), Err("1: more than a board line, which is passed over".to_string()));
    assert_eq!(sheet("board 4 home 7 0+"), Err("1: more than a board line, which is passed over".to_string()));
    assert_eq!(sheet("home 4294967303: 0+"), Err("1: carrier 4294967303 is over 65535".to_string()));
    // A stray # in a line.
    let routes = ["home 7:# 0+ 1-", "home 7: 0+ #1-", "home 7: 0+# 1–", "home 7: 0+ # then home 9: 1-", "home 7: 0+ # Blocked None"];
    for stray in routes.into_iter().chain(["blocked 5 # blocked 6", "blocked 5 #6", "blocked 5 # and 6"]) {
        assert_eq!(sheet(stray), Err("1: part of a sheet in a comment".to_string()));
    }
    for more in ["verdict Blocked 5 6", "verdict BLOCKED", "board 3 Home 7 0 1", "board 3 7 0+", "verdict 0 7 0+1-", "board 3: 7 0"] {
        let word = more.split(' ').next().unwrap();
        assert_eq!(sheet(more), Err(format!("1: more than a {word} line, which is passed over")));
    }
    assert_eq!(sheet("home 7: 0+ 1- # he took 2 minutes, 9 in all\nblocked none # 9:40"), Ok(vec![0, 7, 2, 0, 3]));
    assert_eq!(sheet("verdict 0\nboard 3; late"), Err("2: more than a board line, which is passed over".to_string()));
    assert_eq!(sheet("verdict 20 blocked 7 9"), Err("1: more than a verdict line, which is passed over".to_string()));
    let long = format!("home 7:{}", " 0+".repeat(65_536));
    assert_eq!(sheet(&long), Err("1: a route has no more than 65535 words".to_string()));
}

#[test]
fn several_candidates_in_a_file() {
    let file = "# sitting 4\ncandidate Anna # from the left\nhome 7: 0+ 1-\n\ncandidate\tBo #2, late\nblocked 7\ncandidate Cy\n";
    assert_eq!(read(file), right(&[("Anna", &[0, 7, 2, 0, 3]), ("Bo #2, late", &[1, 7]), ("Cy", &[])]));
    let mistaken = read("home 7: 0+\ncandidate\nhome 7: 0+\ncandidate Di\nhome 7\ncandidate Ed\nblocked 7");
    let expected = [
        ("file", Err("1: a line before the first candidate".to_string())),
        ("(no name)", Err("2: a candidate without a name".to_string())),
        ("Di", Err("5: a home line is the carrier, a colon and its route, as in: home 7: 0+ 1-".to_string())),
        ("Ed", Ok(vec![1, 7])),
    ];
    assert_eq!(mistaken, expected.map(|(name, sheet)| (name.to_string(), sheet)));
    assert_eq!(read("\u{FEFF}CANDIDATE Anna\nblocked 7\n\u{FEFF}Candidate Bo\n"), right(&[("Anna", &[1, 7]), ("Bo", &[])]));
    assert_eq!(read("  candidate Anna\n  blocked 7\n\tcandidate Bo\n"), right(&[("Anna", &[1, 7]), ("Bo", &[])]));
    // A comment has white space on both sides.
    let commented = "candidate Bo# late\nblocked 7\ncandidate Cy #2\ncandidate Di #\n";
    assert_eq!(read(commented), right(&[("Bo# late", &[1, 7]), ("Cy #2", &[]), ("Di", &[])]));
    let no_candidate = Err("3: \"candidates\" starts no line of a sheet: those are home and blocked".to_string());
    assert_eq!(read("candidate Anna\nblocked 7\ncandidates\n"), [("Anna".to_string(), no_candidate)]);
    // The sheet goes on lines of its own.
    let parted = ["Anna home 7: 0+ 1-", "Anna\t7: 0+", "Anna blocked 7", "Anna,blocked 7", "Bo;7: 0+ 1-", "Cy blocked 7, 9"];
    let mistyped = ["Di home 7 0+ 1-", "Ed home 7: 0+ 1", "Fy Blocked 7", "Gi home 7:", "Hy blocked none", "Io Blocked None"];
    let dashed = ["Ky 7: 1–", "Ly 7: 1\u{96} 0\u{96}", "My 7: 1－", "No 7: 1＋", "Oz 7: 1-0-", "Pi: 70000-"];
    for name in parted.into_iter().chain(mistyped).chain(dashed) {
        let two = [("Zoe".to_string(), Ok(vec![1, 7])), (name.to_string(), Err("3: part of a sheet in a name".to_string()))];
        assert_eq!(read(&format!("candidate Zoe\nblocked 7\ncandidate {name}")), two);
    }
    assert_eq!(read("candidate Group 2: Anna\nblocked 7"), right(&[("Group 2: Anna", &[1, 7])]));
    for name in ["12- Anna", "Anna 4", "Al-1-b", "Bo 1 - 2", "1–2", "Cy 4b-", "Home 7"] {
        assert_eq!(read(&format!("candidate {name}\nblocked 7")), right(&[(name, &[1, 7])]));
    }
    for end in ['\u{B}', '\u{C}', '\u{2028}'] {
        let two_lines = format!("Anna{end}candidate Bo");
        assert_eq!(read(&format!("candidate {two_lines}\nblocked 7")), [(two_lines, Err("1: a name over several lines".to_string()))]);
    }
    // What stands in comments may have been meant.
    let beside = |name: &str| [(name.to_string(), Err("1: part of a sheet in a comment".to_string()))];
    assert_eq!(read("candidate Anna # blocked 5 6\n"), beside("Anna"));
    assert_eq!(read("candidate Anna # home 7: 0+\nblocked none"), beside("Anna"));
    assert_eq!(read("candidate Anna # came at 9:40\nblocked 7"), right(&[("Anna", &[1, 7])]));
    let below = Err("3: a line after a candidate in a comment".to_string());
    assert_eq!(read("candidate Anna\nblocked none # candidate Bo\nhome 7: 0+"), [("Anna".to_string(), below)]);
    assert_eq!(read("candidate Anna\nblocked none # candidate of the left room\n# late"), right(&[("Anna", &[0])]));
    assert_eq!(read("candidate Anna\n#home 7: 0+"), [("Anna".to_string(), Err("2: a sheet in a comment".to_string()))]);
    let after = Err("4: a line after a candidate in a comment".to_string());
    assert_eq!(read("candidate Anna\nhome 7: 0+\n## candidate Bo\nhome 9: 1-"), [("Anna".to_string(), after)]);
    // Names that aren't in UTF-8, beside one that is.
    let names: Vec<String> = candidates("file", b"candidate J\xF6rg\ncandidate J\xC3\xB6rg").into_iter().map(|c| c.name).collect();
    assert_eq!(names, ["Jörg", "Jörg"]);
}

#[test]
fn rows_of_a_spreadsheet() {
    let three = right(&[("Anna", &[0, 7, 2, 0, 3]), ("Bo, late", &[0, 9, 1, 3, 7, 2, 0, 3]), ("Cy", &[1, 7, 9])]);
    assert_eq!(read("name,entries\nAnna,home 7: 0+ 1-\n\"Bo, late\",9: 1-,7: 0+ 1-,\nCy,blocked 7 9,,\n,,\n"), three);
    assert_eq!(read("Anna;home 7: 0+ 1-;blocked none\r\nBo, late;9: 1-;7: 0+ 1-\r\nCy;blocked 7 9\r\n"), three);
    assert_eq!(read("\u{FEFF}Anna\t7: 0+ 1-\n\"Bo, late\"\t\"home 9: 1-\nhome 7: 0+ 1-\"\nCy\tblocked 7 9"), three);
    assert_eq!(read("\"\"\"Al\"\"\",blocked none\nNo One,\n"), right(&[("\"Al\"", &[0]), ("No One", &[])]));
    assert_eq!(read("Łucja,blocked 7\n"), right(&[("Łucja", &[1, 7])]));
    assert_eq!(read(" name ,entries\n Name ,blocked 7 # late\n"), right(&[("Name", &[1, 7])]));
    assert_eq!(read("\"Anna\" ,\"blocked 7\" \n"), right(&[("Anna", &[1, 7])]));
    assert_eq!(read("Bo; Cy, late\tblocked 7\n"), right(&[("Bo; Cy, late", &[1, 7])]));
    let mistaken = read("Anna,7: 0+ 1-\nBo,7: 0+\n,7: 0+\n\"Cy\" x,7: 0+\nDi,\"7: 0+\n\n9: 1\"\nEd,7: 0+,\"9: 1-\nFy,7: 0+\n");
    let expected = [
        ("Anna", Ok(vec![0, 7, 2, 0, 3])),
        ("Bo", Ok(vec![0, 7, 1, 0])),
        ("(no name)", Err("3: a candidate without a name".to_string())),
        ("Cy x", Err("4: \" x\" after the quote that closes a cell".to_string())),
        ("Di", Err("7: \"1\" is no zone with + or - for its heading".to_string())),
        ("Ed", Err("8: a quote that opens a cell isn't closed, so all up to line 10, the last, is in that cell".to_string())),
    ];
    assert_eq!(mistaken, expected.map(|(name, sheet)| (name.to_string(), sheet)));
}

/// Whatever is odd about a file of rows, no candidate vanishes, none gets another's sheet, and no sheet is taken for an empty one.
#[test]
fn odd_rows_are_malformed() {
    let mistake = |line: usize, what: &str| Err(format!("{line}: {what}"));
    let expect = |file: &str, expected: &[(&str, Result<Vec<u16>, String>)]| {
        assert_eq!(read(file), expected.iter().map(|(name, sheet)| (name.to_string(), sheet.clone())).collect::<Vec<_>>(), "{file}");
    };
    let seven = || Ok(vec![0, 7, 1, 0]);
    let open = |line, last| mistake(line, &format!("a quote that opens a cell isn't closed, so all up to line {last}, the last, is in that cell"));
    let alone = |line, separator| mistake(line, &format!("a row is a name and cells for its sheet, and no {separator} parts them here"));
    // Heads with a quote, or with a sheet.
    expect("name,\"entries\nAnna,7: 0+\n", &[("name", open(1, 3))]);
    expect("name,\"entries\nAnna,\"7: 0+\nBo,7: 0+", &[("name", mistake(2, "\"7: 0+\" after the quote that closes a cell")), ("Bo", seven())]);
    expect("Name,7: 0+\nBo,7: 0+\n", &[("Name", seven()), ("Bo", seven())]);
    expect("name,7: 0\nBo,7: 0+\n", &[("name", mistake(1, "\"0\" is no zone with + or - for its heading")), ("Bo", seven())]);
    let home_line = mistake(1, "a home line is the carrier, a colon and its route, as in: home 7: 0+ 1-");
    expect("name,home 7 0+\nBo,7: 0+", &[("name", home_line), ("Bo", seven())]);
    let no_line = |line, word: &str| mistake(line, &format!("{word:?} starts no line of a sheet: those are home and blocked"));
    expect("name,entries\nname,entries\nBo,7: 0+", &[("name", no_line(2, "entries")), ("Bo", seven())]);
    expect("name,\"two\nlines\"\nBo,7: 0+", &[("name", no_line(1, "two")), ("Bo", seven())]);
    expect("name,\"entries\" x\nBo,7: 0+", &[("name", mistake(1, "\" x\" after the quote that closes a cell")), ("Bo", seven())]);
    expect("Yard\nAnna,7: 0+", &[("file", no_line(1, "Yard"))]);
    // Another separator in some rows.
    expect("name,entries\nAnna;7: 0+\nBo,7: 0+", &[("Anna;7: 0+", alone(2, "','")), ("Bo", seven())]);
    expect("Cy; x,7: 0+\nBo,7: 0+\n", &[("Cy; x", seven()), ("Bo", seven())]);
    expect("Cy, x;7: 0+\nBo;7: 0+\nDi, y;7: 0+", &[("Cy, x", seven()), ("Bo", seven()), ("Di, y", seven())]);
    expect("name\tentries, one a cell\nAnna,7: 0+\nBo,7: 0+", &[("name\tentries", no_line(1, "one")), ("Anna", seven()), ("Bo", seven())]);
    expect("sep=;\nname;entries\nAnna;7: 0+", &[("Anna", seven())]);
    // Quotes over several rows.
    expect("Anna,7: 0+\n\"Bo,7: 0+\nCy\",7: 0+\n", &[("Anna", seven()), ("Bo,7: 0+\nCy", mistake(2, "a name over several lines"))]);
    expect("\"Anna\nAbel\",7: 0+\nBo,7: 0+", &[("Anna\nAbel", mistake(1, "a name over several lines")), ("Bo", seven())]);
    let after = |line, text: &str| mistake(line, &format!("{text:?} after the quote that closes a cell"));
    expect("\"Cy\" x,\"7: 0+\" y\n", &[("Cy x", after(1, " x"))]);
    expect("Cy,\"7: 0+\n9: 1-\" y\n", &[("Cy", after(2, " y"))]);
    expect("Anna,7: 0+\n,\"", &[("Anna", seven()), ("(no name)", open(2, 2))]);
    expect("Anna,7: 0+\n  ,7: 0+", &[("Anna", seven()), ("(no name)", mistake(2, "a candidate without a name"))]);
    // A line's end of two characters is one.
    let zone = |line| mistake(line, "\"0\" is no zone with + or - for its heading");
    expect("Anna,7: 0\r\n\r\nBo,\"7: 0+\r\n9: 0\"\r\n", &[("Anna", zone(1)), ("Bo", zone(4))]);
    expect("Anna,+7: 0+\n", &[("Anna", no_line(1, "+7:"))]);
    // A sheet that another separator parts from the name.
    let in_name = |line| mistake(line, "part of a sheet in a name");
    expect("Candidate 1,7: 0+\nCandidate 2,7: 0+", &[("Candidate 1", seven()), ("Candidate 2", seven())]);
    // Rows that start as a `candidate` line does.
    let dash = |line, word: &str| mistake(line, &format!("{word:?} is no zone with + or - for its heading"));
    expect("Candidate 4,7: 1–", &[("Candidate 4", dash(1, "1–"))]);
    expect("candidate 4,7: 1–\nAnna,7: 0+", &[("candidate 4", dash(1, "1–")), ("Anna", seven())]);
    expect("candidate Anna\nhome 7: 0+\ncandidate 4,7: 1−", &[("Anna", seven()), ("4,7: 1−", mistake(3, "part of a sheet in a name"))]);
    expect("#3,\"blocked 12\",\nCandidate 4,\"11: 1–\"", &[("#3", Ok(vec![1, 12])), ("Candidate 4", dash(2, "1–"))]);
    expect("Candidate 1;7: 0+\nCandidate 2;\nCandidate 3;bloked none", &[
        ("Candidate 1", seven()),
        ("Candidate 2", Ok(vec![])),
        ("Candidate 3", no_line(3, "bloked")),
    ]);
    let page = "\"board 1 points 1 zones 1 out\nverdict 0\nhome 7: 0+\nblocked none\"";
    expect(&format!("Candidate 1,{page}\nCandidate 2,7: 0+"), &[("Candidate 1", seven()), ("Candidate 2", seven())]);
    expect("Candidate Anna # ill, absent\nCandidate Bo\nhome 7: 0+", &[("Anna", Ok(vec![])), ("Bo", seven())]);
    expect("Candidate 1\t7: 0+\nCandidate 2\t", &[("Candidate 1", seven()), ("Candidate 2", Ok(vec![]))]);
    expect("Candidate\tbloked 7\nAnna\t7: 0+", &[("Candidate", no_line(1, "bloked")), ("Anna", seven())]);
    expect("Candidate\tAnna\nhome 7: 0+", &[("Anna", seven())]);
    let row = |line| mistake(line, "a spreadsheet's row, or a candidate without a sheet");
    expect("Candidate Anna\nhome 7: 0+\nCandidate 4,bloked none", &[("Anna", seven()), ("4,bloked none", row(3))]);
    expect("Candidate Abel, Anna\n# room 4\n  home 7: 0+", &[("Abel, Anna", seven())]);
    expect("Candidate Abel, Anna\nhome 7: 0+\nCandidate Baker, Bo", &[("Abel, Anna", seven()), ("Baker, Bo", row(3))]);
    expect(" candidate Abel, Anna\ncandidate Baker, Bo\nhome 7: 0+", &[("Abel, Anna", Ok(vec![])), ("Baker, Bo", seven())]);
    expect("Anna,7: 0+;\nBo,7: 0+;\n", &[("file", no_line(1, "Anna,7:"))]);
    expect("Anna,7: 0+;9: 1-", &[("file", no_line(1, "Anna,7:"))]);
    expect("Anna,7: 0+\nBo;7: 0+ 1-,blocked none", &[("Anna", seven()), ("Bo;7: 0+ 1-", in_name(2))]);
    expect("Anna,7: 0+\nBo;\"7: 0+ 1-\",\nCy|blocked 7,,", &[("Anna", seven()), ("Bo;\"7: 0+ 1-\"", in_name(2)), ("Cy|blocked 7", in_name(3))]);
    expect("Anna\t7: 0+\n#3;blocked 7", &[("Anna", seven()), ("#3;blocked 7", alone(2, "'\\t'"))]);
    // A cell is no comment.
    expect("Anna,#NAME?\nBo,#7: 0+", &[("Anna", no_line(1, "#NAME?")), ("Bo", no_line(2, "#7:"))]);
    expect("Anna,7: 0+ # late\nBo,7:# 0+", &[("Anna", seven()), ("Bo", mistake(2, "part of a sheet in a comment"))]);
    expect("name,1,2\nAnna,7: 0+\n", &[("Anna", seven())]);
    expect("name,home,blocked\nAnna,7: 0+\n\u{FEFF}Bo,7: 0+", &[("Anna", seven()), ("Bo", seven())]);
    expect("Name,Home 7: 0+\nBo,7: 0+\n", &[("Name", no_line(1, "Home")), ("Bo", seven())]);
    // Comments, and names that start as one.
    expect("# room 4\n,,\nname,entries\nAnna,7: 0+\n# absent\n", &[("Anna", seven())]);
    expect("Anna,7: 0+\n#2,7: 0+\n#3,\n", &[("Anna", seven()), ("#2", seven()), ("#3", mistake(3, "a comment, or a candidate without a sheet"))]);
    expect("#1,7: 0+\n#2,7: 0+\n", &[("file", mistake(1, "nothing but comments"))]);
    // Names that start as a line of a sheet does.
    expect("board A,7: 0+\nverdict,blocked 7\n", &[("board A", seven()), ("verdict", Ok(vec![1, 7]))]);
    expect("board A,bloked 7\nboard B,\n", &[("board A", no_line(1, "bloked")), ("board B", Ok(vec![]))]);
    expect("home team,7: 0+\nhome 7: 0+,\n", &[("home team", seven()), ("home 7: 0+", mistake(2, "part of a sheet in a name"))]);
    // A readable file with a line that isn't.
    expect("Yard, 4\ncandidate Anna\nhome 7: 0+\n", &[("file", mistake(1, "a line before the first candidate")), ("Anna", seven())]);
}

#[test]
fn a_sheet_in_bytes() {
    let read = |file: &[u8]| candidates("file", file).remove(0).sheet.map_err(|mistake| mistake.to_string());
    assert_eq!(read(&[0, 0, 1, 7, 0, 2, 0, 0, 0, 3]), Ok(vec![0, 263, 2, 0, 3]));
    assert_eq!(read(&[0, 2]), Ok(vec![2]));
    assert!(read(&[1, 2]).is_err());
    assert_eq!(read(b"home 7: 0+\n\nblocked\0none"), Err("3: a byte 0, which no text has; a text is to be in UTF-8".to_string()));
    assert_eq!(read(b"\0h\0o\0m"), Err("1: a byte 0, which no text has; a text is to be in UTF-8".to_string()));
    // A text in another encoding isn't marked, nor one with a stray control character.
    assert_eq!(read(b"\xFF\xFEb\0"), Err("1: a byte 0, which no text has; a text is to be in UTF-8".to_string()));
    assert_eq!(read(b"\x1B[2Jhome 7: 0+"), Err("1: \"\\u{1b}[2Jhome\" starts no line of a sheet: those are home and blocked".to_string()));
    assert_eq!(read(&[0, 0, 7]), Err("1: a sheet in bytes has two for each word, and these are 3".to_string()));
}
