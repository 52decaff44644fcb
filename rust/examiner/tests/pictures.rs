//! Pictures and pages: those of the boards in `boards/` by their coordinates, what they tell of the key, and texts from files in them.

use compare::boards::Loops;
use compare::drawing::{Drawing, Told};
use compare::random::Random;
use compare::tags::{self, Element};
use examiner::board::Board;
use examiner::board_file;
use examiner::candidates::candidates;
use examiner::marks::{marked, Marked};
use examiner::paper::paper;
use examiner::picture::{self, ordinal, Picture};
use examiner::sitting::sitting;
use nizkabel::owned;
use std::path::Path;

fn board(text: &str) -> Board {
    Board::accepted(&board_file::read(text.as_bytes()).expect("a board's text").bytes).expect("an accepted board")
}

/// The readable boards of a folder, with their names.
fn boards(folder: &str) -> Vec<(String, Board)> {
    let folder = Path::new(env!("CARGO_MANIFEST_DIR")).join("../..").join(folder);
    let files = std::fs::read_dir(&folder).expect("the folder").map(|entry| entry.expect("a file").path());
    let files = files.filter(|file| file.extension().is_some_and(|extension| extension == "board"));
    files.map(|file| (file.display().to_string(), board(&std::fs::read_to_string(&file).expect("a board's file")))).collect()
}

fn read(text: &str) -> Element {
    tags::read(text).unwrap_or_else(|mistake| panic!("{mistake}\n{text}"))
}

fn drawing(element: &Element) -> Drawing {
    Drawing::read(element.of_class("board")[0])
}

/// The three pictures of a board: on the paper, as drawn, and with the key.
fn pictures(board: &Board) -> [(Element, Told); 3] {
    let key = owned::key(board.bytes()).expect("a key");
    let file = |told| read(&Picture::new(board, told).file());
    let (blocked, leaving) = (file(picture::Told::Blocked(&key)), file(picture::Told::Leaving(&key)));
    [(read(&paper(board)), Told::Nothing), (blocked, Told::Blocked), (leaving, Told::Leaving)]
}

/// No label lies on another zone's or on a point, and the picture says what the second implementation says.
#[test]
fn the_boards_by_their_coordinates() {
    let all: Vec<(String, Board)> = ["boards", "examples/sitting"].into_iter().flat_map(boards).collect();
    assert!(all.len() >= 13);
    for (name, board) in all {
        let (second_board, key) = (second::read(board.bytes()).expect("accepted"), second::key(board.bytes(), 20_000, 96));
        for (element, told) in pictures(&board) {
            let drawing = drawing(&element);
            assert_eq!(drawing.on_each_other(), [], "{name}");
            assert_eq!(drawing.wrong(&second_board, &key, told), None, "{name}");
            assert!(drawing.print > 8.0, "{name}: a print of {} points", drawing.print);
        }
    }
}

/// What is wrong with a picture of one board as one of another.
fn wrong_as(drawn: &str, other: &str) -> String {
    let (drawn, other) = (board(drawn), board(other));
    let key = second::key(other.bytes(), 20_000, 96);
    drawing(&pictures(&drawn)[2].0).wrong(&second::read(other.bytes()).expect("accepted"), &key, Told::Leaving).unwrap_or_default()
}

/// What is asked of a picture can fail.
#[test]
fn a_wrong_picture_is_found() {
    let one = "points 2 home 0\n0-1 7>\n0-1 <9";
    assert_eq!(wrong_as(one, one), "");
    assert_eq!(wrong_as(one, "points 2 home 0\n0-1 <7\n0-1 <9"), "zone 0: its arrow");
    assert_eq!(wrong_as(one, "points 2 home 0\n0-1 9>\n0-1 <7"), "zone 0: its carrier, or the carrier's place");
    assert_eq!(wrong_as("points 2 home 0\n0-1 7>\n0-1", "points 2 home 0\n0-1 7>\n0-1 <9"), "zone 0: blocked, or the place in the order");
    assert_eq!(wrong_as("points 2 home 0\n0-1\n0-1 9>", "points 2 home 0\n0-1\n0-1"), "zone 1: its number, its ends, or whether it is held");
    assert_eq!(wrong_as(one, "points 2 home 0\n1-0 7>\n0-1 <9"), "zone 0: its number, its ends, or whether it is held");
    assert_eq!(wrong_as(one, "points 2 home 1\n0-1 7>\n0-1 <9"), "points, home or zones");
    assert!(wrong_as("points 2 home 0\n0-1 7>\n0-1 9>", "points 2 home 0\n0-1 7>\n0-1 9>\n0-1").starts_with("points, home or zones"));
    // The order of leaving: by the second key 9 leaves first.
    let sheet = board(one);
    let text = Picture::new(&sheet, picture::Told::Leaving(&owned::key(sheet.bytes()).expect("a key"))).file();
    let changed = |from: &str, to: &str| {
        assert!(text.contains(from), "{from}");
        drawing(&read(&text.replacen(from, to, 1)))
    };
    let (second_board, key) = (second::read(sheet.bytes()).expect("accepted"), second::key(sheet.bytes(), 20_000, 96));
    let wrong = |drawing: Drawing| drawing.wrong(&second_board, &key, Told::Leaving);
    assert!(wrong(changed(">1st<", ">2nd<")).is_some_and(|wrong| wrong.contains("the place in the order")));
    let view = text.split("viewBox=\"").nth(1).and_then(|rest| rest.split('"').next()).expect("a view");
    assert_eq!(wrong(changed(view, "0 0 400 400")), Some("something is outside the view".to_string()));
    let width = text.split("width=\"").nth(1).and_then(|rest| rest.split('"').next()).expect("a width");
    assert_eq!(wrong(changed(width, "190mm")), Some("it is larger than A4 has room for".to_string()));
    // Labels and zones on each other.
    let labels: Vec<&str> = text.lines().filter(|line| line.starts_with("<g data-zone")).collect();
    assert_eq!(changed(labels[1], &labels[0].replace("data-zone=\"0\"", "data-zone=\"1\"")).on_each_other(), [(0, 1)]);
    let held = text.lines().filter(|line| line.starts_with("<path class=\"zone held\" data-zone"));
    let curves: Vec<&str> = held.filter_map(|line| line.split(" d=\"").nth(1)).collect();
    assert_eq!(wrong(changed(curves[1], curves[0])), Some("zone 1: on zone 0".to_string()));
}

/// A zone through a third point, and a turning loop the other way round or inside the circle.
#[test]
fn a_wrong_zone_is_found() {
    let sheet = board("points 4 home 0\n0-1\n1-2\n2-3\n3-0\n0-2\n1-1");
    let text = Picture::new(&sheet, picture::Told::Nothing).file();
    let curve = |zone: usize| text.split(&format!("data-zone=\"{zone}\" d=\"")).nth(1).and_then(|rest| rest.split('"').next()).expect("a curve");
    let spots: Vec<&str> = curve(5).trim_start_matches('M').split('C').collect();
    let controls: Vec<&str> = spots[1].split(' ').collect();
    let [x, y] = [controls[4], controls[5]];
    let wrong = |zone: usize, to: String| {
        let drawing = drawing(&read(&text.replacen(curve(zone), &to, 1)));
        drawing.wrong(&second::read(sheet.bytes()).expect("accepted"), &second::key(sheet.bytes(), 20_000, 96), Told::Nothing).unwrap_or_default()
    };
    let loop_wrong = "zone 5: a turning loop inside the circle, or counterclockwise";
    assert_eq!(wrong(5, format!("M{x} {y}C{} {} {} {} {x} {y}", controls[2], controls[3], controls[0], controls[1])), loop_wrong);
    assert_eq!(wrong(5, format!("M{x} {y}C-60 0 60 0 {x} {y}")), loop_wrong);
    // Points 0 and 2 are opposite; drawn aside so far, the middle is at point 1.
    let across: Vec<&str> = curve(4).trim_start_matches('M').split(['C', ' ']).collect();
    let [far_x, far_y] = [x, y].map(|side| (side.parse::<f64>().expect("a number") / 0.75).round());
    let through = format!("M{} {}C{far_x} {far_y} {far_x} {far_y} {} {}", across[0], across[1], across[6], across[7]);
    assert_eq!(wrong(4, through), "zone 4: it runs through point 1");
}

/// On boards of few points no order of them has fewer crossings.
#[test]
fn few_zones_cross() {
    let mut random = Random::new(21);
    for _ in 0..300 {
        let points = 4 + random.below(4);
        let zones = points + random.below(8);
        let made = compare::boards::accepted(&mut random, points, zones, 3, Loops::OnceIn(6));
        let board = Board::accepted(&made.bytes()).expect("accepted");
        let drawn = drawing(&pictures(&board)[1].0);
        // Clockwise from home at the left.
        let part = |point: usize| drawn.points[point].y.atan2(drawn.points[point].x).rem_euclid(std::f64::consts::TAU) - std::f64::consts::PI;
        let mut order: Vec<usize> = (0..points).collect();
        order.sort_by(|&a, &b| part(a).rem_euclid(std::f64::consts::TAU).total_cmp(&part(b).rem_euclid(std::f64::consts::TAU)));
        let least = orders(points).iter().map(|order| crossings(&made, order)).min();
        assert_eq!(Some(crossings(&made, &order)), least, "{board}");
    }
}

/// All orders of so many points that start with point 0: others are these, turned.
fn orders(points: usize) -> Vec<Vec<usize>> {
    let longer = |order: Vec<usize>| -> Vec<Vec<usize>> {
        (0..points).filter(|point| !order.contains(point)).map(|point| [&order[..], &[point]].concat()).collect()
    };
    (1..points).fold(vec![vec![0]], |orders, _| orders.into_iter().flat_map(longer).collect())
}

/// The pairs of zones that cross where the points stand in this order round a circle.
fn crossings(board: &second::Board, order: &[usize]) -> usize {
    let place = |point: usize| order.iter().position(|&other| other == point).expect("a point");
    let ends: Vec<(usize, usize)> = board.zones.iter().map(|zone| (place(zone.a).min(place(zone.b)), place(zone.a).max(place(zone.b)))).collect();
    let cross = |(a, b): (usize, usize), (c, d): (usize, usize)| (a < c && c < b && b < d) || (c < a && a < d && d < b);
    (0..ends.len()).map(|n| ends[..n].iter().filter(|&&other| cross(ends[n], other)).count()).sum()
}

#[test]
fn the_same_board_has_the_same_picture() {
    let (one, two) = (board("points 2 home 0\n0-1 7>\n0-1"), [0, 14, 2, 2, 0, 2, 0, 1, 0, 7, 0, 0, 1, 0, 0, 0]);
    let two = Board::accepted(&two).expect("K in version 2");
    let drawn = |board: &Board| Picture::new(board, picture::Told::Leaving(&owned::key(board.bytes()).expect("a key"))).file();
    assert_eq!(drawn(&one), drawn(&two));
    assert_eq!(paper(&one), paper(&two));
}

/// The paper has no word of the key: it is the same for boards of which one is blocked and one isn't, but for the heading itself.
#[test]
fn the_paper_tells_nothing() {
    let both_out = paper(&board("points 2 home 0\n0-1 7>\n0-1 9>"));
    let page = read(&both_out);
    for class in ["blocked", "of-blocked", "on-blocked", "leaving", "key", "marks"] {
        assert!(page.of_class(class).is_empty(), "{class}");
    }
    let parts = |text: &str| text.split(['<', '>']).filter(|part| !part.contains("class=\"arrow\"")).map(str::to_string).collect::<Vec<_>>();
    let (both_out, one_heads_home) = (parts(&both_out), parts(&paper(&board("points 2 home 0\n0-1 7>\n0-1 <9"))));
    assert_eq!(both_out.len(), one_heads_home.len());
    let differing: Vec<&String> = both_out.iter().zip(&one_heads_home).filter(|(one, other)| one != other).map(|(one, _)| one).collect();
    assert_eq!(differing, ["for point 1"]);
    let said = page.text();
    assert!(said.contains("The rules") && said.contains("a gate takes in every arrival") && !said.contains("home 7"));
    assert!(read(&paper(&board("points 2 home 0\n0-1\n0-1"))).text().contains("No carrier is out"));
    // More lines for the blocked where more are out.
    let fills = |out: usize| {
        let zones: String = (1..=out).map(|carrier| format!("0-1 {carrier}>\n")).collect();
        read(&paper(&board(&format!("points 2 home 0\n{zones}")))).of_class("fill").len()
    };
    assert_eq!([fills(2), fills(15), fills(16), fills(96)], [2, 2, 3, 8]);
}

#[test]
fn places_in_words() {
    let said = [(1, "1st"), (2, "2nd"), (3, "3rd"), (4, "4th"), (11, "11th"), (12, "12th"), (13, "13th"), (21, "21st"), (92, "92nd"), (96, "96th")];
    for (place, said) in said {
        assert_eq!(ordinal(place), said);
    }
}

fn sat(board: &Board, file: &str, sheets: &str) -> Vec<Marked> {
    candidates(file, sheets.as_bytes()).into_iter().map(|candidate| marked(board, file, candidate)).collect()
}

/// The cells of the rows of the marks.
fn mark_cells(page: &Element) -> Vec<Vec<String>> {
    let rows = page.of_class("marks")[0].named("tbody")[0].named("tr");
    rows.iter().map(|row| row.all().iter().filter(|cell| ["th", "td"].contains(&cell.name.as_str())).map(|cell| cell.text()).collect()).collect()
}

#[test]
fn the_marks_with_place_and_reason() {
    let k = board("points 2 home 0\n0-1 7>\n0-1");
    let sheets = "candidate A\nhome 7: 0+ 1-\ncandidate B\nhome 7: 0+ 0-\ncandidate C\nblocked none\ncandidate D\nhome 7\ncandidate E\nhome 8: 0+\n";
    let page = read(&sitting("K.board", &k, &owned::key(k.bytes()).expect("a key"), &sat(&k, "f", sheets)));
    let expected = [
        ["A", "0", "right", "", ""],
        ["B", "32", "word breaks the moving rules", "entry 1 (carrier 7), word 2 (0-)", "the same zone again"],
        ["C", "34", "carrier still out at the end", "", "7"],
        ["D", "none", "malformed, not marked", "", "f:8: a home line is the carrier, a colon and its route, as in: home 7: 0+ 1-"],
        ["E", "31", "carrier isn't still out", "entry 1 (carrier 8)", "isn't on the board"],
    ];
    assert_eq!(mark_cells(&page), expected);
    let heads: Vec<String> = page.of_class("marks")[0].named("thead")[0].named("th").iter().map(|head| head.text()).collect();
    assert_eq!(heads, ["name", "mark", "meaning", "place", "reason"]);
    assert!(page.text().contains("sheets 5, right 1, wrong 3 (31: 1, 32: 1, 34: 1), malformed 1"));
    let twice = sat(&k, "f", "candidate <A>\nblocked none\ncandidate <A>\nblocked none\n");
    assert!(read(&sitting("K", &k, &owned::key(k.bytes()).expect("a key"), &twice)).text().contains("2 sheets have the name <A>."));
    // Without sheets there are no marks, and every part that is linked is there.
    let page = read(&sitting("K.board", &k, &owned::key(k.bytes()).expect("a key"), &[]));
    assert!(page.of_class("marks").is_empty());
    let ids: Vec<&str> = page.all().iter().filter_map(|element| element.attribute("id")).collect();
    let linked: Vec<&str> = page.named("a").iter().filter_map(|link| link.attribute("href")).collect();
    assert_eq!(linked, ["#picture", "#zones", "#key", "#blocked", "#search"]);
    assert!(ids.len() == 6 && ids.contains(&"track"));
}

/// Names, file names and parts of sheets that hold tags, quotes, entities and characters that no page may have.
#[test]
fn texts_from_files_are_escaped() {
    let k = board("points 2 home 0\n0-1 7>\n0-1");
    let key = owned::key(k.bytes()).expect("a key");
    let as_it_is = ["<b>A</b>", "&amp; B", "\"C\" onclick=\"x\"", "'D'", "</title><script>x</script>", "]]>", "<!-- E", "&#x3C;"];
    let as_it_is = as_it_is.map(|name| (name, name));
    let escaped = [("\u{FFFF}F\u{FFFE}", "\\u{ffff}F\\u{fffe}"), ("G\u{1}\u{7F}\u{85}", "G\\u{1}\\u{7f}\\u{85}"), ("\u{202E}H", "\\u{202e}H")];
    for (name, shown) in as_it_is.into_iter().chain(escaped) {
        let marks = vec![marked(&k, name, examiner::candidates::Candidate { name: name.to_string(), sheet: Ok(vec![0, 7, 2, 0, 3]) })];
        let page = read(&sitting(name, &k, &key, &marks));
        assert_eq!(mark_cells(&page)[0], [shown, "0", "right", "", ""]);
        assert_eq!(page.named("h1")[0].text(), format!("Board {shown}"));
        assert_eq!(page.named("head")[0].named("title")[0].text(), format!("{shown}: board, key and marks"));
        assert!(!page.text().contains("sheets have the name"));
    }
    let marks = sat(&k, "<f>", "candidate A\nhome 7: <b>&0+ 1-\n");
    assert_eq!(mark_cells(&read(&sitting("K", &k, &key, &marks)))[0][4], "<f>:2: zone \"<b>&0\" is no number");
}
