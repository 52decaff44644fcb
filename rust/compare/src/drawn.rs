//! The examiner's pictures and pages against the board and the second implementation's key: read by their tags and coordinates.

use crate::differ;
use compare::drawing::{entries, Drawing, Told};
use compare::tags::{self, Element};
use examiner::board::Board;
use examiner::paper::paper;
use examiner::picture::{self, Picture};
use examiner::sitting::sitting;
use second::Key;

/// How many boards of each kind were drawn.
#[derive(Debug, Default)]
pub struct DrawnTally {
    pub boards: usize,
    parallel: usize,
    turning_loops: usize,
    full: usize,
    some_blocked: usize,
    several_leave: usize,
    over_40_zones: usize,
    wide: usize,
    /// The smallest print of a text, in hundredths of a point.
    smallest_print: usize,
}

impl DrawnTally {
    fn add(&mut self, board: &second::Board, key: &Key, print: f64) {
        let zones = &board.zones;
        let same_ends = |one: &second::Zone, other: &second::Zone| [(other.a, other.b), (other.b, other.a)].contains(&(one.a, one.b));
        let parallel = |n: usize| !zones[n].is_loop() && zones[..n].iter().any(|other| same_ends(&zones[n], other));
        self.boards += 1;
        self.parallel += usize::from((0..zones.len()).any(parallel));
        self.turning_loops += usize::from(zones.iter().any(|zone| zone.is_loop()));
        self.full += usize::from(zones.iter().all(|zone| zone.carrier != 0));
        self.some_blocked += usize::from(!key.list.is_empty());
        self.several_leave += usize::from(entries(key).len() > 3);
        self.over_40_zones += usize::from(zones.len() > 40);
        self.wide += usize::from(zones.iter().any(|zone| zone.carrier > 9_999));
        let print = (100.0 * print) as usize;
        self.smallest_print = if self.smallest_print == 0 { print } else { self.smallest_print.min(print) };
    }

    /// Whether there were enough of each kind, and every print is large enough to be read.
    pub fn fair(&self) -> bool {
        let kinds = [self.parallel, self.turning_loops, self.full, self.some_blocked, self.several_leave, self.over_40_zones, self.wide];
        kinds.iter().all(|&boards| boards >= 50) && self.smallest_print >= 450
    }
}

/// The elements that pages and pictures have, none of which fetches or runs anything.
const ELEMENTS: &str = "html head meta title style body header nav main section footer h1 h2 p ul ol li a figure table caption thead tbody tr th \
                        td code strong span svg desc defs g use path rect circle polygon text";
/// Their attributes. `href` leads to an id.
const ATTRIBUTES: &str = "lang charset name content class id href scope role aria-label aria-labelledby aria-hidden xmlns viewBox width height x y \
                          cx cy r rx d points font-size fill stroke-width stroke-dasharray data-zone data-point";

/// A page's or a picture's tags, read strictly.
fn read(what: &str, bytes: &[u8], text: &str) -> Element {
    let root = tags::read(text).unwrap_or_else(|mistake| differ(what, bytes, format!("{mistake}\n{text}")));
    let is_in = |list: &str, name: &str| list.split(' ').any(|known| known == name);
    for element in root.all() {
        let other = element.attributes.iter().find(|(name, _)| !is_in(ATTRIBUTES, name));
        if !is_in(ELEMENTS, &element.name) || other.is_some() {
            differ(what, bytes, format!("an element {} {other:?}", element.name));
        }
    }
    root
}

/// The texts of the cells of the table of a class, row by row.
fn cells(page: &Element, class: &str) -> Vec<Vec<String>> {
    let tables = page.of_class(class).into_iter().filter(|element| element.name == "table");
    let rows = tables.flat_map(|table| table.named("tbody")).flat_map(|body| body.named("tr"));
    let cell = |cell: &&Element| ["th", "td"].contains(&cell.name.as_str());
    rows.map(|row| row.all().into_iter().filter(cell).map(|cell| cell.text()).collect()).collect()
}

/// The rows of the zones as the board says them.
fn zone_rows(board: &second::Board) -> Vec<Vec<String>> {
    let row = |(number, zone): (usize, &second::Zone)| {
        let heads = match (zone.carrier, zone.is_loop(), zone.heading) {
            (0, ..) => String::new(),
            (_, false, heading) => format!("for point {}", [zone.b, zone.a][heading as usize]),
            (_, true, 0) => "clockwise".to_string(),
            _ => "counterclockwise".to_string(),
        };
        let carrier = if zone.carrier == 0 { "free".to_string() } else { zone.carrier.to_string() };
        vec![number.to_string(), zone.a.to_string(), zone.b.to_string(), carrier, heads]
    };
    board.zones.iter().enumerate().map(row).collect()
}

/// Draws an accepted board in all ways, and reads the pictures and pages again.
pub fn compare_drawn(tally: &mut DrawnTally, board: &second::Board, bytes: &[u8], key: &Key) {
    let (accepted, asked) = match (Board::accepted(bytes), nizkabel::owned::key(bytes)) {
        (Ok(accepted), Ok(asked)) => (accepted, asked),
        other => differ("an accepted board", bytes, format!("{other:?}")),
    };
    let [blocked, leaving] = [picture::Told::Blocked(&asked), picture::Told::Leaving(&asked)].map(|told| Picture::new(&accepted, told).file());
    let (paper, page) = (read("the paper", bytes, &paper(&accepted)), read("the page", bytes, &sitting("name", &accepted, &asked, &[])));
    let [blocked, leaving] = [blocked, leaving].map(|picture| read("a picture", bytes, &picture));
    let pictures = [(&paper, Told::Nothing), (&blocked, Told::Blocked), (&leaving, Told::Leaving), (&page, Told::Leaving)];
    let mut print = f64::INFINITY;
    for (element, told) in pictures {
        let Some(drawing) = element.of_class("board").into_iter().next().map(Drawing::read) else { differ("no picture", bytes, String::new()) };
        if let Some(wrong) = drawing.wrong(board, key, told) {
            differ("a picture", bytes, wrong);
        }
        let on_each_other = drawing.on_each_other();
        if !on_each_other.is_empty() {
            differ("labels lie on each other", bytes, format!("{on_each_other:?}"));
        }
        print = print.min(drawing.print);
    }
    tally.add(board, key, print);
    compare_tables(board, bytes, key, &page, &paper);
    compare_routes(board, bytes, key, &page);
    compare_rules(bytes, &paper);
}

/// The small pictures of routes, against the picture of the page.
fn compare_routes(board: &second::Board, bytes: &[u8], key: &Key, page: &Element) {
    let (drawing, small, entries) = (Drawing::read(page.of_class("board")[0]), page.of_class("route"), entries(key));
    if small.len() != entries.len() {
        differ("a picture for each route", bytes, format!("{} pictures", small.len()));
    }
    for (place, (svg, (carrier, route))) in small.into_iter().zip(&entries).enumerate() {
        let gone = |carrier: u32| entries[..=place].iter().any(|&(earlier, _)| earlier == carrier);
        let held: Vec<usize> = (0..board.zones.len()).filter(|&z| board.zones[z].carrier != 0 && !gone(board.zones[z].carrier)).collect();
        if let Some(wrong) = drawing.wrong_route(svg, route, &held) {
            differ("the picture of a route", bytes, format!("carrier {carrier}: {wrong}"));
        }
    }
}

/// The text of a part of a page.
fn section(page: &Element, id: &str) -> Option<String> {
    page.named("section").into_iter().find(|section| section.attribute("aria-labelledby") == Some(id)).map(|section| section.text())
}

/// The rules and the task are the same on every paper, with no whole line that could be an answer.
fn compare_rules(bytes: &[u8], paper: &Element) {
    let k = [0, 12, 1, 2, 0, 2, 0, 1, 7, 0, 0, 1, 0, 0];
    let of_k = Board::accepted(&k).map(|board| read("the paper of K", &k, &examiner::paper::paper(&board)));
    let same = |id: &str| of_k.as_ref().is_ok_and(|of_k| section(of_k, id).is_some() && section(of_k, id) == section(paper, id));
    let shown: Vec<String> = paper.named("code").iter().map(|code| code.text()).collect();
    if !same("rules") || !same("task") || shown != ["3+", "3-", "+"] {
        differ("the rules and the task", bytes, paper.text());
    }
}

/// The tables of the pages; those of the paper have nothing of the key.
fn compare_tables(board: &second::Board, bytes: &[u8], key: &Key, page: &Element, paper: &Element) {
    let entries = entries(key);
    let mut zones = zone_rows(board);
    if cells(paper, "zones") != zones || cells(paper, "blank").iter().flat_map(|row| &row[1..]).any(|cell| !cell.is_empty()) {
        differ("the paper's tables", bytes, paper.text());
    }
    for (row, zone) in zones.iter_mut().zip(&board.zones) {
        row.push(match entries.iter().position(|&(carrier, _)| carrier == zone.carrier) {
            _ if zone.carrier == 0 => String::new(),
            None => "blocked".to_string(),
            Some(place) => place_said(place + 1),
        });
    }
    let route = |(place, &(carrier, words)): (usize, &(u32, &[u16]))| {
        let route: Vec<String> = words.iter().map(|word| format!("{}{}", word / 2, ["+", "-"][usize::from(word % 2)])).collect();
        vec![place_said(place + 1), carrier.to_string(), route.join(" "), format!("Route of carrier {carrier}, drawn")]
    };
    let routes: Vec<Vec<String>> = entries.iter().enumerate().map(route).collect();
    let blocked: Vec<String> = key.list.iter().map(|carrier| carrier.to_string()).collect();
    let blocked = if blocked.is_empty() { "None.".to_string() } else { format!("{} carriers: blocked {}", blocked.len(), blocked.join(" ")) };
    let counted = page.named("strong").first().map(|count| count.text());
    if cells(page, "zones") != zones || cells(page, "key") != routes || counted != Some(key.searched.to_string()) {
        differ("the page's tables", bytes, page.text());
    }
    if section(page, "blocked") != Some(format!("\nBlocked carriers\n{blocked}\n")) {
        differ("the page's blocked carriers", bytes, format!("{:?}", section(page, "blocked")));
    }
}

fn place_said(place: usize) -> String {
    let ending = if (11..=13).contains(&(place % 100)) { "th" } else { ["th", "st", "nd", "rd", "th", "th", "th", "th", "th", "th"][place % 10] };
    format!("{place}{ending}")
}
