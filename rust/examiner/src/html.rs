//! What the pages have in common: a whole page, tables and their cells, and the zones of a board as a table.

use crate::board::{Board, Zone};
use crate::shapes::STYLE;

/// A page of its own, without anything from elsewhere.
pub fn page(title: &str, body: &str) -> String {
    const PAGES: &str = include_str!("pages.css");
    let head = format!("<meta charset=\"utf-8\"/>\n<meta name=\"viewport\" content=\"width=device-width\"/>\n<title>{title}</title>\n");
    format!("<!DOCTYPE html>\n<html lang=\"en\">\n<head>\n{head}<style>\n{STYLE}{PAGES}</style>\n</head>\n<body>\n{body}</body>\n</html>\n")
}

/// A part of a page with its heading, to which links lead.
pub fn section(id: &str, head: &str, body: &str) -> String {
    format!("<section aria-labelledby=\"{id}\">\n<h2 id=\"{id}\">{head}</h2>\n{body}</section>\n")
}

/// A table of a class with its caption, its columns' heads, and rows whose first cell is their head. What the cells hold is markup.
pub fn table(class: &str, caption: &str, heads: &[&str], rows: &[Vec<String>]) -> String {
    let heads: String = heads.iter().map(|head| format!("<th scope=\"col\">{head}</th>")).collect();
    let row = |cells: &Vec<String>| {
        let cell = |(n, cell): (usize, &String)| if n == 0 { format!("<th scope=\"row\">{cell}</th>") } else { format!("<td>{cell}</td>") };
        format!("<tr>{}</tr>\n", cells.iter().enumerate().map(cell).collect::<String>())
    };
    let rows: String = rows.iter().map(row).collect();
    format!("<table class=\"{class}\">\n<caption>{caption}</caption>\n<thead><tr>{heads}</tr></thead>\n<tbody>\n{rows}</tbody>\n</table>\n")
}

/// Where a carrier heads: for a point or, on a turning loop, which way round.
pub fn heads_for(zone: &Zone, heading: u16) -> String {
    match heading {
        _ if zone.a != zone.b => format!("for point {}", if heading == 0 { zone.b } else { zone.a }),
        0 => "clockwise".to_string(),
        _ => "counterclockwise".to_string(),
    }
}

/// The table of the zones, with these columns after those of every board.
pub fn zone_table(more: &[&str], rows: Vec<Vec<String>>) -> String {
    let heads = [&["zone", "first end", "second end", "carrier", "heads"], more].concat();
    table("zones", "The zones, each from its first end to its second", &heads, &rows)
}

/// The rows of the zones: number, ends, carrier and where it heads.
pub fn zone_rows(board: &Board) -> Vec<Vec<String>> {
    let row = |(number, zone): (usize, &Zone)| {
        let carrier = zone.held.map_or("free".to_string(), |held| held.carrier.to_string());
        let heads = zone.held.map_or(String::new(), |held| heads_for(zone, held.heading));
        vec![number.to_string(), zone.a.to_string(), zone.b.to_string(), carrier, heads]
    };
    board.zones.iter().enumerate().map(row).collect()
}
