//! The page for a sitting: the board, its key with a picture of each route, and the candidates' marks.

use crate::board::Board;
use crate::fault::{meaning, At};
use crate::html::{page, section, table, zone_rows, zone_table};
use crate::markup::escaped;
use crate::marks::{counts, shared_names, Marked, Outcome};
use crate::picture::{ordinal, Picture, Told};
use crate::route::Routes;
use crate::text::{numbers, word_shown};
use nizkabel::owned::{Entry, Key};

/// The page of a board with this name, its key, and the marks of the sheets where there are any.
pub fn sitting(name: &str, board: &Board, key: &Key, marks: &[Marked]) -> String {
    let name = escaped(name);
    let picture = Picture::new(board, Told::Leaving(key));
    let mut sections = vec![
        ("picture", "Picture", format!("<figure>\n{}</figure>\n", picture.figure())),
        ("zones", "Zones", zones(board, key)),
        ("key", "Key", routes(board, key, &picture)),
        ("blocked", "Blocked carriers", blocked(key)),
        ("search", "Search count", searched(key)),
    ];
    if !marks.is_empty() {
        sections.push(("marks", "Marks", marked(marks)));
    }
    let links: String = sections.iter().map(|(id, head, _)| format!("<li><a href=\"#{id}\">{head}</a></li>\n")).collect();
    let sections: String = sections.iter().map(|(id, head, body)| section(id, head, body)).collect();
    let head = format!("<header>\n<h1>Board {name}</h1>\n{}</header>\n", summary(board, key));
    let nav = format!("<nav aria-label=\"Parts of this page\">\n<ul>\n{links}</ul>\n</nav>\n");
    let foot = "<footer>\n<p>Verdict, key, search count and marks are the proved library&#39;s; this page shows them.</p>\n</footer>\n";
    let body = format!("{head}{nav}<main>\n{sections}</main>\n{foot}");
    page(&format!("{name}: {}", if marks.is_empty() { "board and key" } else { "board, key and marks" }), &body)
}

fn summary(board: &Board, key: &Key) -> String {
    let out = key.entries.len() + key.blocked.len();
    let verdict = match key.verdict {
        0 => "ordered: every carrier that is out can go home".to_string(),
        _ => format!("blocked: {} of {out} carriers can't go home", key.blocked.len()),
    };
    let Board { points, home, zones, .. } = board;
    format!("<p>{points} points, home point {home}, {} zones, carriers out: {out}. Verdict {}, {verdict}.</p>\n", zones.len(), key.verdict)
}

fn zones(board: &Board, key: &Key) -> String {
    let mut rows = zone_rows(board);
    for (row, zone) in rows.iter_mut().zip(&board.zones) {
        let place = |carrier: u16| key.entries.iter().position(|entry| entry.carrier == carrier);
        row.push(zone.held.map_or(String::new(), |held| place(held.carrier).map_or("blocked".to_string(), |place| ordinal(place + 1))));
    }
    zone_table(&["leaves"], rows)
}

fn routes(board: &Board, key: &Key, picture: &Picture) -> String {
    if key.entries.is_empty() {
        return "<p>No carrier goes home.</p>\n".to_string();
    }
    let routes = Routes::new(board, &picture.layout);
    let row = |(place, entry): (usize, &Entry)| {
        // Held are the zones of those that leave later or never.
        let gone: Vec<u16> = key.entries[..=place].iter().map(|entry| entry.carrier).collect();
        let held: Vec<usize> =
            (0..board.zones.len()).filter(|&zone| board.zones[zone].held.is_some_and(|held| !gone.contains(&held.carrier))).collect();
        let route: Vec<String> = entry.words.iter().map(|&word| word_shown(word)).collect();
        let route = format!("<code>{}</code>", route.join(" "));
        vec![ordinal(place + 1), entry.carrier.to_string(), route, routes.picture(entry.carrier, &entry.words, &held)]
    };
    let rows: Vec<Vec<String>> = key.entries.iter().enumerate().map(row).collect();
    let told = "<p>In a route <code>3+</code> is zone 3 from its first end to its second, <code>3-</code> the other way. In the pictures the \
                route starts at the dot; dashed zones are held by carriers that are still out.</p>\n";
    routes.track() + told + &table("key", "Who goes home, in order", &["place", "carrier", "route", "picture"], &rows)
}

fn blocked(key: &Key) -> String {
    match key.blocked.len() {
        0 => "<p>None.</p>\n".to_string(),
        count => format!("<p>{count} carriers: <code>blocked {}</code></p>\n", numbers(&key.blocked)),
    }
}

fn searched(key: &Key) -> String {
    format!(
        "<p><strong>{}</strong>. It tells how hard the board is to search: over all tries of the key, the count of zones with a heading that the \
         carrier can reach while the others stand still, the one where it stands among them and none past home.</p>\n",
        key.searched
    )
}

fn marked(marks: &[Marked]) -> String {
    let rows: Vec<Vec<String>> = marks.iter().map(mark_row).collect();
    let shared = shared_names(marks).into_iter().map(|(name, sheets)| format!("<p>{sheets} sheets have the name {}.</p>\n", escaped(&name)));
    let table = table("marks", "The candidates", &["name", "mark", "meaning", "place", "reason"], &rows);
    format!("<p>{}</p>\n{}{table}", counts(marks).trim_end(), shared.collect::<String>())
}

fn mark_row(marked: &Marked) -> Vec<String> {
    let name = escaped(&marked.name);
    let (number, fault) = match &marked.outcome {
        Outcome::Marked(number, fault) => (*number, fault.as_ref()),
        Outcome::Malformed(why) => return vec![name, "none".to_string(), "malformed, not marked".to_string(), String::new(), escaped(why)],
    };
    let entry = fault.and_then(|fault| fault.entry).map(|At { place, said }| format!("entry {} (carrier {said})", place + 1));
    let word = fault.and_then(|fault| fault.word).map(|At { place, said }| format!("word {} ({})", place + 1, word_shown(said)));
    let place = entry.into_iter().chain(word).collect::<Vec<_>>().join(", ");
    let reason = fault.map(|fault| escaped(&fault.reason.to_string())).unwrap_or_default();
    vec![name, number.to_string(), escaped(meaning(number)), place, reason]
}
