//! The candidate's paper of an exam: the picture, the zones, the rules and lines to write on. It tells nothing of the key, and the file's name, which
//! may tell, isn't on it.

use crate::board::Board;
use crate::html::{page, section, table, zone_rows, zone_table};
use crate::picture::{Picture, Told};

const RULES: &str = "\
<ol>
<li>A zone joins two points. A carrier stands in a zone and heads for one of its ends; it can't turn round inside a zone. A turning loop has the \
same point at both ends: whichever way round a carrier goes, it comes out there. Zones that \
cross in the picture without a point don't meet there.</li>
<li>Carriers go home one after the other, each all the way at once, while those still out stand still. Then the zone where it stood is free.</li>
<li>A route starts with the carrier's own zone, in its heading. Each next zone is entered at the point where the carrier left the one before, isn't \
that one again (so a turning loop isn't run through twice in a row), and holds no other carrier that is still out. The carrier's own zone is free to \
it once it has left it, and a zone may be run through more than once.</li>
<li>A route ends at the home point, the first time that it comes there: a gate takes in every arrival.</li>
<li>A carrier is blocked if there is no order of sending carriers home in which it gets home.</li>
</ol>
";

/// No whole line stands here as an example, which might be an answer.
const TASK: &str = "\
<p>If every carrier can go home, write an order in which they do: in each line a carrier's number and its route. Any order and routes by the rules \
are right. If some are blocked, write the numbers of all that are, rising, and no route.</p>
<p>In a route <code>3+</code> is zone 3 from its first end to its second, and <code>3-</code> the other way; on a turning loop <code>+</code> is \
clockwise. The table has the ends, and where each carrier heads.</p>
";

/// Lines for an answer, more room on larger boards, where routes are longer.
fn answer(board: &Board) -> String {
    let out = board.standings().len();
    if out == 0 {
        return "<p>No carrier is out: there is nothing to write.</p>\n".to_string();
    }
    let class = match board.zones.len() {
        0..=14 => "blank",
        15..=40 => "blank higher",
        _ => "blank highest",
    };
    let lines: Vec<Vec<String>> = (1..=out).map(|line| vec![line.to_string(), String::new(), String::new()]).collect();
    let fill = |what: &[&str]| format!("<p class=\"fill\">{}</p>\n", what.iter().map(|what| format!("<span>{what}</span>")).collect::<String>());
    let more: String = (0..out / 16).map(|_| fill(&["\u{A0}"])).collect();
    let lines = table(class, "Going home, in your order", &["in turn", "carrier", "route"], &lines);
    fill(&["name:", "date:"]) + &lines + &fill(&["or blocked:"]) + &more + "<p>If there isn't room enough, go on overleaf.</p>\n"
}

pub fn paper(board: &Board) -> String {
    let picture = Picture::new(board, Told::Nothing).figure();
    let zones = zone_table(&[], zone_rows(board));
    let sections = section("board", "The board", &format!("<figure>\n{picture}</figure>\n{zones}"))
        + &section("rules", "The rules", RULES)
        + &section("task", "The task", TASK)
        + &section("answer", "Your answer", &answer(board));
    let head = "<header>\n<h1>Sending the carriers home</h1>\n</header>\n";
    page("Sending the carriers home: exam paper", &format!("{head}<main>\n{sections}</main>\n"))
}
