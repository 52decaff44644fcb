//! What SVG and HTML have in common: escaped texts, and numbers. The pages are in HTML that is well-formed XML too.

use crate::plane::{Area, Curve, Spot};
use crate::text::shown;

/// A text from a file, on one line, as text or as an attribute's value. No character is left that a tag or XML doesn't allow.
pub fn escaped(text: &str) -> String {
    let escaped = |c: char| match c {
        '&' => "&amp;".to_string(),
        '<' => "&lt;".to_string(),
        '>' => "&gt;".to_string(),
        '"' => "&quot;".to_string(),
        '\'' => "&#39;".to_string(),
        _ => c.to_string(),
    };
    shown(text).chars().map(escaped).collect()
}

/// A coordinate in whole units.
pub fn whole(value: f64) -> i64 {
    value.round() as i64
}

/// A spot as `x y`.
pub fn at(spot: Spot) -> String {
    format!("{} {}", whole(spot.x), whole(spot.y))
}

/// Corners as the value of `points`.
pub fn corners(spots: &[Spot]) -> String {
    spots.iter().map(|spot| format!("{},{}", whole(spot.x), whole(spot.y))).collect::<Vec<_>>().join(" ")
}

/// A curve as part of a path.
pub fn path(curve: &Curve) -> String {
    let Curve([start, first, second, end]) = curve;
    format!("M{}C{} {} {}", at(*start), at(*first), at(*second), at(*end))
}

/// A box as the value of `viewBox`, in whole units.
pub fn view_box(area: Area) -> String {
    let size = area.size();
    format!("{} {} {}", at(area.low), whole(size.x), whole(size.y))
}
