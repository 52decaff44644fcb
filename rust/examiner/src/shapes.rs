//! The signs of a picture: points, carriers and labels, and how they look.

use crate::label::{CarrierSign, Label, Texts, EM, SMALL};
use crate::markup::{corners, whole};
use crate::plane::{Area, Spot};

/// How far the sign of a point reaches.
pub const POINT: f64 = 15.0;
/// That of the home point reaches a little farther.
pub const HOME: f64 = 21.0;

/// Free zones are light and held ones strong. What a colour tells is told by a shape and by brightness too, for print and for the colour-blind.
pub const STYLE: &str = include_str!("picture.css");

/// A text with its middle at a spot.
pub fn text(class: &str, spot: Spot, size: f64, said: &str) -> String {
    format!("<text class=\"{class}\" x=\"{}\" y=\"{}\" font-size=\"{size}\">{said}</text>", whole(spot.x), whole(spot.y + 0.35 * size))
}

/// The sign of a point, of such a reach: a disc, and for home a house.
pub fn point(spot: Spot, reach: f64, home: bool) -> String {
    if !home {
        return format!("<circle class=\"point\" cx=\"{}\" cy=\"{}\" r=\"{}\"/>", whole(spot.x), whole(spot.y), whole(reach));
    }
    let house = [(-0.9, 0.9), (-0.9, -0.3), (0.0, -1.0), (0.9, -0.3), (0.9, 0.9)].map(|(x, y)| spot + Spot { x, y } * reach);
    format!("<polygon class=\"home\" points=\"{}\"/>", corners(&house))
}

/// The corners of a box whose four are cut off, clockwise.
fn eight_corners(area: Area) -> [Spot; 8] {
    const CUT: f64 = 8.0;
    let (Spot { x: left, y: top }, Spot { x: right, y: bottom }) = (area.low, area.high);
    let upper = [(left, top + CUT), (left + CUT, top), (right - CUT, top), (right, top + CUT)];
    let lower = [(right, bottom - CUT), (right - CUT, bottom), (left + CUT, bottom), (left, bottom - CUT)];
    let [a, b, c, d] = upper.map(|(x, y)| Spot { x, y });
    let [e, f, g, h] = lower.map(|(x, y)| Spot { x, y });
    [a, b, c, d, e, f, g, h]
}

/// A carrier with its number and an arrow: dark with round ends or, if it is blocked, white with eight corners.
pub fn carrier(sign: &CarrierSign, number: &str, blocked: bool) -> String {
    let arrow = corners(&sign.arrow);
    let said = |class: &str| text(class, sign.body.middle(), EM, number);
    if blocked {
        let body = corners(&eight_corners(sign.body));
        let arrow = format!("<polygon class=\"arrow of-blocked\" points=\"{arrow}\"/>");
        return format!("{arrow}<polygon class=\"blocked\" points=\"{body}\"/>{}", said("on-blocked"));
    }
    let (Spot { x, y }, size) = (sign.body.low, sign.body.size());
    let (x, y, width, height, round) = (whole(x), whole(y), whole(size.x), whole(size.y), whole(size.y / 2.0));
    let body = format!("<rect class=\"carrier\" x=\"{x}\" y=\"{y}\" width=\"{width}\" height=\"{height}\" rx=\"{round}\"/>");
    format!("<polygon class=\"arrow\" points=\"{arrow}\"/>{body}{}", said("on-carrier"))
}

/// A zone's label.
pub fn label(label: &Label, texts: &Texts, blocked: bool) -> String {
    let number = text("number", label.number.middle(), SMALL, &texts.number);
    let (Some(sign), Some(said)) = (&label.carrier, &texts.carrier) else { return number };
    let leaving = sign.leaving.zip(texts.leaving.as_ref()).map(|(area, said)| text("leaving", area.middle(), SMALL, said));
    // The texts' light edge would hide part of an arrow.
    number + &leaving.unwrap_or_default() + &carrier(sign, said, blocked)
}
