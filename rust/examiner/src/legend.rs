//! The legend of a picture: what its signs mean, in lines below what is drawn.

use crate::label::{arrow, text_width, Label, Texts, SMALL};
use crate::markup::{corners, path, whole};
use crate::plane::{Area, Curve, Spot};
use crate::shapes::{carrier, point, text, HOME, POINT};

pub struct Legend {
    pub drawn: String,
    left: f64,
    width: f64,
    next: Spot,
}

const RIGHT: Spot = Spot { x: 1.0, y: 0.0 };

fn line(class: &str, from: Spot, length: f64) -> String {
    format!("<path class=\"zone {class}\" d=\"M{} {}h{}\"/>", whole(from.x), whole(from.y), whole(length))
}

impl Legend {
    /// Nothing yet, below a picture of this size, and at least so wide that a sign and its meaning have room.
    pub fn below(picture: Area) -> Legend {
        let width = picture.size().x.max(560.0);
        let left = picture.middle().x - width / 2.0;
        Legend { drawn: String::new(), left, width, next: Spot { x: left, y: picture.high.y + 40.0 } }
    }

    /// The room that it takes.
    pub fn area(&self) -> Area {
        Area { low: Spot { x: self.left, y: self.next.y - HOME }, high: Spot { x: self.left + self.width, y: self.next.y + HOME + 4.0 } }
    }

    /// One more sign, so wide, and what it means; on the next line where this one has no room for it.
    fn add(&mut self, wide: f64, meaning: &str, sign: impl FnOnce(Spot) -> String) {
        const LINE: f64 = 44.0;
        let room = wide + 12.0 + text_width(meaning, SMALL);
        if self.next.x > self.left && self.next.x + room > self.left + self.width {
            self.next = Spot { x: self.left, y: self.next.y + LINE };
        }
        let (x, y) = (whole(self.next.x + wide + 12.0), whole(self.next.y + 0.35 * SMALL));
        let said = format!("<text class=\"legend\" x=\"{x}\" y=\"{y}\" font-size=\"{SMALL}\">{meaning}</text>");
        self.drawn += &format!("<g>{}{said}</g>\n", sign(self.next));
        self.next.x += room + 30.0;
    }

    pub fn points(&mut self) {
        self.add(2.0 * POINT, "point", |from| point(from + RIGHT * POINT, POINT, false));
        self.add(2.0 * HOME, "home point", |from| point(from + RIGHT * HOME, HOME, true));
    }

    pub fn free(&mut self) {
        self.add(44.0, "free zone and its number", |from| line("free", from, 44.0) + &text("number", from + RIGHT * 22.0, SMALL, "3"));
    }

    pub fn carrier(&mut self, blocked: bool) {
        let meaning = if blocked { "blocked carrier and its heading" } else { "carrier in its zone and its heading" };
        self.add(70.0, meaning, |from| {
            let texts = Texts { number: String::new(), carrier: Some("7".to_string()), leaving: None };
            let at = Label::at(Curve::aside(from, from + RIGHT * 70.0, Spot::ZERO), 0.4, 0, &texts);
            line("held", from, 70.0) + &at.carrier.map(|sign| carrier(&sign, "7", blocked)).unwrap_or_default()
        });
    }

    pub fn leaving(&mut self) {
        self.add(30.0, "first to leave", |from| text("leaving", from + RIGHT * 15.0, SMALL, "1st"));
    }

    pub fn turning_loop(&mut self) {
        self.add(34.0, "turning loop: + runs clockwise", |from| {
            let foot = from + Spot { x: 17.0, y: 16.0 };
            let curve = Curve([foot, foot + Spot { x: -40.0, y: -44.0 }, foot + Spot { x: 40.0, y: -44.0 }, foot]);
            let tip = arrow(curve.at(0.5) - RIGHT * 5.0, RIGHT, 12.0);
            format!("<path class=\"zone free\" d=\"{}\"/><polygon points=\"{}\"/>", path(&curve), corners(&tip))
        });
    }
}
