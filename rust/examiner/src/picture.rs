//! The picture of a board, in SVG: points on a circle, zones with their numbers, carriers with their headings. It can tell who is blocked, by another
//! shape and colour, and the order of leaving. The same board has the same picture, byte for byte.

use crate::board::{Board, Zone};
use crate::html::heads_for;
use crate::label::{Texts, SMALL};
use crate::layout::{layout, Layout};
use crate::legend::Legend;
use crate::markup::{path, view_box, whole};
use crate::plane::{Area, Spot};
use crate::shapes::{self, label, text, HOME, POINT, STYLE};
use nizkabel::owned::Key;

/// What a picture tells beyond the board.
#[derive(Clone, Copy)]
pub enum Told<'a> {
    Nothing,
    Blocked(&'a Key),
    Leaving(&'a Key),
}

impl Told<'_> {
    fn is_blocked(&self, carrier: u16) -> bool {
        match self {
            Told::Nothing => false,
            Told::Blocked(key) | Told::Leaving(key) => key.blocked.contains(&carrier),
        }
    }

    fn leaving(&self, carrier: u16) -> Option<String> {
        let Told::Leaving(key) = self else { return None };
        key.entries.iter().position(|entry| entry.carrier == carrier).map(|place| ordinal(place + 1))
    }
}

/// 1st, 2nd, 3rd, 4th ..
pub fn ordinal(number: usize) -> String {
    let ending = match (number % 10, number % 100) {
        (_, 11..=13) => "th",
        (1, _) => "st",
        (2, _) => "nd",
        (3, _) => "rd",
        _ => "th",
    };
    format!("{number}{ending}")
}

pub struct Picture<'a> {
    board: &'a Board,
    told: Told<'a>,
    texts: Vec<Texts>,
    pub layout: Layout,
}

impl<'a> Picture<'a> {
    pub fn new(board: &'a Board, told: Told<'a>) -> Self {
        let texts = |(number, zone): (usize, &Zone)| {
            let carrier = zone.held.map(|held| held.carrier);
            let leaving = carrier.and_then(|carrier| told.leaving(carrier));
            Texts { number: number.to_string(), carrier: carrier.map(|carrier| carrier.to_string()), leaving }
        };
        let texts: Vec<Texts> = board.zones.iter().enumerate().map(texts).collect();
        let layout = layout(board, &texts);
        Picture { board, told, texts, layout }
    }

    fn is_blocked(&self, zone: usize) -> bool {
        self.board.zones[zone].held.is_some_and(|held| self.told.is_blocked(held.carrier))
    }

    fn zones(&self, held: bool) -> String {
        let class = if held { "held" } else { "free" };
        let curves = self.layout.curves.iter().enumerate().filter(|&(zone, _)| self.board.zones[zone].held.is_some() == held);
        curves.map(|(zone, curve)| format!("<path class=\"zone {class}\" data-zone=\"{zone}\" d=\"{}\"/>\n", path(curve))).collect()
    }

    fn point(&self, number: usize, spot: Spot) -> String {
        let home = number == usize::from(self.board.home);
        let (reach, class, lower) = if home { (HOME, "at-home", 3.0) } else { (POINT, "at-point", 0.0) };
        let said = text(class, spot + Spot { x: 0.0, y: lower }, SMALL, &number.to_string());
        format!("<g data-point=\"{number}\">{}{said}</g>\n", shapes::point(spot, reach, home))
    }

    fn label(&self, zone: usize) -> String {
        let label = label(&self.layout.labels[zone], &self.texts[zone], self.is_blocked(zone));
        format!("<g data-zone=\"{zone}\">{label}</g>\n")
    }

    /// What the signs mean, of those that the picture has.
    fn legend(&self, picture: Area) -> Legend {
        let mut legend = Legend::below(picture);
        let zones = &self.board.zones;
        legend.points();
        if zones.iter().any(|zone| zone.held.is_none()) {
            legend.free();
        }
        for blocked in [false, true] {
            if (0..zones.len()).any(|zone| zones[zone].held.is_some() && self.is_blocked(zone) == blocked) {
                legend.carrier(blocked);
            }
        }
        if self.texts.iter().any(|texts| texts.leaving.is_some()) {
            legend.leaving();
        }
        if zones.iter().any(|zone| zone.a == zone.b) {
            legend.turning_loop();
        }
        legend
    }

    /// What the picture is of, for those who don't see it.
    fn title(&self) -> String {
        let Board { points, home, zones, .. } = self.board;
        let out = self.board.standings().len();
        format!("A board of {points} points and {} zones, home point {home}, carriers out {out}", zones.len())
    }

    /// The picture as an element with these attributes, this style and this description. It is as large as it is read well, and has room on A4.
    fn element(&self, attributes: &str, style: &str, described: &str) -> String {
        const MARGIN: f64 = 12.0;
        let spots: String = self.layout.spots.iter().enumerate().map(|(number, &spot)| self.point(number, spot)).collect();
        let labels: String = (0..self.texts.len()).map(|zone| self.label(zone)).collect();
        let picture = self.layout.area();
        let legend = self.legend(picture);
        let area = picture.with(legend.area()).wider(MARGIN);
        let size = in_millimetres(area);
        let ground = format!("<rect x=\"{}\" y=\"{}\" width=\"100%\" height=\"100%\" fill=\"#fff\"/>", whole(area.low.x), whole(area.low.y));
        let drawn = self.zones(false) + &self.zones(true) + &spots + &labels + &legend.drawn;
        format!(
            "<svg{attributes} class=\"board\" viewBox=\"{}\" {size} role=\"img\">\n<title>{}</title>\n{described}{style}{ground}\n{drawn}</svg>\n",
            view_box(area),
            self.title()
        )
    }

    /// The picture as a file of its own.
    pub fn file(&self) -> String {
        let described = format!("<desc>{}</desc>\n", self.described());
        self.element(" xmlns=\"http://www.w3.org/2000/svg\"", &format!("<style>\n{STYLE}</style>\n"), &described)
    }

    /// The picture as part of a page that has the style and a table of the zones.
    pub fn figure(&self) -> String {
        self.element("", "", "")
    }

    /// Each zone in words.
    fn described(&self) -> String {
        let zone = |(number, zone): (usize, &Zone)| {
            let ends = if zone.a == zone.b { format!("is a turning loop at {}", zone.a) } else { format!("joins {} and {}", zone.a, zone.b) };
            let Some(held) = zone.held else { return format!("Zone {number} {ends}, free.") };
            let heading = heads_for(zone, held.heading);
            let blocked = if self.told.is_blocked(held.carrier) { ", blocked" } else { "" };
            let leaving = self.told.leaving(held.carrier).map(|place| format!(", {place} to leave")).unwrap_or_default();
            format!("Zone {number} {ends}, held by carrier {} heading {heading}{blocked}{leaving}.", held.carrier)
        };
        self.board.zones.iter().enumerate().map(zone).collect::<Vec<_>>().join(" ")
    }
}

/// How large a picture is: its texts at most at 11 points, less where it would be wider or higher than a sheet of A4 has room for.
fn in_millimetres(area: Area) -> String {
    const A_UNIT: f64 = 0.215;
    let size = area.size();
    let scale = A_UNIT.min(186.0 / size.x).min(235.0 / size.y);
    let [width, height] = [size.x, size.y].map(|side| (side * scale * 10.0).round() / 10.0);
    format!("width=\"{width}mm\" height=\"{height}mm\"")
}
