//! Where the points, zones and labels of a board are drawn: points on a circle, home at its left. Circles are tried from small to large, up to one on
//! which no label lies on another or on a point.

use crate::board::{Board, Zone};
use crate::circle;
use crate::curves::curves;
use crate::label::{Label, Texts};
use crate::labels::{labels, Labels};
use crate::plane::{Area, Curve, Spot};
use crate::shapes::{HOME, POINT};

/// At least so much is between a label and another one or a point.
pub const GAP: f64 = 3.0;

pub struct Layout {
    /// Where each point stands.
    pub spots: Vec<Spot>,
    /// Each zone from its first end to its second; a turning loop clockwise.
    pub curves: Vec<Curve>,
    pub labels: Vec<Label>,
}

impl Layout {
    /// The room that points and zones take.
    pub fn track(&self) -> Area {
        let points = self.spots.iter().map(|&spot| Area::around(spot, 2.0 * HOME, 2.0 * HOME));
        points.chain(self.curves.iter().map(|curve| curve.traced().area())).fold(Area::around(Spot::ZERO, 0.0, 0.0), Area::with)
    }

    /// The room that these and the labels take.
    pub fn area(&self) -> Area {
        self.labels.iter().map(Label::area).fold(self.track(), Area::with)
    }
}

/// A board to be laid out: what its labels say, its points clockwise from home, and where they stand on one circle.
pub struct Draft<'a> {
    pub board: &'a Board,
    pub texts: &'a [Texts],
    pub order: Vec<usize>,
    pub radius: f64,
    pub spots: Vec<Spot>,
}

impl Draft<'_> {
    fn on_circle(&mut self, radius: f64) {
        self.radius = radius;
        for (place, &point) in self.order.iter().enumerate() {
            self.spots[point] = Spot { x: -radius, y: 0.0 }.turned(place as f64 / self.order.len() as f64);
        }
    }

    /// How far the sign of a point reaches.
    pub fn reach(&self, point: usize) -> f64 {
        if point == usize::from(self.board.home) { HOME } else { POINT }
    }

    /// The signs of the points, as boxes.
    pub fn signs(&self) -> Vec<Area> {
        self.spots.iter().enumerate().map(|(point, &spot)| Area::around(spot, 2.0 * self.reach(point), 2.0 * self.reach(point))).collect()
    }

    /// The label of a zone at a time of its curve.
    pub fn label(&self, zone: usize, curve: Curve, time: f64) -> Label {
        let heading = self.board.zones[zone].held.map_or(0, |held| held.heading);
        Label::at(curve, time, heading, &self.texts[zone])
    }
}

/// The radius of the smallest circle that is tried. Points have room on it, and zones that join the same points; on boards with few points labels do
/// too, between points next to each other.
fn smallest(board: &Board) -> f64 {
    let joins = |zone: &Zone, ends: (u8, u8)| zone.a != zone.b && [(zone.a, zone.b), (zone.b, zone.a)].contains(&ends);
    let same = |zone: &Zone| board.zones.iter().filter(|other| joins(other, (zone.a, zone.b))).count();
    let most = board.zones.iter().map(same).max().unwrap_or(0);
    let points = f64::from(board.points);
    let beside = (28.0 * points).clamp(160.0, 340.0).max((11.0 * points).min(480.0));
    beside.max(5.0 * most as f64)
}

/// Lays out a board, on the first circle on which every label has room. While the print stays large, larger circles are tried too, and the one is
/// taken on which the fewest labels lie on other zones. On the largest circle labels without room are laid where they lie on the fewest others.
pub fn layout(board: &Board, texts: &[Texts]) -> Layout {
    const LARGEST: f64 = 1_000.0;
    // So wide, a picture has a print of some 9 points on A4.
    const LARGE_PRINT: f64 = 1_050.0;
    let order = circle::order(board);
    let spots = vec![Spot::ZERO; order.len()];
    let mut draft = Draft { board, texts, order, radius: 0.0, spots };
    let (mut radius, mut best): (f64, Option<(usize, Layout)>) = (smallest(board), None);
    loop {
        let last = radius >= LARGEST;
        draft.on_circle(radius);
        let curves = curves(&draft);
        let mut done = last;
        if let Some(Labels { labels, crossed }) = labels(&draft, &curves, last && best.is_none()) {
            let layout = Layout { spots: draft.spots.clone(), curves, labels };
            let large_print = layout.area().size().x <= LARGE_PRINT;
            done |= crossed == 0 || !large_print;
            if best.as_ref().is_none_or(|(least, _)| large_print && crossed < *least) {
                best = Some((crossed, layout));
            }
        }
        match best {
            Some((_, layout)) if done => return layout,
            _ => radius = (1.06 * radius).min(LARGEST),
        }
    }
}
