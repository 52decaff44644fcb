//! What stands at a zone in a picture: its number and, where it is held, the carrier with an arrow for its heading and its place in the order of
//! leaving.

use crate::plane::{Area, Curve, Spot};

/// The size of most texts; every other size goes with it.
pub const EM: f64 = 18.0;
/// The size of a zone's number, and of the place in the order of leaving.
pub const SMALL: f64 = 16.0;
const BODY: f64 = 26.0;
const LINE: f64 = 18.0;
const ARROW: f64 = 15.0;

/// What a zone's label says.
pub struct Texts {
    pub number: String,
    pub carrier: Option<String>,
    pub leaving: Option<String>,
}

/// Where the parts of a zone's label are.
pub struct Label {
    pub number: Area,
    pub carrier: Option<CarrierSign>,
}

/// The carrier's part: the body with its number, the arrow's corners, the tip first, and the place in the order of leaving.
pub struct CarrierSign {
    pub body: Area,
    pub arrow: [Spot; 3],
    pub leaving: Option<Area>,
}

/// About as wide as a text is drawn: its characters, digits and small letters, differ from font to font.
pub fn text_width(text: &str, size: f64) -> f64 {
    0.64 * size * text.chars().count() as f64
}

/// An arrow's corners: the tip, then the two behind it.
pub fn arrow(base: Spot, way: Spot, size: f64) -> [Spot; 3] {
    let side = way.right() * (size / 2.0);
    [base + way * size, base + side, base - side]
}

impl Label {
    /// The label at a time of its zone's curve. The arrow stands on the curve where the body ends, on the side of the heading; the texts stand above
    /// and below the body where that is at its left or right, else beside it.
    pub fn at(curve: Curve, time: f64, heading: u16, texts: &Texts) -> Label {
        let spot = curve.at(time);
        let number_width = text_width(&texts.number, SMALL) + 5.0;
        let Some(carrier) = &texts.carrier else { return Label { number: Area::around(spot, number_width, LINE), carrier: None } };
        let body = Area::around(spot, text_width(carrier, EM) + 14.0, BODY);
        let step: f64 = if heading == 0 { 0.01 } else { -0.01 };
        let arrow_at = |time: f64| arrow(curve.at(time), curve.way(time) * step.signum(), ARROW);
        let times = (1..=100).map(|n| (time + step * f64::from(n)).clamp(0.0, 1.0));
        let out = times.skip_while(|&time| arrow_at(time).iter().any(|&corner| body.holds(corner))).next().unwrap_or(time);
        let (half, off) = (body.size() * 0.5, curve.at(out) - spot);
        let from_body = |x: f64, y: f64, width: f64| Area::around(spot + Spot { x, y }, width, LINE);
        let leaving_width = texts.leaving.as_ref().map(|said| text_width(said, SMALL) + 5.0);
        let (number, leaving) = if off.x.abs() * half.y > off.y.abs() * half.x {
            let off = half.y + LINE / 2.0;
            (from_body(0.0, -off, number_width), leaving_width.map(|width| from_body(0.0, off, width)))
        } else {
            let off = |width: f64| half.x + width / 2.0;
            (from_body(-off(number_width), 0.0, number_width), leaving_width.map(|width| from_body(off(width), 0.0, width)))
        };
        Label { number, carrier: Some(CarrierSign { body, arrow: arrow_at(out), leaving }) }
    }

    /// The room that a label takes on a straight zone of this way.
    pub fn size(way: Spot, texts: &Texts) -> Spot {
        const FAR: f64 = 1_000.0;
        let line = Curve::aside(way * -FAR, way * FAR, Spot::ZERO);
        let sizes = [0, 1].map(|heading| Label::at(line, 0.5, heading, texts).area().size());
        Spot { x: sizes[0].x.max(sizes[1].x), y: sizes[0].y.max(sizes[1].y) }
    }

    /// The boxes of its parts.
    pub fn areas(&self) -> Vec<Area> {
        let carrier = self.carrier.iter().flat_map(|sign| [Some(sign.body), Some(Area::of(sign.arrow)), sign.leaving]);
        carrier.flatten().chain([self.number]).collect()
    }

    /// The same with so much room around each.
    pub fn areas_with(&self, room: f64) -> Vec<Area> {
        self.areas().into_iter().map(|area| area.wider(room)).collect()
    }

    /// Whether the arrow stands on a text beside the body.
    pub fn is_crowded(&self) -> bool {
        self.carrier.as_ref().is_some_and(|sign| {
            let arrow = Area::of(sign.arrow);
            arrow.meets(self.number) || sign.leaving.is_some_and(|leaving| arrow.meets(leaving))
        })
    }

    pub fn area(&self) -> Area {
        self.areas().into_iter().fold(self.number, Area::with)
    }
}
