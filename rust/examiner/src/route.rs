//! A small picture of a carrier's route: the track light, the zones that others hold dashed, and the way home with arrows.

use crate::board::Board;
use crate::label::arrow;
use crate::layout::Layout;
use crate::markup::{corners, path, view_box, whole};
use crate::plane::{Area, Curve, Spot};
use crate::shapes::point;

/// The small pictures of a board.
pub struct Routes<'a> {
    board: &'a Board,
    layout: &'a Layout,
    area: Area,
    /// A hundredth of the track's longer side: the pictures are all shown in one size, so that lines and arrows are too.
    unit: f64,
}

impl<'a> Routes<'a> {
    pub fn new(board: &'a Board, layout: &'a Layout) -> Self {
        let track = layout.track();
        let unit = track.size().x.max(track.size().y) / 100.0;
        Routes { board, layout, area: track.wider(3.0 * unit), unit }
    }

    /// What all of them show, once for the page.
    pub fn track(&self) -> String {
        let Routes { board, layout, unit, .. } = self;
        let zones: String = layout.curves.iter().map(path).collect();
        let mark = |(number, &spot): (usize, &Spot)| {
            let home = number == usize::from(board.home);
            point(spot, if home { 4.0 } else { 1.6 } * unit, home)
        };
        let points: String = layout.spots.iter().enumerate().map(mark).collect();
        let zones = format!("<path class=\"zone light\" stroke-width=\"{}\" d=\"{zones}\"/>", whole(0.5 * unit).max(1));
        format!("<svg width=\"0\" height=\"0\" aria-hidden=\"true\" class=\"shared\"><defs><g id=\"track\">{zones}{points}</g></defs></svg>\n")
    }

    /// The curve of a word, as it is run through.
    fn curve(&self, word: u16) -> Curve {
        let curve = self.layout.curves[usize::from(word / 2)];
        if word % 2 == 0 { curve } else { curve.reversed() }
    }

    /// The route of a carrier while these zones are held by others. It starts at the middle of the carrier's zone.
    pub fn picture(&self, carrier: u16, words: &[u16], held: &[usize]) -> String {
        let unit = self.unit;
        let held: String = held.iter().map(|&zone| path(&self.layout.curves[zone])).collect();
        let standing = self.curve(words[0]).second_half();
        let way: String = [standing].into_iter().chain(words[1..].iter().map(|&word| self.curve(word))).map(|curve| path(&curve)).collect();
        let tips = words.iter().map(|&word| {
            let curve = self.curve(word);
            corners(&arrow(curve.at(0.6), curve.way(0.6), 4.5 * unit))
        });
        let tips: String = tips.map(|tip| format!("<polygon class=\"tip\" points=\"{tip}\"/>")).collect();
        let start = self.layout.curves[usize::from(words[0] / 2)].at(0.5);
        let start = format!("<circle class=\"start\" cx=\"{}\" cy=\"{}\" r=\"{}\"/>", whole(start.x), whole(start.y), whole(2.4 * unit));
        let [thin, thick] = [0.9, 1.5].map(|part| whole(part * unit).max(1));
        let dashes = whole(2.0 * unit).max(2);
        format!(
            "<svg class=\"route\" viewBox=\"{}\" role=\"img\"><title>Route of carrier {carrier}, drawn</title><use href=\"#track\"/>\
             <path class=\"zone others\" stroke-width=\"{thin}\" stroke-dasharray=\"{dashes}\" d=\"{held}\"/>\
             <path class=\"zone way\" stroke-width=\"{thick}\" d=\"{way}\"/>{tips}{start}</svg>",
            view_box(self.area)
        )
    }
}
