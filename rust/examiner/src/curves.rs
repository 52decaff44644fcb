//! How zones are drawn: straight, or aside where others join the same points, where a third point is near, or where the label has no room between
//! points next to each other. Turning loops stand outside the circle.

use crate::label::Label;
use crate::layout::{Draft, GAP};
use crate::plane::{Area, Curve, Spot};
use crate::shapes::POINT;
use std::cmp::Ordering;
use std::collections::BTreeMap;

/// The middles of zones that join the same points are at least so far from each other, if they don't run through other points then.
const NEAREST: f64 = 15.0;

/// The zones that join the same two points, by the points' places on the circle: the lower, the higher, and the zones' numbers.
type Bundles = BTreeMap<(usize, usize), Vec<usize>>;

fn bundles(draft: &Draft) -> Bundles {
    let mut place = vec![0; draft.order.len()];
    for (at, &point) in draft.order.iter().enumerate() {
        place[point] = at;
    }
    let mut bundles = Bundles::new();
    for (number, zone) in draft.board.zones.iter().enumerate() {
        let (a, b) = (place[usize::from(zone.a)], place[usize::from(zone.b)]);
        bundles.entry((a.min(b), a.max(b))).or_default().push(number);
    }
    bundles
}

/// The curve of each zone. Those of turning loops come first, then those between points next to each other, then the others, the shorter ones first.
/// Of the ways in which they can be drawn the first is taken on which the labels have room.
pub fn curves(draft: &Draft) -> Vec<Curve> {
    let mut bundles: Vec<Bundle> = bundles(draft).into_iter().map(|((a, b), zones)| Bundle::new(draft, a, b, zones)).collect();
    bundles.sort_by(|a, b| a.kind.cmp(&b.kind).then(if a.kind == Kind::Across { a.length().total_cmp(&b.length()) } else { Ordering::Equal }));
    let mut curves = vec![Curve([Spot::ZERO; 4]); draft.board.zones.len()];
    let mut taken = draft.signs();
    for bundle in bundles {
        let drawn = bundle.drawn_well(&taken);
        taken.extend(bundle.room(&drawn, &taken).unwrap_or_default());
        for (&zone, curve) in bundle.zones.iter().zip(drawn) {
            curves[zone] = curve;
        }
    }
    curves
}

/// What the zones of a bundle join: a point with itself, points next to each other, or others.
#[derive(Clone, Copy, PartialEq, Eq, PartialOrd, Ord)]
enum Kind {
    Loops,
    Beside,
    Across,
}

/// Zones that join the same two points, or one point with itself.
struct Bundle<'a> {
    draft: &'a Draft<'a>,
    kind: Kind,
    ends: [usize; 2],
    zones: Vec<usize>,
    from: Spot,
    to: Spot,
    /// From the middle between the points toward the circle's.
    inward: Spot,
    /// The most room that a label takes along the straight line between the points, and across it.
    along: f64,
    across: f64,
}

impl<'a> Bundle<'a> {
    /// The zones between the points at two places on the circle.
    fn new(draft: &'a Draft, low: usize, high: usize, zones: Vec<usize>) -> Self {
        let kind = match high - low {
            0 => Kind::Loops,
            apart if apart == 1 || apart + 1 == draft.order.len() => Kind::Beside,
            _ => Kind::Across,
        };
        let (a, b) = (draft.order[low], draft.order[high]);
        let (from, to) = (draft.spots[a], draft.spots[b]);
        let middle = (from + to) * 0.5;
        let way = if a == b { from.unit().right() } else { (to - from).unit() };
        // A diameter has no inner side.
        let inward = if middle.length() > 1e-6 * draft.radius { (middle * -1.0).unit() } else { way.right() };
        let (mut along, mut across): (f64, f64) = (0.0, 0.0);
        for &zone in &zones {
            let Spot { x: width, y: height } = Label::size(way, &draft.texts[zone]);
            along = along.max(width * way.x.abs() + height * way.y.abs());
            across = across.max(width * way.y.abs() + height * way.x.abs());
        }
        Bundle { draft, kind, ends: [a, b], zones, from, to, inward, along, across }
    }

    fn gaps(&self) -> f64 {
        self.zones.len() as f64 - 1.0
    }

    fn length(&self) -> f64 {
        (self.to - self.from).length()
    }

    /// Turning loops fanned out, others straight, aside or fanned out: the first way on which the labels have room, else the first of all.
    fn drawn_well(&self, taken: &[Area]) -> Vec<Curve> {
        let mut options = match self.kind {
            Kind::Loops => return self.fanned(taken).unwrap_or_else(|| self.fan(0.12, taken)),
            Kind::Beside => self.beside(),
            Kind::Across => self.across(),
        };
        let has_room = |drawn: &Vec<Curve>| self.room(drawn, taken).is_some();
        match options.iter().position(has_room) {
            Some(first) => options.swap_remove(first),
            None => self.fanned(taken).filter(has_room).unwrap_or_else(|| options.swap_remove(0)),
        }
    }

    /// The boxes of the labels on these curves, at or near their middles, where none lies on what is taken or on another.
    fn room(&self, drawn: &[Curve], taken: &[Area]) -> Option<Vec<Area>> {
        let mut found: Vec<Area> = Vec::new();
        for (&zone, &curve) in self.zones.iter().zip(drawn) {
            let areas = |time: f64| self.draft.label(zone, curve, time).areas_with(GAP);
            let free = |areas: &Vec<Area>| !Area::any_meet(areas, taken) && !Area::any_meet(areas, &found);
            let areas = [0.5, 0.4, 0.6, 0.3, 0.7].into_iter().map(areas).find(free)?;
            found.extend(areas);
        }
        Some(found)
    }

    /// How far the middles are from each other: so that the labels have room side by side, or as this much room in all gives.
    fn apart(&self, room: f64) -> f64 {
        let wanted = if self.draft.order.len() == 2 { 120.0 } else { self.across + 2.0 * GAP };
        wanted.min(room / self.gaps().max(1.0)).max(NEAREST)
    }

    /// The curve, turned so that it runs from the zone's first end to its second.
    fn oriented(&self, zone: usize, curve: Curve) -> Curve {
        if usize::from(self.draft.board.zones[zone].a) == self.ends[0] { curve } else { curve.reversed() }
    }

    /// The curves, the first with its middle so far inward, each next one farther by so much. Each runs from its zone's first end to its second.
    fn drawn(&self, first: f64, apart: f64) -> Vec<Curve> {
        let curve = |(n, &zone): (usize, &usize)| self.oriented(zone, Curve::aside(self.from, self.to, self.inward * (first + apart * n as f64)));
        self.zones.iter().enumerate().map(curve).collect()
    }

    /// Between points next to each other: straight if there is room, outside the circle or inside, near or farther.
    fn beside(&self) -> Vec<Vec<Curve>> {
        let two_points = self.draft.order.len() == 2;
        let apart = self.apart(self.draft.radius * if two_points { 1.8 } else { 0.8 });
        let wide = apart * self.gaps();
        let mut options = Vec::new();
        if two_points || self.length() >= self.along + 2.0 * (POINT + 2.0 * GAP) {
            // Outward from the straight line no other zone is crossed.
            options.push(self.drawn(if self.draft.order.len() < 4 { -wide / 2.0 } else { -wide }, apart));
        }
        let near = self.across / 2.0 + POINT + 2.0 * GAP;
        for off in [near, near + self.across + GAP] {
            options.extend([self.drawn(-off - wide, apart), self.drawn(off, apart)]);
        }
        let first = options[0].clone();
        options.retain(|drawn| self.passes(drawn));
        if options.is_empty() { vec![first] } else { options }
    }

    /// Between other points: drawn inward as far as need be to pass the points between, or farther.
    fn across(&self) -> Vec<Vec<Curve>> {
        let apart = self.apart(0.8 * self.draft.radius);
        let straight = |apart: f64| -apart * self.gaps() / 2.0;
        let shifts = || (0..).map(|step| f64::from(step) * 4.0).take_while(|&shift| shift < self.draft.radius);
        let nearer = [1.0, 0.7, 0.4].map(|part| (apart * part).max(NEAREST));
        let mut tried = nearer.into_iter().chain([10.0]).flat_map(|apart| shifts().map(move |shift| (apart, shift)));
        let (apart, shift) = tried.find(|&(apart, shift)| self.passes(&self.drawn(straight(apart) + shift, apart))).unwrap_or((apart, 0.0));
        let farther = [0.0, 0.5, 1.0, 1.5, 2.0].map(|part| self.drawn(straight(apart) + shift + part * (self.across + POINT), apart));
        farther.into_iter().enumerate().filter(|(n, drawn)| *n == 0 || self.passes(drawn)).map(|(_, drawn)| drawn).collect()
    }

    /// Fanned out as wide as they run clear of other points; turning loops also outside the circle.
    fn fanned(&self, taken: &[Area]) -> Option<Vec<Curve>> {
        let times: &[f64] = if self.kind == Kind::Loops { &[0.1, 0.2, 0.3, 0.7, 0.8, 0.9] } else { &[] };
        let outside = |curve: &Curve| times.iter().all(|&time| curve.at(time).length() > 1.02 * self.draft.radius);
        let mut fans = [0.42, 0.36, 0.3, 0.24, 0.18, 0.12].into_iter().map(|widest| self.fan(widest, taken));
        fans.find(|fan| fan.iter().all(outside) && self.passes(fan))
    }

    /// Fanned out at most by this part of a turn, outward, or inward from points that aren't next to each other; each as short as its label has room.
    fn fan(&self, widest: f64, taken: &[Area]) -> Vec<Curve> {
        let ahead = if self.kind == Kind::Across { self.inward } else { self.inward * -1.0 };
        let toward_end = if (self.to - self.from).dot(ahead.right()) < 0.0 { -1.0 } else { 1.0 };
        let count = self.zones.len() as f64;
        let turn = (0.16 * count).min(widest) / count;
        let slim = if self.zones.len() == 1 { 0.8 } else { 0.55 * turn * std::f64::consts::TAU };
        let (mut curves, mut taken) = (Vec::new(), taken.to_vec());
        for (n, &zone) in self.zones.iter().enumerate() {
            let way = ahead.turned(turn * (n as f64 - (count - 1.0) / 2.0));
            let curve = |step: u32| {
                let reach = 66.0 + 10.0 * f64::from(step);
                // Wide enough for its two sides to be told apart.
                let side = way.right() * ((reach * slim).clamp(24.0, 60.0) * toward_end);
                let tip = (self.from + self.to) * 0.5 + way * reach;
                self.oriented(zone, Curve([self.from, tip - side, tip + side, self.to]))
            };
            let areas = |curve: Curve| self.draft.label(zone, curve, 0.5).areas_with(GAP);
            let found = (0..200).map(curve).find(|&curve| !Area::any_meet(&areas(curve), &taken)).unwrap_or(curve(0));
            taken.extend(areas(found));
            curves.push(found);
        }
        curves
    }

    /// Whether these curves run clear of other points.
    fn passes(&self, curves: &[Curve]) -> bool {
        let clear = if self.kind == Kind::Across { 4.0 * GAP } else { 2.0 * GAP };
        let spots = &self.draft.spots;
        let others = || (0..spots.len()).filter(|point| !self.ends.contains(point));
        curves.iter().map(|curve| curve.traced()).all(|curve| others().all(|point| curve.nearest(spots[point]) >= self.draft.reach(point) + clear))
    }
}
