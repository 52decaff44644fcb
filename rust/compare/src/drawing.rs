//! A picture read again from its tags and coordinates, and what must be true of it. It shares no code with the drawing: what it knows of it are the
//! names of the tags and their classes, how wide a text is taken to be, and that the circle is around the origin.

use crate::tags::Element;
use second::{Board, Key};

#[derive(Clone, Copy, Debug)]
pub struct At {
    pub x: f64,
    pub y: f64,
}

impl At {
    fn to(self, other: At) -> At {
        At { x: other.x - self.x, y: other.y - self.y }
    }

    fn dot(self, other: At) -> f64 {
        self.x * other.x + self.y * other.y
    }

    fn length(self) -> f64 {
        self.dot(self).sqrt()
    }
}

/// A box: left, top, right, bottom.
#[derive(Clone, Copy, Debug)]
pub struct Extent([f64; 4]);

impl Extent {
    fn of(corners: &[At]) -> Extent {
        let least = |part: fn(&At) -> f64| corners.iter().map(part).fold(f64::INFINITY, f64::min);
        let most = |part: fn(&At) -> f64| corners.iter().map(part).fold(f64::NEG_INFINITY, f64::max);
        Extent([least(|at| at.x), least(|at| at.y), most(|at| at.x), most(|at| at.y)])
    }

    fn lies_on(self, other: Extent) -> bool {
        let (Extent([left, top, right, bottom]), Extent([l, t, r, b])) = (self, other);
        left < r && l < right && top < b && t < bottom
    }

    fn is_in(self, other: Extent) -> bool {
        let (Extent([left, top, right, bottom]), Extent([l, t, r, b])) = (self, other);
        l <= left && t <= top && right <= r && bottom <= b
    }

    fn middle(self) -> At {
        let Extent([left, top, right, bottom]) = self;
        At { x: (left + right) / 2.0, y: (top + bottom) / 2.0 }
    }
}

/// A carrier as it is drawn.
#[derive(Debug)]
pub struct Carrier {
    pub number: u32,
    pub blocked: bool,
    pub leaving: Option<String>,
    body: Extent,
    /// The tip first.
    arrow: [At; 3],
}

/// A zone as it is drawn: its curve from its first end to its second, and its label.
#[derive(Debug)]
pub struct Zone {
    pub held: bool,
    curve: [At; 4],
    pub number: usize,
    number_at: At,
    label: Vec<Extent>,
    pub carrier: Option<Carrier>,
}

#[derive(Debug)]
pub struct Drawing {
    pub points: Vec<At>,
    signs: Vec<Extent>,
    pub home: usize,
    pub zones: Vec<Zone>,
    view: Extent,
    legend: Vec<Extent>,
    /// How large the smallest text is in print, in points.
    pub print: f64,
    millimetres: [f64; 2],
}

/// What a picture may tell of the key.
#[derive(Clone, Copy, PartialEq, Eq)]
pub enum Told {
    Nothing,
    Blocked,
    Leaving,
}

fn numbers(said: &str) -> Vec<f64> {
    let parts = said.split(|c: char| !(c.is_ascii_digit() || c == '-' || c == '.')).filter(|part| !part.is_empty());
    parts.map(|part| part.parse().expect("a number")).collect()
}

fn value(element: &Element, name: &str) -> f64 {
    numbers(element.attribute(name).expect(name))[0]
}

fn spots(said: &str) -> Vec<At> {
    numbers(said).chunks(2).map(|pair| At { x: pair[0], y: pair[1] }).collect()
}

/// The room of a text: digits and small letters without tails are at most some 0.64 as wide as they are large, and 0.74 high.
fn text_extent(text: &Element) -> Extent {
    let (x, y, size) = (value(text, "x"), value(text, "y"), value(text, "font-size"));
    let width = 0.64 * size * text.text().chars().count() as f64;
    let left = if text.attribute("class") == Some("legend") { x } else { x - width / 2.0 };
    Extent([left, y - 0.74 * size, left + width, y])
}

fn shape_extent(shape: &Element) -> Extent {
    match shape.name.as_str() {
        "circle" => {
            let (x, y, r) = (value(shape, "cx"), value(shape, "cy"), value(shape, "r"));
            Extent([x - r, y - r, x + r, y + r])
        }
        "rect" => {
            let (x, y) = (value(shape, "x"), value(shape, "y"));
            Extent([x, y, x + value(shape, "width"), y + value(shape, "height")])
        }
        "polygon" => Extent::of(&spots(shape.attribute("points").expect("points"))),
        other => panic!("a shape {other}"),
    }
}

/// The one element of a class, if there is one.
fn only<'a>(element: &'a Element, class: &str) -> Option<&'a Element> {
    let found = element.of_class(class);
    assert!(found.len() < 2, "{class} twice");
    found.first().copied()
}

fn carrier(label: &Element) -> Option<Carrier> {
    let (free, blocked) = (only(label, "carrier"), only(label, "blocked"));
    assert!(free.is_none() || blocked.is_none(), "two shapes for a carrier");
    let body = free.or(blocked)?;
    // The shapes differ, not the colours alone.
    assert_eq!(body.name, if blocked.is_some() { "polygon" } else { "rect" });
    let arrow = only(label, "arrow").expect("an arrow");
    assert_eq!(arrow.attribute("class") == Some("arrow of-blocked"), blocked.is_some());
    let number = only(label, if blocked.is_some() { "on-blocked" } else { "on-carrier" }).expect("the carrier's number");
    let text = text_extent(number);
    assert!(text.is_in(shape_extent(body)), "a carrier's number is wider than its body");
    let arrow: [At; 3] = spots(arrow.attribute("points").expect("points")).try_into().expect("three corners");
    let leaving = only(label, "leaving").map(|leaving| leaving.text());
    Some(Carrier { number: number.text().parse().expect("a number"), blocked: blocked.is_some(), leaving, body: shape_extent(body), arrow })
}

impl Drawing {
    /// Reads a picture's element.
    pub fn read(svg: &Element) -> Drawing {
        let view = numbers(svg.attribute("viewBox").expect("viewBox"));
        let millimetres = ["width", "height"].map(|side| value(svg, side));
        let (mut points, mut signs, mut home, mut zones) = (Vec::new(), Vec::new(), None, Vec::new());
        for point in svg.all().into_iter().filter(|element| element.attribute("data-point").is_some()) {
            let (shape, number) = (point.named("circle").into_iter().chain(point.named("polygon")).next().expect("a sign"), &point.named("text")[0]);
            assert_eq!((point.attribute("data-point"), number.text()), (Some(points.len().to_string().as_str()), points.len().to_string()));
            assert!(text_extent(number).is_in(shape_extent(shape)), "a point's number is wider than its sign");
            if shape.attribute("class") == Some("home") {
                assert_eq!(home.replace(points.len()), None, "two home points");
            }
            signs.push(shape_extent(shape));
            points.push(shape_extent(shape).middle());
        }
        let of_zone = |zone: usize| svg.all().into_iter().filter(move |element| element.attribute("data-zone") == Some(zone.to_string().as_str()));
        while let Some(path) = of_zone(zones.len()).find(|element| element.name == "path") {
            let label = of_zone(zones.len()).find(|element| element.name == "g").expect("a label");
            let held = path.attribute("class") == Some("zone held");
            assert!(held || path.attribute("class") == Some("zone free"));
            let curve: [At; 4] = spots(path.attribute("d").expect("d")).try_into().expect("a curve");
            let said = only(label, "number").expect("a number");
            let (number, number_at) = (said.text().parse().expect("a number"), text_extent(said).middle());
            let beside = |text: &&Element| !text.attribute("class").unwrap_or_default().starts_with("on-");
            let texts = label.named("text").into_iter().filter(beside).map(text_extent);
            let extents = texts.chain(label.named("rect").into_iter().chain(label.named("polygon")).map(shape_extent)).collect();
            zones.push(Zone { held, curve, number, number_at, label: extents, carrier: carrier(label) });
        }
        assert_eq!(svg.all().iter().filter(|element| element.attribute("data-zone").is_some()).count(), 2 * zones.len(), "a zone or a label twice");
        let smallest = svg.named("text").into_iter().map(|text| value(text, "font-size")).fold(f64::INFINITY, f64::min);
        let print = smallest * millimetres[0] / view[2] / 25.4 * 72.0;
        let legend = svg.of_class("legend").into_iter().map(text_extent).collect();
        let view = Extent([view[0], view[1], view[0] + view[2], view[1] + view[3]]);
        Drawing { points, signs, home: home.expect("home"), zones, view, legend, print, millimetres }
    }

    /// Labels of distinct zones that lie on each other, labels that lie on points, and points that lie on each other.
    pub fn on_each_other(&self) -> Vec<(usize, usize)> {
        let mut found = Vec::new();
        for (n, zone) in self.zones.iter().enumerate() {
            let on = |others: &[Extent]| zone.label.iter().any(|part| others.iter().any(|other| part.lies_on(*other)));
            found.extend((0..n).filter(|&other| on(&self.zones[other].label)).map(|other| (other, n)));
            found.extend((0..self.signs.len()).filter(|&point| on(&self.signs[point..=point])).map(|point| (point, n)));
        }
        for (n, sign) in self.signs.iter().enumerate() {
            found.extend((0..n).filter(|&other| sign.lies_on(self.signs[other])).map(|other| (other, n)));
        }
        found
    }

    /// What isn't as the board and its key say, if anything.
    pub fn wrong(&self, board: &Board, key: &Key, told: Told) -> Option<String> {
        if (self.points.len(), self.home, self.zones.len()) != (board.points, board.home, board.zones.len()) {
            return Some("points, home or zones".to_string());
        }
        if self.millimetres[0] > 186.0 || self.millimetres[1] > 235.0 {
            return Some("it is larger than A4 has room for".to_string());
        }
        let radius = self.points[0].length();
        if self.points.iter().any(|at| (at.length() - radius).abs() > 4.0) {
            return Some("the points aren't on a circle".to_string());
        }
        let drawn = self.zones.iter().flat_map(|zone| &zone.label).chain(&self.signs).chain(&self.legend);
        if !drawn.into_iter().all(|extent| extent.is_in(self.view)) {
            return Some("something is outside the view".to_string());
        }
        (0..board.zones.len()).find_map(|zone| self.wrong_zone(zone, board, key, told).map(|what| format!("zone {zone}: {what}")))
    }

    /// What isn't right in the small picture of a route, while these zones are held by others.
    pub fn wrong_route(&self, svg: &Element, route: &[u16], held: &[usize]) -> Option<&'static str> {
        let near = |one: At, other: At| one.to(other).length() < 2.0;
        let same = |drawn: &[At; 4], curve: &[At; 4]| drawn.iter().zip(curve).all(|(&one, &other)| near(one, other));
        let run = |word: u16| {
            let mut curve = self.zones[usize::from(word / 2)].curve;
            if word % 2 == 1 {
                curve.reverse();
            }
            curve
        };
        let [way, others] = ["way", "others"].map(|class| curves(svg.of_class(class)[0]));
        let first = run(route[0]);
        let starts = way.first().is_some_and(|drawn| near(drawn[0], on_curve(&first, 0.5)) && near(drawn[3], first[3]));
        if !starts || way.len() != route.len() || !route[1..].iter().zip(&way[1..]).all(|(&word, drawn)| same(drawn, &run(word))) {
            return Some("the way");
        }
        // Each tip points the way that its zone is run through.
        let tips: Vec<Vec<At>> = svg.of_class("tip").iter().map(|tip| spots(tip.attribute("points").expect("points"))).collect();
        let ahead = |(tip, &word): (&Vec<At>, &u16)| {
            let base = At { x: (tip[1].x + tip[2].x) / 2.0, y: (tip[1].y + tip[2].y) / 2.0 };
            let way = on_curve(&run(word), 0.58).to(on_curve(&run(word), 0.62));
            base.to(tip[0]).dot(way) > 0.9 * base.to(tip[0]).length() * way.length()
        };
        if tips.len() != route.len() || !tips.iter().zip(route).all(ahead) {
            return Some("the arrows");
        }
        let right = others.len() == held.len() && held.iter().zip(&others).all(|(&zone, drawn)| same(drawn, &self.zones[zone].curve));
        (!right).then_some("the zones that others hold")
    }

    fn wrong_zone(&self, number: usize, board: &Board, key: &Key, told: Told) -> Option<String> {
        let (drawn, zone) = (&self.zones[number], &board.zones[number]);
        let near = |at: At, point: usize| at.to(self.points[point]).length() < 4.0;
        if drawn.number != number || drawn.held != (zone.carrier != 0) || !near(drawn.curve[0], zone.a) || !near(drawn.curve[3], zone.b) {
            return Some("its number, its ends, or whether it is held".to_string());
        }
        let curve: Vec<At> = (0..=200).map(|n| on_curve(&drawn.curve, f64::from(n) / 200.0)).collect();
        self.wrong_curve(number, &curve, board).or_else(|| match &drawn.carrier {
            None if zone.carrier != 0 => Some("no carrier".to_string()),
            None => (!nearest(&curve, drawn.number_at).is_some_and(|(_, off)| off < 8.0)).then(|| "its number stands elsewhere".to_string()),
            Some(carrier) => {
                let wrong = wrong_carrier(carrier, drawn.number_at, &curve, zone).or_else(|| wrong_told(carrier, zone, key, told));
                wrong.map(str::to_string)
            }
        })
    }

    /// Off other points, apart from zones that join the same ones; turning loops outside the circle and clockwise.
    fn wrong_curve(&self, number: usize, curve: &[At], board: &Board) -> Option<String> {
        let zone = &board.zones[number];
        // A point's edge and a held zone are drawn a little to either side.
        let touches = |point: usize| curve.iter().any(|at| at.to(self.points[point]).length() < self.reach(point) + 3.5);
        if let Some(point) = (0..self.points.len()).filter(|point| ![zone.a, zone.b].contains(point)).find(|&point| touches(point)) {
            return Some(format!("it runs through point {point}"));
        }
        if zone.a == zone.b && (curve[10..=190].iter().any(|at| at.length() <= self.points[zone.a].length()) || turns(curve) <= 0.0) {
            return Some("a turning loop inside the circle, or counterclockwise".to_string());
        }
        let same = |other: &usize| [(zone.a, zone.b), (zone.b, zone.a)].contains(&(board.zones[*other].a, board.zones[*other].b));
        let middle = |zone: usize| on_curve(&self.zones[zone].curve, 0.5);
        let on = (0..number).filter(same).find(|&other| middle(number).to(middle(other)).length() < 8.0);
        on.map(|other| format!("on zone {other}"))
    }

    /// How far the sign of a point reaches to its side.
    fn reach(&self, point: usize) -> f64 {
        let Extent([left, _, right, _]) = self.signs[point];
        (right - left) / 2.0
    }
}

/// The place on a curve that is nearest to a spot, and how near.
fn nearest(curve: &[At], spot: At) -> Option<(usize, f64)> {
    curve.iter().map(|at| at.to(spot).length()).enumerate().min_by(|one, other| one.1.total_cmp(&other.1))
}

/// A carrier stands on its zone with its number beside it, and its arrow points there the way that it heads.
fn wrong_carrier(carrier: &Carrier, number_at: At, curve: &[At], zone: &second::Zone) -> Option<&'static str> {
    let [tip, left, right] = carrier.arrow;
    let base = At { x: (left.x + right.x) / 2.0, y: (left.y + right.y) / 2.0 };
    let ((body_at, body_off), (arrow_at, arrow_off)) = (nearest(curve, carrier.body.middle())?, nearest(curve, base)?);
    let Extent([body_left, _, body_right, _]) = carrier.body;
    if carrier.number != zone.carrier || body_off > 6.0 || carrier.body.middle().to(number_at).length() > body_right - body_left + 40.0 {
        return Some("its carrier, or the carrier's place");
    }
    let at = arrow_at.clamp(1, curve.len() - 2);
    let (way, points) = (curve[at - 1].to(curve[at + 1]), base.to(tip));
    let along = points.dot(way) / (points.length() * way.length());
    let right_way = if zone.heading == 0 { along > 0.9 && arrow_at >= body_at } else { along < -0.9 && arrow_at <= body_at };
    if arrow_off > 6.0 || !right_way {
        return Some("its arrow");
    }
    // Its corners are beside the carrier, or on its edge.
    let inner = Extent([carrier.body.0[0] + 2.0, carrier.body.0[1] + 2.0, carrier.body.0[2] - 2.0, carrier.body.0[3] - 2.0]);
    let hidden = carrier.arrow.iter().any(|&corner| Extent::of(&[corner]).is_in(inner));
    hidden.then_some("its arrow is under the carrier")
}

/// Blocked, and the place in the order of leaving, as the key has it and as it is to be told.
fn wrong_told(carrier: &Carrier, zone: &second::Zone, key: &Key, told: Told) -> Option<&'static str> {
    let place = entries(key).iter().position(|&(carrier, _)| carrier == zone.carrier);
    let blocked = told != Told::Nothing && place.is_none();
    let leaving = if told == Told::Leaving { place.map(|place| (place + 1).to_string()) } else { None };
    let said = carrier.leaving.as_ref().map(|said| said.trim_end_matches(|c: char| c.is_ascii_lowercase()).to_string());
    (carrier.blocked != blocked || said != leaving).then_some("blocked, or the place in the order")
}

/// The carriers of a key's plan with their routes, in order.
pub fn entries(key: &Key) -> Vec<(u32, &[u16])> {
    let (mut entries, mut rest) = (Vec::new(), &key.plan[..]);
    while let [carrier, count, words @ ..] = rest {
        let (route, next) = words.split_at(usize::from(*count));
        entries.push((u32::from(*carrier), route));
        rest = next;
    }
    entries
}

/// The curves of a path, each from a move on.
fn curves(path: &Element) -> Vec<[At; 4]> {
    let parts = path.attribute("d").expect("d").split('M').filter(|part| !part.is_empty());
    parts.map(|part| spots(part).try_into().expect("a curve")).collect()
}

/// Twice the area that a closed curve runs round, positive if it runs clockwise, for y grows downward.
fn turns(curve: &[At]) -> f64 {
    curve.windows(2).map(|pair| pair[0].x * pair[1].y - pair[1].x * pair[0].y).sum()
}

/// A spot of a cubic Bézier curve, by halving lines between lines.
fn on_curve(curve: &[At; 4], time: f64) -> At {
    let mut spots = curve.to_vec();
    let between = |one: f64, other: f64| one + (other - one) * time;
    while spots.len() > 1 {
        spots = spots.windows(2).map(|pair| At { x: between(pair[0].x, pair[1].x), y: between(pair[0].y, pair[1].y) }).collect();
    }
    spots[0]
}
