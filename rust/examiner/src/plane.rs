//! The plane of a picture: spots, boxes and curves; x grows to the right and y downward. Only sums, products, quotients and square roots are taken,
//! which are the same on every machine, so that a board has one picture.

use std::ops::{Add, Mul, Sub};

/// A spot, or the way from one to another.
#[derive(Clone, Copy, Debug, PartialEq)]
pub struct Spot {
    pub x: f64,
    pub y: f64,
}

impl Add for Spot {
    type Output = Spot;
    fn add(self, other: Spot) -> Spot {
        Spot { x: self.x + other.x, y: self.y + other.y }
    }
}

impl Sub for Spot {
    type Output = Spot;
    fn sub(self, other: Spot) -> Spot {
        Spot { x: self.x - other.x, y: self.y - other.y }
    }
}

impl Mul<f64> for Spot {
    type Output = Spot;
    fn mul(self, by: f64) -> Spot {
        Spot { x: self.x * by, y: self.y * by }
    }
}

impl Spot {
    pub const ZERO: Spot = Spot { x: 0.0, y: 0.0 };

    pub fn length(self) -> f64 {
        (self.x * self.x + self.y * self.y).sqrt()
    }

    /// The same way, of length 1.
    pub fn unit(self) -> Spot {
        self * (1.0 / self.length())
    }

    /// A quarter turn clockwise.
    pub fn right(self) -> Spot {
        Spot { x: -self.y, y: self.x }
    }

    pub fn dot(self, other: Spot) -> f64 {
        self.x * other.x + self.y * other.y
    }

    /// Turned clockwise by part of a full turn, in small angles that are doubled.
    pub fn turned(self, part: f64) -> Spot {
        const DOUBLINGS: i32 = 10;
        let angle = part * std::f64::consts::TAU / f64::from(1 << DOUBLINGS);
        let square = angle * angle;
        let mut by = Spot { x: 1.0 - square / 2.0 + square * square / 24.0, y: angle * (1.0 - square / 6.0 + square * square / 120.0) };
        for _ in 0..DOUBLINGS {
            by = Spot { x: by.x * by.x - by.y * by.y, y: 2.0 * by.x * by.y };
        }
        self * by.x + self.right() * by.y
    }
}

/// A box with upright sides.
#[derive(Clone, Copy, Debug, PartialEq)]
pub struct Area {
    pub low: Spot,
    pub high: Spot,
}

impl Area {
    pub fn around(middle: Spot, width: f64, height: f64) -> Area {
        let half = Spot { x: width / 2.0, y: height / 2.0 };
        Area { low: middle - half, high: middle + half }
    }

    /// The least box that holds three spots.
    pub fn of(spots: [Spot; 3]) -> Area {
        let [one, two, three] = spots.map(|spot| Area { low: spot, high: spot });
        one.with(two).with(three)
    }

    /// Whether one of these boxes meets one of those.
    pub fn any_meet(some: &[Area], others: &[Area]) -> bool {
        some.iter().any(|area| others.iter().any(|other| area.meets(*other)))
    }

    pub fn with(self, other: Area) -> Area {
        let low = Spot { x: self.low.x.min(other.low.x), y: self.low.y.min(other.low.y) };
        let high = Spot { x: self.high.x.max(other.high.x), y: self.high.y.max(other.high.y) };
        Area { low, high }
    }

    pub fn wider(self, by: f64) -> Area {
        let by = Spot { x: by, y: by };
        Area { low: self.low - by, high: self.high + by }
    }

    pub fn size(self) -> Spot {
        self.high - self.low
    }

    pub fn middle(self) -> Spot {
        (self.low + self.high) * 0.5
    }

    pub fn holds(self, spot: Spot) -> bool {
        (self.low.x..=self.high.x).contains(&spot.x) && (self.low.y..=self.high.y).contains(&spot.y)
    }

    pub fn meets(self, other: Area) -> bool {
        self.low.x < other.high.x && other.low.x < self.high.x && self.low.y < other.high.y && other.low.y < self.high.y
    }

    /// Whether some spot of the straight line between two spots is in it.
    fn meets_line(self, from: Spot, to: Spot) -> bool {
        let (mut first, mut last) = (0.0, 1.0);
        let way = to - from;
        let sides = [(way.x, self.low.x - from.x, self.high.x - from.x), (way.y, self.low.y - from.y, self.high.y - from.y)];
        for (way, low, high) in sides {
            if way == 0.0 {
                if low >= 0.0 || high <= 0.0 {
                    return false;
                }
                continue;
            }
            let (near, far) = if way > 0.0 { (low / way, high / way) } else { (high / way, low / way) };
            first = near.max(first);
            last = far.min(last);
        }
        first < last
    }
}

/// A cubic Bézier curve: where it starts, the two spots that draw it aside, and where it ends.
#[derive(Clone, Copy, Debug, PartialEq)]
pub struct Curve(pub [Spot; 4]);

/// A curve as straight lines, for what is measured.
pub struct Traced {
    spots: Vec<Spot>,
    area: Area,
}

impl Curve {
    /// Between two spots, drawn aside so that its middle is off the straight line by this way.
    pub fn aside(from: Spot, to: Spot, off: Spot) -> Curve {
        let (draw, quarter) = (off * (4.0 / 3.0), (to - from) * 0.25);
        Curve([from, from + quarter + draw, to - quarter + draw, to])
    }

    pub fn reversed(self) -> Curve {
        let Curve([a, b, c, d]) = self;
        Curve([d, c, b, a])
    }

    /// What comes after its middle, as a curve of its own.
    pub fn second_half(self) -> Curve {
        let Curve([a, b, c, d]) = self;
        let between = |one: Spot, other: Spot| (one + other) * 0.5;
        let (bc, cd) = (between(b, c), between(c, d));
        let bcd = between(bc, cd);
        Curve([between(between(between(a, b), bc), bcd), bcd, cd, d])
    }

    /// The spot at a time from 0 to 1.
    pub fn at(self, time: f64) -> Spot {
        let Curve([a, b, c, d]) = self;
        let left = 1.0 - time;
        a * (left * left * left) + b * (3.0 * left * left * time) + c * (3.0 * left * time * time) + d * (time * time * time)
    }

    /// The way it takes at a time, of length 1.
    pub fn way(self, time: f64) -> Spot {
        let Curve([a, b, c, d]) = self;
        let left = 1.0 - time;
        ((b - a) * (left * left) + (c - b) * (2.0 * left * time) + (d - c) * (time * time)).unit()
    }

    pub fn traced(self) -> Traced {
        const LINES: u16 = 32;
        let spots: Vec<Spot> = (0..=LINES).map(|n| self.at(f64::from(n) / f64::from(LINES))).collect();
        let area = spots.iter().fold(Area { low: spots[0], high: spots[0] }, |area, &spot| area.with(Area { low: spot, high: spot }));
        Traced { spots, area }
    }
}

impl Traced {
    pub fn area(&self) -> Area {
        self.area
    }

    pub fn length(&self) -> f64 {
        self.spots.windows(2).map(|pair| (pair[1] - pair[0]).length()).sum()
    }

    pub fn meets(&self, area: Area) -> bool {
        self.area.wider(1.0).meets(area) && self.spots.windows(2).any(|pair| area.meets_line(pair[0], pair[1]))
    }

    /// How near it comes to a spot.
    pub fn nearest(&self, spot: Spot) -> f64 {
        let near = |pair: &[Spot]| {
            let (way, to_spot) = (pair[1] - pair[0], spot - pair[0]);
            let along = (way.dot(to_spot) / way.dot(way).max(1e-9)).clamp(0.0, 1.0);
            (to_spot - way * along).length()
        };
        self.spots.windows(2).map(near).fold(f64::INFINITY, f64::min)
    }
}
