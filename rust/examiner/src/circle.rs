//! The order of a board's points on a circle, so that few zones cross and points that zones join are near each other.

use crate::board::Board;

/// How bad an order is: the crossings of zones, then how many places apart their ends are on the shorter way round, in all.
type Cost = (i64, i64);

/// Points in an order round a circle, and each point's place in it.
#[derive(Clone)]
struct Circle<'a> {
    order: Vec<usize>,
    place: Vec<usize>,
    /// The points that zones lead to from each point, one for each zone.
    joined: &'a [Vec<usize>],
}

impl<'a> Circle<'a> {
    fn new(order: Vec<usize>, joined: &'a [Vec<usize>]) -> Self {
        let mut place = vec![0; order.len()];
        for (at, &point) in order.iter().enumerate() {
            place[point] = at;
        }
        Circle { order, place, joined }
    }

    /// How many places clockwise from one point to another.
    fn after(&self, from: usize, to: usize) -> usize {
        (self.place[to] + self.order.len() - self.place[from]) % self.order.len()
    }

    fn apart(&self, point: usize) -> i64 {
        self.joined[point].iter().map(|&other| self.after(point, other).min(self.after(other, point)) as i64).sum()
    }

    /// Exchanges the points at a place and the next, and gives what that costs. Only crossings between a zone of one and a zone of the other change.
    fn exchange(&mut self, at: usize) -> Cost {
        let next = (at + 1) % self.order.len();
        let (left, right) = (self.order[at], self.order[next]);
        let apart = self.apart(left) + self.apart(right);
        let mut crossings = 0;
        let others = |point: usize| self.joined[point].iter().copied().filter(move |&other| other != left && other != right);
        for a in others(left) {
            for b in others(right) {
                crossings += (self.after(right, a) as i64 - self.after(right, b) as i64).signum();
            }
        }
        self.order.swap(at, next);
        self.place.swap(left, right);
        (crossings, self.apart(left) + self.apart(right) - apart)
    }

    /// Moves a point once round and back to where the cost is least. Gives what that saves, as a cost below or equal to none.
    fn sift(&mut self, point: usize) -> Cost {
        let (mut cost, mut best, mut best_circle) = ((0, 0), (0, 0), self.clone());
        for _ in 1..self.order.len() {
            let change = self.exchange(self.place[point]);
            cost = (cost.0 + change.0, cost.1 + change.1);
            if cost < best {
                (best, best_circle) = (cost, self.clone());
            }
        }
        *self = best_circle;
        best
    }

    fn improve(&mut self) {
        loop {
            let saved: Vec<Cost> = (0..self.order.len()).map(|point| self.sift(point)).collect();
            if saved.iter().all(|&saved| saved == (0, 0)) {
                return;
            }
        }
    }

    fn cost(&self) -> Cost {
        let chords: Vec<(usize, usize)> =
            self.joined.iter().enumerate().flat_map(|(a, others)| others.iter().filter(move |&&b| a < b).map(move |&b| (a, b))).collect();
        let mut crossings = 0;
        for (n, &(a, b)) in chords.iter().enumerate() {
            let within = |point: usize| (1..self.after(a, b)).contains(&self.after(a, point));
            let apart = |&&(c, d): &&(usize, usize)| ![c, d].contains(&a) && ![c, d].contains(&b) && within(c) != within(d);
            crossings += chords[..n].iter().filter(apart).count() as i64;
        }
        (crossings, (0..self.order.len()).map(|point| self.apart(point)).sum())
    }
}

/// The points as they are first met along zones from one on, the lowest first and on from there.
fn as_met(first: usize, joined: &[Vec<usize>]) -> Vec<usize> {
    let (mut met, mut ahead) = (Vec::new(), vec![first]);
    while let Some(point) = ahead.pop() {
        if !met.contains(&point) {
            met.push(point);
            let mut next = joined[point].clone();
            next.sort_unstable();
            ahead.extend(next.into_iter().rev());
        }
    }
    met
}

/// The points clockwise from home on. From several first orders, by number and as met from some of the points, each point is sifted, and the best is
/// taken; of an order and its mirror image the one whose second point is lower.
pub fn order(board: &Board) -> Vec<usize> {
    const STARTS: usize = 16;
    let points = usize::from(board.points);
    let mut joined = vec![Vec::new(); points];
    for zone in board.zones.iter().filter(|zone| zone.a != zone.b) {
        joined[usize::from(zone.a)].push(usize::from(zone.b));
        joined[usize::from(zone.b)].push(usize::from(zone.a));
    }
    let mut best = Circle::new((0..points).collect(), &joined);
    best.improve();
    for first in (0..points).step_by(points.div_ceil(STARTS)) {
        let mut circle = Circle::new(as_met(first, &joined), &joined);
        circle.improve();
        if circle.cost() < best.cost() {
            best = circle;
        }
    }
    let Circle { mut order, place, .. } = best;
    order.rotate_left(place[usize::from(board.home)]);
    if order[1] > order[points - 1] {
        order[1..].reverse();
    }
    order
}
