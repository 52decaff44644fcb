//! Where the labels of zones stand: near the middle, and not on each other.

use crate::label::Label;
use crate::layout::{Draft, GAP};
use crate::plane::{Area, Curve, Traced};

/// A place for a zone's label: its boxes with some room around them, whether a point lies under one, how many other zones do, where an arrow on the
/// label's own text counts as one, and how many steps it is from the middle.
struct Place {
    label: Label,
    areas: Vec<Area>,
    on_point: bool,
    crossed: usize,
    steps: usize,
}

impl Place {
    /// A zone under it is as bad as several steps.
    fn cost(&self) -> usize {
        15 * self.crossed + self.steps
    }
}

/// The labels of a board's zones, and how often one lies on another zone.
pub struct Labels {
    pub labels: Vec<Label>,
    pub crossed: usize,
}

/// The places for the label of a zone, the best first.
fn places(draft: &Draft, zone: usize, curves: &[Curve], traced: &[Traced], signs: &[Area]) -> Vec<Place> {
    const STEPS: usize = 44;
    let place = |step: usize| {
        // The middle, then to either side of it in turn.
        let off = step.div_ceil(2) as f64 * if step % 2 == 0 { 0.02 } else { -0.02 };
        let label = draft.label(zone, curves[zone], 0.5 + off);
        let areas = label.areas_with(GAP);
        let all = label.area().wider(GAP);
        let on = |curve: &Traced| curve.area().wider(1.0).meets(all) && areas.iter().any(|&area| curve.meets(area));
        let crossed = traced.iter().enumerate().filter(|(other, curve)| *other != zone && on(curve)).count();
        let (on_point, crowded) = (Area::any_meet(&areas, signs), label.is_crowded());
        Place { label, areas, on_point, crossed: crossed + usize::from(crowded), steps: step.div_ceil(2) }
    };
    let mut places: Vec<Place> = (0..=STEPS).map(place).collect();
    places.sort_by_key(Place::cost);
    places
}

/// A place for each zone's label in turn, the best that has room; the number of the zone for which none has.
fn chosen(turns: &[usize], places: &[Vec<Place>]) -> Result<Vec<usize>, usize> {
    let mut taken: Vec<Area> = Vec::new();
    let mut chosen = vec![0; places.len()];
    for &zone in turns {
        let has_room = |place: &Place| !place.on_point && !Area::any_meet(&place.areas, &taken);
        chosen[zone] = places[zone].iter().position(has_room).ok_or(zone)?;
        taken.extend(places[zone][chosen[zone]].label.areas());
    }
    Ok(chosen)
}

/// The same, where a label without room gets the place with the fewest boxes under it.
fn chosen_whatever(turns: &[usize], places: &[Vec<Place>]) -> Vec<usize> {
    let mut taken: Vec<Area> = Vec::new();
    let mut chosen = vec![0; places.len()];
    for &zone in turns {
        let under = |place: &Place| taken.iter().filter(|taken| place.areas.iter().any(|area| area.meets(**taken))).count();
        let harm = |place: &Place| (under(place) + usize::from(place.on_point), place.cost());
        chosen[zone] = (0..places[zone].len()).min_by_key(|&n| harm(&places[zone][n])).unwrap_or(0);
        taken.extend(places[zone][chosen[zone]].label.areas());
    }
    chosen
}

/// A label for each zone; none where some have no room, unless they are to be laid whatever lies under them. The labels of short zones come first,
/// and one that was left without room is first at the next try.
pub fn labels(draft: &Draft, curves: &[Curve], whatever: bool) -> Option<Labels> {
    const TRIES: usize = 40;
    let (traced, signs): (Vec<Traced>, _) = (curves.iter().map(|curve| curve.traced()).collect(), draft.signs());
    let places: Vec<Vec<Place>> = (0..curves.len()).map(|zone| places(draft, zone, curves, &traced, &signs)).collect();
    let mut turns: Vec<usize> = (0..curves.len()).collect();
    turns.sort_by(|&a, &b| traced[a].length().total_cmp(&traced[b].length()));
    let mut found = None;
    for _ in 0..TRIES {
        match chosen(&turns, &places) {
            Ok(chosen) => {
                found = Some(chosen);
                break;
            }
            Err(zone) => {
                turns.retain(|&other| other != zone);
                turns.insert(0, zone);
            }
        }
    }
    let found = if whatever { found.or_else(|| Some(chosen_whatever(&turns, &places))) } else { found }?;
    let chosen: Vec<Place> = places.into_iter().zip(found).map(|(mut places, place)| places.swap_remove(place)).collect();
    Some(Labels { crossed: chosen.iter().map(|place| place.crossed).sum(), labels: chosen.into_iter().map(|place| place.label).collect() })
}
