//! Sheets for a board: by orders and routes other than the key's, right ones or ones that were right by the older moving rule; claims, spoilt and
//! random ones.

use crate::boards::shuffle;
use crate::random::Random;
use second::{Board, Rule};

/// A route home of a carrier by a random walk, if one is found; by the older rule it may run through home and go on.
fn wandering(random: &mut Random, board: &Board, carrier: u32, rule: Rule) -> Option<Vec<usize>> {
    let mut route = vec![board.standing(carrier)?];
    for _ in 0..4 * board.words() {
        let last = *route.last().unwrap();
        if board.leaves_home(last) && (rule == Rule::HomeGate || random.once_in(2)) {
            return Some(route);
        }
        let next: Vec<usize> = (0..board.words()).filter(|&v| board.may_follow(carrier, last, v)).collect();
        if next.is_empty() {
            break;
        }
        route.push(next[random.below(next.len())]);
    }
    board.leaves_home(*route.last().unwrap()).then_some(route)
}

/// An order by random tries, each with a wandering route: as many carriers as it gets home.
pub fn by_tries(random: &mut Random, board: &Board, rule: Rule) -> Vec<u16> {
    let mut now = board.clone();
    let mut sheet = vec![0];
    let mut failures = 0;
    while !now.carriers().is_empty() && failures < 6 {
        let out = now.carriers();
        let carrier = out[random.below(out.len())];
        match wandering(random, &now, carrier, rule) {
            Some(route) => {
                sheet.push(carrier as u16);
                sheet.push(route.len() as u16);
                sheet.extend(route.iter().map(|&w| w as u16));
                now = now.without(carrier);
                failures = 0;
            }
            None => failures += 1,
        }
    }
    sheet
}

/// A sheet with one entry.
pub fn entry(carrier: u32, route: &[usize]) -> Vec<u16> {
    [0, carrier as u16, route.len() as u16].into_iter().chain(route.iter().map(|&w| w as u16)).collect()
}

pub fn claim(list: &[u32]) -> Vec<u16> {
    std::iter::once(1).chain(list.iter().map(|&c| c as u16)).collect()
}

/// A sheet with a few words changed, taken out, repeated or added.
pub fn spoilt(random: &mut Random, sheet: &[u16]) -> Vec<u16> {
    let mut words = sheet.to_vec();
    for _ in 0..1 + random.below(2) {
        let at = random.below(words.len() + 1);
        match random.below(5) {
            0 if at < words.len() => {
                words.remove(at);
            }
            1 => words.insert(at, random.below(200) as u16),
            2 if at < words.len() => words[at] = words[at].wrapping_add(256),
            3 => words.truncate(at),
            _ if at < words.len() => words[at] = if random.once_in(8) { random.next() as u16 } else { random.below(12) as u16 },
            _ => {}
        }
    }
    words
}

/// Where the entries of a plan's sheet start.
pub fn entries(sheet: &[u16]) -> Vec<usize> {
    let mut starts = Vec::new();
    let mut at = 1;
    while at < sheet.len() {
        starts.push(at);
        at += 2 + sheet[at + 1] as usize;
    }
    starts
}

/// Whether some route of a plan's sheet runs on from a word that leaves at home.
pub fn runs_on(board: &Board, sheet: &[u16]) -> bool {
    let route = |entry: usize| &sheet[entry + 2..entry + 2 + sheet[entry + 1] as usize];
    entries(sheet).into_iter().any(|entry| route(entry).split_last().is_some_and(|(_, words)| words.iter().any(|&w| board.leaves_home(w as usize))))
}

/// A plan's sheet with a zone entered again straight after itself, the same way or the other: a word of one of its routes, one that doesn't
/// leave at home, is followed by a word of its zone. With that zone; none where the plan has no such word.
pub fn run_again(random: &mut Random, board: &Board, sheet: &[u16]) -> Option<(usize, Vec<u16>)> {
    let places: Vec<(usize, usize)> = entries(sheet)
        .into_iter()
        .flat_map(|entry| (entry + 2..entry + 2 + sheet[entry + 1] as usize).map(move |place| (entry, place)))
        .filter(|&(_, place)| !board.leaves_home(sheet[place] as usize))
        .collect();
    let &(entry, place) = places.get(random.below(places.len().max(1)))?;
    let mut words = sheet.to_vec();
    words.insert(place + 1, words[place] ^ random.below(2) as u16);
    words[entry + 1] += 1;
    Some((words[place] as usize / 2, words))
}

/// A plan's sheet with whole entries and the mistakes that candidates make: in another order, an entry twice or left out, a route without its last
/// word or with one of its words changed.
pub fn mistaken(random: &mut Random, board: &Board, sheet: &[u16]) -> Vec<u16> {
    let mut routes: Vec<Vec<u16>> = entries(sheet).into_iter().map(|at| sheet[at..at + 2 + usize::from(sheet[at + 1])].to_vec()).collect();
    if routes.is_empty() {
        return sheet.to_vec();
    }
    let at = random.below(routes.len());
    let count = routes[at].len() - 2;
    match random.below(6) {
        0 | 1 => shuffle(random, &mut routes),
        2 => routes.push(routes[at].clone()),
        3 => drop(routes.remove(at)),
        4 if count > 1 => {
            routes[at].pop();
            routes[at][1] -= 1;
        }
        _ => routes[at][2 + random.below(count)] = random.below(board.words()) as u16,
    }
    [vec![0], routes.concat()].concat()
}

pub fn noise(random: &mut Random) -> Vec<u16> {
    let length = random.below(12);
    (0..length).map(|_| if random.once_in(3) { random.next() as u16 } else { random.below(10) as u16 }).collect()
}
