//! What is wrong with a board that the library refuses, and where. The number is the library's; what is wrong is read off the bytes for that row.

use crate::board::stride;
use crate::board_file::Given;
use nizkabel::owned::Refused;
use std::fmt;

/// What is wrong, row by row from 1 to 9.
#[derive(Clone, Debug, PartialEq, Eq)]
pub enum Wrong {
    Short { bytes: usize },
    Length { said: usize, follow: usize },
    Version(u8),
    Points(u8),
    Home { home: u8, points: u8 },
    Zones(u8),
    ZoneBytes { said: usize, needed: usize },
    End { zone: usize, end: u8 },
    Heading { zone: usize, heading: u8 },
    FreeHeading { zone: usize },
    Twice { carrier: u16, zones: [usize; 2] },
    Loose { point: u8, zones: usize },
    Apart { point: u8 },
}

/// A zone's bytes.
struct Entry {
    ends: [u8; 2],
    carrier: u16,
    heading: u8,
}

/// The zones of bytes that pass rows 1 to 5.
fn entries(bytes: &[u8]) -> Vec<Entry> {
    let entry = |zone: &[u8]| {
        let (ends, rest) = zone.split_at(2);
        let (carrier, heading) = rest.split_at(rest.len() - 1);
        Entry { ends: [ends[0], ends[1]], carrier: carrier.iter().fold(0, |high, &low| 256 * high + u16::from(low)), heading: heading[0] }
    };
    bytes[6..].chunks(stride(bytes[2])).map(entry).collect()
}

impl Wrong {
    /// What is wrong by the row with this number, the first that holds of the bytes.
    pub fn by_row(number: u32, bytes: &[u8]) -> Option<Wrong> {
        let said = || usize::from(bytes[0]) * 256 + usize::from(bytes[1]);
        match number {
            1 => Some(Wrong::Short { bytes: bytes.len() }),
            2 => Some(Wrong::Length { said: said(), follow: bytes.len() - 2 }),
            3 => Some(Wrong::Version(bytes[2])),
            4 => out_of_range(bytes[3], bytes[4], bytes[5]),
            5 => Some(Wrong::ZoneBytes { said: said(), needed: 4 + stride(bytes[2]) * usize::from(bytes[5]) }),
            6 => (0..).zip(entries(bytes)).find_map(|(zone, entry)| bad_zone(bytes[3], zone, &entry)),
            7 => twice(&entries(bytes)),
            8 => loose(bytes[3], bytes[4], &entries(bytes)),
            9 => apart(bytes[3], bytes[4], &entries(bytes)),
            _ => None,
        }
    }

    /// The places of the bytes that say it, where a zone or the head does.
    fn places(&self, version: u8) -> Vec<usize> {
        let zone = |zone: usize| 6 + stride(version) * zone;
        match *self {
            Wrong::Short { .. } | Wrong::Loose { .. } | Wrong::Apart { .. } => vec![],
            Wrong::Length { .. } | Wrong::ZoneBytes { .. } => vec![0],
            Wrong::Version(_) => vec![2],
            Wrong::Points(_) => vec![3],
            Wrong::Home { .. } => vec![4],
            Wrong::Zones(_) => vec![5],
            Wrong::End { zone: z, .. } | Wrong::Heading { zone: z, .. } | Wrong::FreeHeading { zone: z } => vec![zone(z)],
            Wrong::Twice { zones, .. } => zones.map(zone).to_vec(),
        }
    }
}

fn out_of_range(points: u8, home: u8, zones: u8) -> Option<Wrong> {
    if !(2..=64).contains(&points) {
        Some(Wrong::Points(points))
    } else if home >= points {
        Some(Wrong::Home { home, points })
    } else {
        (!(2..=96).contains(&zones)).then_some(Wrong::Zones(zones))
    }
}

fn bad_zone(points: u8, zone: usize, entry: &Entry) -> Option<Wrong> {
    if let Some(&end) = entry.ends.iter().find(|&&end| end >= points) {
        Some(Wrong::End { zone, end })
    } else if entry.heading > 1 {
        Some(Wrong::Heading { zone, heading: entry.heading })
    } else {
        (entry.carrier == 0 && entry.heading == 1).then_some(Wrong::FreeHeading { zone })
    }
}

/// The first zone with a carrier that a zone before it has.
fn twice(entries: &[Entry]) -> Option<Wrong> {
    let held = |z: &usize| entries[*z].carrier != 0;
    (0..entries.len()).filter(held).find_map(|z| {
        let carrier = entries[z].carrier;
        let before = (0..z).find(|&earlier| entries[earlier].carrier == carrier)?;
        Some(Wrong::Twice { carrier, zones: [before, z] })
    })
}

/// The first point but home with under two zones; a turning loop counts twice.
fn loose(points: u8, home: u8, entries: &[Entry]) -> Option<Wrong> {
    (0..points).filter(|&point| point != home).find_map(|point| {
        let zones = entries.iter().flat_map(|entry| entry.ends).filter(|&end| end == point).count();
        (zones < 2).then_some(Wrong::Loose { point, zones })
    })
}

/// The first point that doesn't hang together with home.
fn apart(points: u8, home: u8, entries: &[Entry]) -> Option<Wrong> {
    let mut hangs = vec![false; usize::from(points)];
    hangs[usize::from(home)] = true;
    // Each time over the zones takes in at least one point more, until nothing changes.
    for _ in 0..points {
        for [a, b] in entries.iter().map(|entry| entry.ends.map(usize::from)) {
            let either = hangs[a] || hangs[b];
            (hangs[a], hangs[b]) = (either, either);
        }
    }
    (0..points).find(|&point| !hangs[usize::from(point)]).map(|point| Wrong::Apart { point })
}

impl fmt::Display for Wrong {
    fn fmt(&self, f: &mut fmt::Formatter<'_>) -> fmt::Result {
        match self {
            Wrong::Short { bytes } => write!(f, "it has {bytes}"),
            // Of a file that is longer no more is read.
            Wrong::Length { said, follow: 65_536.. } => write!(f, "L says {said}, and over 65535 bytes follow"),
            Wrong::Length { said, follow } => write!(f, "L says {said}, and {follow} bytes follow"),
            Wrong::Version(version) => write!(f, "version {version}"),
            Wrong::Points(points) => write!(f, "points {points}; a board has 2 to 64"),
            Wrong::Home { home, points } => write!(f, "home {home}; it must be below {points}, the count of points"),
            Wrong::Zones(zones) => write!(f, "zones {zones}; a board has 2 to 96"),
            Wrong::ZoneBytes { said, needed } => write!(f, "L says {said}, and the zones need {needed}"),
            Wrong::End { zone, end } => write!(f, "zone {zone}: there is no point {end}"),
            Wrong::Heading { zone, heading } => write!(f, "zone {zone}: heading {heading}"),
            Wrong::FreeHeading { zone } => write!(f, "zone {zone}: free with heading 1"),
            Wrong::Twice { carrier, zones: [one, other] } => write!(f, "carrier {carrier} in zones {one} and {other}"),
            Wrong::Loose { point, zones: 0 } => write!(f, "point {point} has no zone"),
            Wrong::Loose { point, .. } => write!(f, "point {point} has one zone"),
            Wrong::Apart { point } => write!(f, "point {point} doesn't hang together with home"),
        }
    }
}

/// The refusal of a board's file in words: number and row, what is wrong, and of a text the lines.
pub fn in_words(refused: Refused, given: &Given) -> String {
    let Some(wrong) = Wrong::by_row(refused.number(), &given.bytes) else { return refused.to_string() };
    let version = given.bytes.get(2).copied().unwrap_or_default();
    let mut lines: Vec<String> = wrong.places(version).iter().filter_map(|&place| given.lines.get(place)).map(|line| line.to_string()).collect();
    lines.dedup();
    match &lines[..] {
        [] => format!("{refused}: {wrong}"),
        [line] => format!("{refused}: {wrong}, line {line}"),
        several => format!("{refused}: {wrong}, lines {}", several.join(" and ")),
    }
}
