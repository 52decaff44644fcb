//! Where a refused board is wrong: the rows 1 to 9 one after another, each looking for the first place where it holds.

use crate::board::Zone;

/// What is wrong with a board, in the order in which it is looked for. Zones and points count from 0.
#[derive(Clone, Debug, PartialEq, Eq)]
pub enum Wrong {
    /// It has so many bytes, under 6.
    Short { bytes: usize },
    /// L, and how many bytes follow it.
    Length { said: usize, follow: usize },
    /// The version, neither 1 nor 2.
    Version(u8),
    /// P, not from 2 to 64.
    Points(u8),
    /// The home point, not below P.
    Home { home: u8, points: u8 },
    /// Z, not from 2 to 96.
    Zones(u8),
    /// L, and what it is for Z zones in the board's version.
    ZoneBytes { said: usize, needed: usize },
    /// An end of the zone, A before B, that isn't below P. The lowest zone with any of the three faults is told.
    End { zone: usize, end: u8 },
    /// The zone's heading, over 1.
    Heading { zone: usize, heading: u8 },
    /// The zone is free and has heading 1.
    FreeHeading { zone: usize },
    /// A carrier and two zones that hold it: the second is the first zone whose carrier a zone before it holds.
    Twice { carrier: u16, zones: [usize; 2] },
    /// The lowest point other than home with under two zones, and how many it has, a turning loop counted twice.
    Loose { point: usize, zones: usize },
    /// The lowest point that doesn't hang together with the home point.
    Apart { point: usize },
}

use Wrong::*;

impl Wrong {
    /// The number of its row.
    pub fn number(&self) -> u32 {
        match self {
            Short { .. } => 1,
            Length { .. } => 2,
            Version(_) => 3,
            Points(_) | Home { .. } | Zones(_) => 4,
            ZoneBytes { .. } => 5,
            End { .. } | Heading { .. } | FreeHeading { .. } => 6,
            Twice { .. } => 7,
            Loose { .. } => 8,
            Apart { .. } => 9,
        }
    }
}

/// What is wrong with a board in bytes, by the first row that holds; none where the board is accepted.
pub fn refused_at(bytes: &[u8]) -> Option<Wrong> {
    let &[high, low, version, points, home, count, ref zones @ ..] = bytes else {
        return Some(Short { bytes: bytes.len() });
    };
    let (said, follow) = (u16::from_be_bytes([high, low]).into(), bytes.len() - 2);
    if said != follow {
        return Some(Length { said, follow });
    }
    // How many bytes a zone has.
    let size = match version {
        1 => 4,
        2 => 5,
        _ => return Some(Version(version)),
    };
    if !(2..=64).contains(&points) {
        return Some(Points(points));
    }
    if home >= points {
        return Some(Home { home, points });
    }
    if !(2..=96).contains(&count) {
        return Some(Zones(count));
    }
    let needed = 4 + size * usize::from(count);
    if said != needed {
        return Some(ZoneBytes { said, needed });
    }
    let zones: Vec<Zone> = zones.chunks(size).map(zone).collect();
    let (points, home) = (points.into(), home.into());
    bad_zone(points, &zones).or_else(|| twice(&zones)).or_else(|| loose(points, home, &zones)).or_else(|| apart(points, home, &zones))
}

/// A zone from its bytes: its ends, its carrier in one byte or two, its heading.
fn zone(bytes: &[u8]) -> Zone {
    let carrier = bytes[2..bytes.len() - 1].iter().fold(0, |high, &low| 256 * high + u32::from(low));
    Zone { a: bytes[0].into(), b: bytes[1].into(), carrier, heading: bytes[bytes.len() - 1].into() }
}

fn bad_zone(points: usize, zones: &[Zone]) -> Option<Wrong> {
    zones.iter().enumerate().find_map(|(zone, z)| {
        if let Some(end) = [z.a, z.b].into_iter().find(|&end| end >= points) {
            Some(End { zone, end: end as u8 })
        } else if z.heading > 1 {
            Some(Heading { zone, heading: z.heading as u8 })
        } else {
            (z.carrier == 0 && z.heading == 1).then_some(FreeHeading { zone })
        }
    })
}

fn twice(zones: &[Zone]) -> Option<Wrong> {
    zones.iter().enumerate().filter(|(_, z)| z.carrier != 0).find_map(|(zone, z)| {
        let before = zones[..zone].iter().position(|other| other.carrier == z.carrier)?;
        Some(Twice { carrier: z.carrier as u16, zones: [before, zone] })
    })
}

/// A point's zones are counted by their ends, so that a turning loop counts twice.
fn loose(points: usize, home: usize, zones: &[Zone]) -> Option<Wrong> {
    (0..points).filter(|&p| p != home).find_map(|point| {
        let ends = zones.iter().flat_map(|z| [z.a, z.b]).filter(|&end| end == point).count();
        (ends < 2).then_some(Loose { point, zones: ends })
    })
}

/// The points that hang together with home are spread over the zones until no zone joins one of them to another.
fn apart(points: usize, home: usize, zones: &[Zone]) -> Option<Wrong> {
    let mut with_home = vec![false; points];
    with_home[home] = true;
    while let Some(z) = zones.iter().find(|z| with_home[z.a] != with_home[z.b]) {
        (with_home[z.a], with_home[z.b]) = (true, true);
    }
    with_home.iter().position(|&with| !with).map(|point| Apart { point })
}
