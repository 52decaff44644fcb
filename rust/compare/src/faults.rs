//! What is wrong with a position sheet, or with the bytes lent for its copy: each fault tested by itself.

/// What turns back a write, in the order in which it is tried. The first four get 39.
#[derive(Clone, Copy, Debug, PartialEq, Eq, PartialOrd, Ord)]
pub enum Fault {
    TooFewWords,
    TooManyWords,
    /// A word over 131,071.
    TooHigh,
    TooFewBytes,
    /// The word 1.
    FreeHeading,
    /// A carrier in two zones.
    Twice,
}

use Fault::*;

pub const FAULTS: [Fault; 6] = [TooFewWords, TooManyWords, TooHigh, TooFewBytes, FreeHeading, Twice];

/// The version that has room for the carriers of a sheet.
pub fn version_for(sheet: &[u32]) -> usize {
    if sheet.iter().all(|&word| word / 2 < 256) { 1 } else { 2 }
}

/// How many bytes the copy has.
pub fn bytes_for(zones: usize, sheet: &[u32]) -> usize {
    6 + (3 + version_for(sheet)) * zones
}

/// The faults of a sheet for so many zones with so many bytes lent, in their order.
pub fn faults(zones: usize, sheet: &[u32], room: usize) -> Vec<Fault> {
    let twice = |at: usize| sheet[at] > 1 && sheet[..at].iter().any(|word| word / 2 == sheet[at] / 2);
    let found = |fault: &Fault| match fault {
        TooFewWords => sheet.len() < zones,
        TooManyWords => sheet.len() > zones,
        TooHigh => sheet.iter().any(|&word| word > 131_071),
        TooFewBytes => room < bytes_for(zones, sheet),
        FreeHeading => sheet.contains(&1),
        Twice => (0..sheet.len()).any(twice),
    };
    FAULTS.into_iter().filter(found).collect()
}

/// The number for faults in their order: that of the first.
pub fn number_for(faults: &[Fault]) -> u32 {
    match faults.first() {
        None => 0,
        Some(FreeHeading) => 6,
        Some(Twice) => 7,
        Some(_) => 39,
    }
}
