//! What the program `key` prints of a board, from the library's key.

use crate::text::{numbers, word_shown};
use nizkabel::owned::{self, Key};
use nizkabel::COPY_ROOM;

/// The page of a board in bytes. More bytes than any accepted board has are too long, whatever they say.
pub fn page(bytes: &[u8]) -> String {
    if bytes.len() > COPY_ROOM {
        return "too long\n".to_string();
    }
    match owned::key(bytes) {
        Ok(key) => key_shown(bytes[3], bytes[5], &key),
        Err(refused) => format!("refused {}\n", refused.number()),
    }
}

fn key_shown(points: u8, zones: u8, key: &Key) -> String {
    let out = key.entries.len() + key.blocked.len();
    let mut page = format!("board {points} points {zones} zones {out} out\nverdict {}\n", key.verdict);
    for entry in &key.entries {
        let route: Vec<String> = entry.words.iter().map(|&word| word_shown(word)).collect();
        page += &format!("home {}: {}\n", entry.carrier, route.join(" "));
    }
    let blocked = if key.blocked.is_empty() { "none".to_string() } else { numbers(&key.blocked) };
    page + &format!("blocked {blocked}\n")
}
