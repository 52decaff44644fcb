//! A board's file: bytes, hexadecimal text, or readable text.

use crate::board::stride;
use crate::text::{decoded, lines, number, quoted, said, starts_as_text, Mistake};

/// The bytes that a file says, which the library may refuse, and of a text the line of each. In a readable text the last zone's line says how many
/// zones there are.
#[derive(Clone, Debug, PartialEq, Eq)]
pub struct Given {
    pub bytes: Vec<u8>,
    pub lines: Vec<usize>,
}

/// No board's text has more bytes, by far, and none in bytes is accepted.
pub const MOST: usize = 65_536;

/// Reads a board's file of which at least MOST + 2 bytes are given, or all. In bytes no more are needed: the library gives the same number.
pub fn read(file: &[u8]) -> Result<Given, Mistake> {
    if !starts_as_text(file) {
        return Ok(Given { bytes: file.to_vec(), lines: Vec::new() });
    }
    let text = decoded(&file[..file.len().min(MOST)]);
    if file.len() > MOST {
        return Err(Mistake::new(lines(&text).count(), format!("a text of over {MOST} bytes is no board")));
    }
    let first = lines(&text).map(|(_, line)| said(line)).find(|line| !line.is_empty());
    if first.is_some_and(|line| line.starts_with("points")) { readable(&text) } else { hexadecimal(&text) }
}

/// Digits in pairs, white space between pairs, comments.
fn hexadecimal(text: &str) -> Result<Given, Mistake> {
    let mut given = Given { bytes: Vec::new(), lines: Vec::new() };
    for (line, text) in lines(text) {
        for digits in said(text).split_whitespace() {
            let mut half = None;
            for c in digits.chars() {
                let no_digit = || format!("{} is no hexadecimal digit, and a readable board starts with points", quoted(&c.to_string()));
                let value = c.to_digit(16).ok_or_else(|| Mistake::new(line, no_digit()))? as u8;
                match half.take() {
                    None => half = Some(value),
                    Some(high) => {
                        given.bytes.push(16 * high + value);
                        given.lines.push(line);
                    }
                }
            }
            if half.is_some() {
                let digit = &digits[digits.len() - 1..];
                return Err(Mistake::new(line, format!("the digit {} stands alone; digits go in pairs", quoted(digit))));
            }
        }
    }
    Ok(given)
}

/// A zone as a line says it.
struct Line {
    number: usize,
    ends: [u8; 2],
    carrier: u16,
    heading: u8,
}

/// `points P home H`, then a line a zone. The bytes are in version 1 where every carrier has room there; L and Z are worked out.
fn readable(text: &str) -> Result<Given, Mistake> {
    let mut content = lines(text).map(|(number, line)| (number, said(line))).filter(|(_, line)| !line.is_empty());
    let (head, line) = content.next().unwrap_or((1, ""));
    let (points, home) = head_said(line).map_err(|what| Mistake::new(head, what))?;
    let zones = content.map(|(number, line)| zone_said(number, line).map_err(|what| Mistake::new(number, what))).collect::<Result<Vec<Line>, _>>()?;
    let Ok(count) = u8::try_from(zones.len()) else {
        return Err(Mistake::new(zones[255].number, "a board has no more than 96 zones"));
    };
    let last = zones.last().map_or(head, |zone| zone.number);
    let version = if zones.iter().all(|zone| zone.carrier <= 255) { 1 } else { 2 };
    let length = 4 + stride(version) * zones.len();
    let bytes = vec![(length / 256) as u8, length as u8, version, points, home, count];
    let mut given = Given { bytes, lines: vec![head, head, head, head, head, last] };
    for Line { number, ends, carrier, heading } in zones {
        let [high, low] = carrier.to_be_bytes();
        given.bytes.extend(ends);
        if version == 2 {
            given.bytes.push(high);
        }
        given.bytes.extend([low, heading]);
        given.lines.resize(given.bytes.len(), number);
    }
    Ok(given)
}

/// A number that a byte can say. The library refuses it where it is over the limit, which is said also where no byte can say it.
fn byte(said: &str, what: &str, limit: u16) -> Result<u8, String> {
    number(said, what, 255).or_else(|_| number(said, what, limit)).map(|n| n as u8)
}

fn head_said(line: &str) -> Result<(u8, u8), String> {
    match line.split_whitespace().collect::<Vec<_>>()[..] {
        ["points", points, "home", home] => Ok((byte(points, "points", 64)?, byte(home, "home", 63)?)),
        _ => Err("the first line says points and home, as in: points 9 home 0".to_string()),
    }
}

fn zone_said(number: usize, line: &str) -> Result<Line, String> {
    let mut parts = line.split_whitespace();
    let (ends, held) = (parts.next().unwrap_or_default(), parts.next());
    let (Some((a, b)), None) = (ends.split_once('-'), parts.next()) else {
        return Err(format!("{} is no zone: write 1-2 for a free one, 1-2 17> or 1-2 <17 for one with carrier 17", quoted(line)));
    };
    let ends = [byte(a, "point", 63)?, byte(b, "point", 63)?];
    let Some(held) = held else { return Ok(Line { number, ends, carrier: 0, heading: 0 }) };
    let (carrier, heading) = match (held.strip_prefix('<'), held.strip_suffix('>')) {
        (None, Some(carrier)) => (carrier, 0),
        (Some(carrier), None) => (carrier, 1),
        _ => return Err(format!("{} has no heading: write 17> from the first end to the second, <17 from the second to the first", quoted(held))),
    };
    match self::number(carrier, "carrier", 65_535)? {
        0 => Err("0 is no carrier; a free zone has its ends alone".to_string()),
        carrier => Ok(Line { number, ends, carrier, heading }),
    }
}

/// Bytes of a board in hexadecimal: the head, then a line a zone.
pub fn hexadecimal_shown(bytes: &[u8]) -> String {
    let line = |bytes: &[u8]| bytes.iter().map(|byte| format!("{byte:02X}")).collect::<Vec<_>>().join(" ") + "\n";
    let (head, zones) = bytes.split_at(6);
    std::iter::once(head).chain(zones.chunks(stride(head[2]))).map(line).collect()
}
