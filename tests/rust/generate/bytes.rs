//! Writes characters in EBCDIC and bytes in hexadecimal digits, and damages bytes.

use crate::random::Random;

pub(crate) const SPACE: u8 = 0x40;
pub(crate) const PERIOD: u8 = 0x4B;
pub(crate) const APOSTROPHE: u8 = 0x7D;

pub(crate) fn ebcdic(character: u8) -> u8 {
    match character {
        b'A'..=b'I' => character - b'A' + 0xC1,
        b'J'..=b'R' => character - b'J' + 0xD1,
        b'S'..=b'Z' => character - b'S' + 0xE2,
        b'0'..=b'9' => character - b'0' + 0xF0,
        b'.' => PERIOD,
        b'(' => 0x4D,
        b')' => 0x5D,
        b'-' => 0x60,
        b',' => 0x6B,
        b'\'' => APOSTROPHE,
        _ => SPACE,
    }
}

pub(crate) fn encode(text: &str) -> Vec<u8> {
    text.bytes().map(ebcdic).collect()
}

pub(crate) fn hexadecimal(bytes: &[u8]) -> String {
    if bytes.is_empty() {
        return "-".to_string();
    }
    bytes.iter().map(|byte| format!("{:02x}", byte)).collect()
}

/// Changes, takes out, puts in or cuts off a few bytes.
pub(crate) fn damage(random: &mut Random, bytes: &mut Vec<u8>, new: impl Fn(&mut Random) -> u8) {
    for _ in 0..random.pick(&[1, 1, 1, 2, 4]) {
        if bytes.is_empty() {
            bytes.push(new(random));
            continue;
        }
        let at = random.below(bytes.len());
        match random.below(8) {
            0 => drop(bytes.remove(at)),
            1 => bytes.insert(at, new(random)),
            2 => bytes.truncate(at),
            3 => bytes.push(new(random)),
            _ => bytes[at] = new(random),
        }
    }
}
