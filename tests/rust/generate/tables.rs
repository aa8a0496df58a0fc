//! Makes tables, good ones and bad ones.

use crate::bytes::{damage, ebcdic, encode};
use crate::random::Random;

/// An entry; its format is an ASCII letter, or a space for a group.
#[derive(Clone)]
pub(crate) struct Entry {
    pub(crate) name: String,
    pub(crate) level: u8,
    pub(crate) format: u8,
    pub(crate) length: u8,
    pub(crate) option: u8,
    pub(crate) periodic: Option<usize>,
    pub(crate) end: usize,
}

impl Entry {
    pub(crate) fn is_group(&self) -> bool {
        self.format == b' '
    }

    pub(crate) fn is_multiple(&self) -> bool {
        self.option == 1
    }

    pub(crate) fn is_periodic(&self) -> bool {
        self.option == 2
    }

    pub(crate) fn is_variable(&self) -> bool {
        !self.is_group() && self.length == 0
    }

    pub(crate) fn form(&self) -> Form {
        Form { format: self.format, length: self.length }
    }
}

#[derive(Clone, Copy)]
pub(crate) struct Form {
    pub(crate) format: u8,
    pub(crate) length: u8,
}

pub(crate) const FORMATS: [u8; 5] = [b'A', b'B', b'F', b'P', b'U'];

pub(crate) fn length_for(random: &mut Random, format: u8, wide: bool) -> u8 {
    let (least, greatest) = match format {
        b'A' => (0, 253),
        b'B' => (1, 126),
        b'F' => return random.pick(&[2, 4]),
        b'P' => (1, 15),
        _ => (1, 29),
    };
    let length = match random.below(8) {
        0 => least,
        1 if wide => greatest,
        2 | 3 if wide => random.between(least, greatest),
        // As many digits for both.
        _ if format == b'P' => random.between(1, 7),
        _ if format == b'U' => random.between(1, 13),
        _ => random.between(1, 6),
    };
    length as u8
}

pub(crate) fn make_name(random: &mut Random, used: &[Entry]) -> String {
    loop {
        let first = random.pick(b"AAABBCDEEFGMNPUXZ") as char;
        let second = random.pick(b"ABCDENXUPGSZ0123456789") as char;
        let name: String = [first, second].iter().collect();
        let no_name = first == 'E' && second.is_ascii_digit();
        if !no_name && used.iter().all(|entry| entry.name != name) {
            return name;
        }
    }
}

pub(crate) fn make_table(random: &mut Random) -> Vec<Entry> {
    let count = match random.below(24) {
        0 => 1,
        1 => 64,
        2 | 3 => random.between(13, 63),
        _ => random.between(2, 12),
    };
    let (wide, groups, multiples) = (random.chance(20), random.pick(&[5, 25, 40]), random.pick(&[0, 20, 30]));
    let mut table: Vec<Entry> = Vec::new();
    for i in 0..count {
        let level = match table.last() {
            None => 1,
            Some(entry) if entry.is_group() => entry.level + 1,
            Some(entry) if random.chance(60) => entry.level,
            Some(entry) => random.between(1, usize::from(entry.level)) as u8,
        };
        let group = i + 1 < count && level < 7 && random.chance(groups);
        let format = if group { b' ' } else { random.pick(&FORMATS) };
        let length = if group { 0 } else { length_for(random, format, wide) };
        let option = match group {
            true if level == 1 && random.chance(60) => 2,
            false if random.chance(multiples) => 1,
            _ => 0,
        };
        let periodic = match table.last() {
            _ if option == 2 => Some(i),
            Some(entry) if level > 1 => entry.periodic,
            _ => None,
        };
        table.push(Entry { name: make_name(random, &table), level, format, length, option, periodic, end: i + 1 });
    }
    close_groups(&mut table);
    table
}

fn close_groups(table: &mut [Entry]) {
    for i in 0..table.len() {
        if table[i].is_group() {
            let inside = table[i + 1..].iter().take_while(|entry| entry.level > table[i].level).count();
            table[i].end = i + 1 + inside;
        }
    }
}

pub(crate) fn table_bytes(table: &[Entry]) -> Vec<u8> {
    let mut bytes = vec![0xE5, 0xC6, 0xE3, 0x00, 0x01, table.len() as u8];
    for entry in table {
        bytes.extend(encode(&entry.name));
        bytes.extend(&[entry.level, ebcdic(entry.format), entry.length, entry.option]);
    }
    bytes
}

/// Breaks one rule of the table, or damages its bytes.
pub(crate) fn bad_table(random: &mut Random, table: &[Entry]) -> Vec<u8> {
    let mut bytes = table_bytes(table);
    let entry = 6 + 6 * random.below(table.len());
    let other = 6 + 6 * random.below(table.len());
    match random.below(12) {
        0 => bytes[entry + 1] = random.byte(),
        1 => bytes[entry..entry + 2].copy_from_slice(&[0xC5, random.pick(&[0xF0, 0xF5, 0xF9])]),
        2 => bytes.copy_within(other..other + 2, entry),
        3 | 4 => bytes[entry + 2] = random.pick(&[0, 1, 2, 3, 7, 8, 255]),
        5 => bytes[entry + 3] = ebcdic(random.pick(b"ABFPUGWN ")),
        6 | 7 => bytes[entry + 4] = random.pick(&[0, 1, 2, 3, 4, 5, 15, 16, 29, 30, 126, 127, 253, 254, 255]),
        8 => bytes[entry + 5] = random.pick(&[0, 1, 2, 3, 255]),
        9 => bytes[5] = random.pick(&[0, 1, 63, 64, 65, 255, bytes[5] + 1, bytes[5] - 1]),
        _ => damage(random, &mut bytes, Random::byte),
    }
    bytes
}
