//! Makes records of a table, good ones and bad ones.

use crate::bytes::{damage, SPACE};
use crate::random::Random;
use crate::service;
use crate::tables::{table_bytes, Entry, Form};
use crate::values::{capacity, make_value, put_number, put_sign};

pub(crate) const MOST_RECORD: usize = 4096;
pub(crate) const HIGHEST_INDEX: usize = 191;

fn make_count(random: &mut Random, full: bool) -> usize {
    match random.below(30) {
        0 if full => HIGHEST_INDEX,
        1 | 2 if full => random.between(5, 60),
        3..=9 => 0,
        10..=19 => 1,
        _ => random.between(1, 4),
    }
}

fn put_field(random: &mut Random, entry: &Entry, full: bool, bytes: &mut Vec<u8>) {
    let mut count = 1;
    if entry.is_multiple() {
        count = make_count(random, full);
        bytes.push(count as u8);
    }
    for _ in 0..count {
        bytes.extend(make_value(random, entry.form(), entry.form(), false));
    }
}

/// A valid record of the table, if its empty record isn't too long. Some are filled to the brim or nearly so.
pub(crate) fn make_record(random: &mut Random, table: &[Entry]) -> Vec<u8> {
    for &full in &[true, false, false] {
        let mut bytes = vec![0xE5, 0xD9, 0xC3, 0x00, 0x01];
        let (mut part, mut part_at) = (0, 0);
        while part < table.len() {
            part_at = bytes.len();
            let (mut end, mut count) = (part + 1, 1);
            if table[part].is_periodic() {
                end = table[part].end;
                count = make_count(random, full);
                bytes.push(count as u8);
            }
            for _ in 0..count {
                let fields = table[part..end].iter().filter(|entry| !entry.is_group());
                fields.for_each(|entry| put_field(random, entry, full && entry.periodic.is_none(), &mut bytes));
            }
            part = end;
        }
        if random.chance(15) {
            fill_record(random, &table[table.len() - 1], part_at, &mut bytes);
        }
        if bytes.len() <= MOST_RECORD {
            return bytes;
        }
    }
    empty_record(table)
}

/// The empty record of a table; no bytes if it is too long.
pub(crate) fn empty_record(table: &[Entry]) -> Vec<u8> {
    let mut room = vec![0; MOST_RECORD];
    let (_, length) = service::empty(&table_bytes(table), &mut room);
    room.truncate(length);
    room
}

/// Adds values to the last field until the record is as good as full, if that is a variable-length MU field outside.
fn fill_record(random: &mut Random, last: &Entry, at: usize, record: &mut Vec<u8>) {
    let length = MOST_RECORD - random.pick(&[0, 0, 1, 2, 5, 30]);
    if !last.is_multiple() || !last.is_variable() || last.periodic.is_some() {
        return;
    }
    while record.len() < length && usize::from(record[at]) < HIGHEST_INDEX {
        let value = (length - record.len()).min(random.pick(&[254, 254, 100]));
        record.push(value as u8);
        record.extend((1..value).map(|_| 0xC1));
        record[at] += 1;
    }
}

/// Where the numbers of a record end, with their forms. It may be a record of another table, and its bytes run out.
fn numbers_of(table: &[Entry], record: &[u8]) -> Vec<(usize, Form)> {
    let (mut at, mut part, mut found) = (5, 0, Vec::new());
    let byte = |at: usize| record.get(at).copied().unwrap_or(0);
    let counted = |at: &mut usize| {
        *at += 1;
        byte(*at - 1)
    };
    while part < table.len() {
        let (end, count) = match table[part].is_periodic() {
            true => (table[part].end, counted(&mut at)),
            false => (part + 1, 1),
        };
        let fields = table[part..end].iter().filter(|entry| !entry.is_group());
        for field in (0..count).flat_map(|_| fields.clone()) {
            let values = if field.is_multiple() { counted(&mut at) } else { 1 };
            for _ in 0..values {
                at += usize::from(if field.is_variable() { byte(at) } else { field.length });
                if at <= record.len() && field.format != b'A' {
                    found.push((at, field.form()));
                }
            }
        }
        part = end;
    }
    found
}

/// Gives a P or U value of a record some half byte as its sign.
fn sign_otherwise(random: &mut Random, table: &[Entry], record: &mut [u8]) {
    let mut decimals = numbers_of(table, record);
    decimals.retain(|(_, form)| matches!(form.format, b'P' | b'U'));
    if !decimals.is_empty() {
        let (end, form) = random.pick(&decimals);
        put_sign(form, random.below(16) as u8, &mut record[..end]);
    }
}

/// Makes numbers of a record the ends of ranges, or those beside them, where they have the room.
pub(crate) fn put_ends(random: &mut Random, table: &[Entry], record: &mut [u8]) {
    for (end, form) in numbers_of(table, record) {
        let magnitude = random.pick(&[1 << 15, 1 << 31, 1 << 31]) - 1 + random.below(3) as u128;
        let negative = form.format != b'B' && random.chance(50);
        if magnitude <= capacity(form, negative) && random.chance(50) {
            let value = put_number(random, form, magnitude, negative, false);
            record[end - value.len()..end].copy_from_slice(&value);
        }
    }
}

pub(crate) fn bad_record(random: &mut Random, table: &[Entry], record: &[u8]) -> Vec<u8> {
    let mut bytes = record.to_vec();
    match random.below(10) {
        0 => bytes.push(random.pick(&[0, 1, SPACE])),
        1 => drop(bytes.pop()),
        2 => bytes[random.below(5)] ^= 1,
        3 if random.chance(10) => bytes.resize(random.pick(&[4097, 5000]), 0),
        4 => bytes.truncate(random.below(record.len())),
        5 | 6 => sign_otherwise(random, table, &mut bytes),
        _ => {
            let at = random.between(0, record.len() - 1);
            bytes[at] = random.pick(&[0, 1, 2, 192, 255, 0x0C, 0x0D, 0xF0, 0xC0, 0xD0, 0xFA, 0xA5, SPACE]);
        }
    }
    if random.chance(15) {
        damage(random, &mut bytes, Random::byte);
    }
    bytes
}
