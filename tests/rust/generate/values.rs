//! Makes values, good ones and bad ones.

use crate::bytes::SPACE;
use crate::random::Random;
use crate::tables::Form;

/// The largest magnitude that a numeric form holds for sure, above or below zero.
pub(crate) fn capacity(form: Form, negative: bool) -> u128 {
    let length = u32::from(form.length);
    match form.format {
        b'B' => (1u128 << (8 * length.min(15))) - 1,
        b'F' => (1 << (8 * length - 1)) - u128::from(!negative),
        b'P' => 10u128.pow(2 * length - 1) - 1,
        _ => 10u128.pow(length) - 1,
    }
}

/// The numbers up to one above the most that need another digit or byte than those below them, or end a range.
fn edges(most: u128) -> Vec<u128> {
    let digits = (1..30).map(|digits| 10u128.pow(digits));
    let bytes = (1..16).map(|bytes| 1 << (8 * bytes));
    let ranges = vec![1 << 15, 1 << 31, 1 << 31];
    digits.chain(bytes).chain(ranges).filter(|&edge| edge <= most + 1).collect()
}

/// A magnitude up to the most, which is 9 or more.
fn magnitude(random: &mut Random, most: u128) -> u128 {
    let magnitude = match random.below(6) {
        0 => 0,
        1 | 2 => random.pick(&edges(most)) - 1 + random.below(3) as u128,
        3 => random.below(1000) as u128,
        _ => u128::from(random.next()) << random.below(48) >> random.below(64),
    };
    magnitude % (most + 1)
}

/// A value of the form whose meaning fits another form too. A loose one need not be in normal form.
pub(crate) fn make_value(random: &mut Random, form: Form, fit: Form, loose: bool) -> Vec<u8> {
    const WORD: Form = Form { format: b'F', length: 4 };
    match (form.format, fit.format) {
        (b'A', _) => return make_text(random, form, fit, loose),
        (b'B', b'B') if random.chance(25) => return make_binary(random, form, fit),
        _ => {}
    }
    let signed = form.format != b'B' && fit.format != b'B';
    let negative = signed && random.chance(30);
    let mut most = capacity(form, negative).min(capacity(fit, negative));
    if form.format != fit.format && [form, fit].iter().any(|form| matches!(form.format, b'B' | b'F')) {
        most = most.min(capacity(WORD, negative));
    }
    let magnitude = magnitude(random, most);
    put_number(random, form, magnitude, negative && (magnitude > 0 || loose), loose)
}

/// A binary value that may have more bytes than the numbers here.
fn make_binary(random: &mut Random, form: Form, fit: Form) -> Vec<u8> {
    let significant = random.between(0, form.length.min(fit.length).into());
    let mut bytes = vec![0; usize::from(form.length) - significant];
    bytes.extend((0..significant).map(|_| random.pick(&[0x00, 0x01, 0x7F, 0x80, 0xFF])));
    bytes
}

pub(crate) fn put_number(random: &mut Random, form: Form, magnitude: u128, negative: bool, loose: bool) -> Vec<u8> {
    let length = usize::from(form.length);
    let sign = make_sign(random, negative, loose);
    let digit = |right: usize| (magnitude / 10u128.pow(right as u32) % 10) as u8;
    match form.format {
        b'B' => {
            let mut bytes = vec![0; length.saturating_sub(16)];
            bytes.extend(&magnitude.to_be_bytes()[16 - length.min(16)..]);
            bytes
        }
        b'F' => {
            let number = if negative { -(magnitude as i64) } else { magnitude as i64 };
            number.to_be_bytes()[8 - length..].to_vec()
        }
        b'P' => {
            let low = |back: usize| if back == 0 { sign } else { digit(2 * back - 1) };
            (0..length).rev().map(|back| digit(2 * back) << 4 | low(back)).collect()
        }
        _ => (0..length).rev().map(|back| if back == 0 { sign << 4 | digit(0) } else { 0xF0 | digit(back) }).collect(),
    }
}

/// The sign of a number in normal form; a loose one is any that an incoming value may have.
fn make_sign(random: &mut Random, negative: bool, loose: bool) -> u8 {
    match (negative, loose) {
        (false, false) => 0xF,
        (true, false) => 0xD,
        (false, true) => random.pick(&[0xA, 0xC, 0xE, 0xF, 0xF]),
        (true, true) => random.pick(&[0xB, 0xD]),
    }
}

/// Sets the half byte of a P or U value that is its sign.
pub(crate) fn put_sign(form: Form, sign: u8, value: &mut [u8]) {
    let last = value.len() - 1;
    value[last] = if form.format == b'P' { value[last] & 0xF0 | sign } else { value[last] & 0x0F | sign << 4 };
}

fn make_text(random: &mut Random, form: Form, fit: Form, loose: bool) -> Vec<u8> {
    let room = |form: Form| if form.length == 0 { 253 } else { usize::from(form.length) };
    let most = room(form).min(room(fit));
    let length = match random.below(12) {
        0 => most,
        1 => random.between(0, most),
        2 => 0,
        _ => random.between(0, most.min(8)),
    };
    let mut text: Vec<u8> = (0..length).map(|_| random.pick(&[0xC1, 0xE9, 0xF5, 0x40, 0x00, 0xFF])).collect();
    if form.length != 0 {
        text.resize(usize::from(form.length), SPACE);
        return text;
    }
    while !loose && text.last() == Some(&SPACE) {
        text.pop();
    }
    text.insert(0, text.len() as u8 + 1);
    text
}

pub(crate) fn make_bad(random: &mut Random, form: Form, value: &mut [u8]) {
    let last = value.len() - 1;
    let half = random.between(0xA, 0xE) as u8;
    match form.format {
        b'A' if form.length == 0 => value[0] = random.pick(&[0, 255]),
        b'P' | b'U' if random.chance(40) => put_sign(form, random.below(10) as u8, value),
        b'P' => value[random.below(last + 1)] |= half << 4,
        b'U' if last > 0 && random.chance(50) => value[random.below(last)] = random.pick(&[0x05, 0xA5, 0xB5, 0xE5, 0x40]),
        b'U' => value[random.below(last + 1)] |= half,
        _ => {}
    }
}
