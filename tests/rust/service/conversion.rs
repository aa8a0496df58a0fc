//! Values: conversion.

use std::cmp::{max, min};
use std::convert::TryFrom;

use super::characters::SPACE;
use super::values::{digit, is_negative, significant, text, Form, Format};

/// How a value of one format becomes one of another.
#[derive(Clone, Copy)]
pub(super) enum Way {
    Never,
    Same,
    Digits,
    Number,
}

/// The row is the format that a value has, the column the one it gets.
const WAYS: [[Way; 5]; 5] = [
    [Way::Same, Way::Never, Way::Never, Way::Never, Way::Never],
    [Way::Never, Way::Same, Way::Number, Way::Number, Way::Number],
    [Way::Never, Way::Number, Way::Same, Way::Number, Way::Number],
    [Way::Never, Way::Number, Way::Number, Way::Same, Way::Digits],
    [Way::Never, Way::Number, Way::Number, Way::Digits, Way::Same],
];

pub(super) fn way(from: Form, to: Form) -> Way {
    WAYS[from.format as usize][to.format as usize]
}

/// The number that a value means, if conversion between unlike formats takes it at all.
fn number(value: &[u8], form: Form) -> Option<i32> {
    match form.format {
        Format::A => None,
        Format::F if value.len() == 2 => Some(i32::from(i16::from_be_bytes([value[0], value[1]]))),
        Format::F => Some(i32::from_be_bytes([value[0], value[1], value[2], value[3]])),
        Format::B => {
            let bytes = significant(value);
            if bytes.len() > 4 {
                return None;
            }
            i32::try_from(bytes.iter().fold(0, |number, &byte| number << 8 | u32::from(byte))).ok()
        }
        Format::P | Format::U => {
            let magnitude = magnitude(value, form.format)?;
            i32::try_from(if is_negative(value, form.format) { -magnitude } else { magnitude }).ok()
        }
    }
}

fn magnitude(value: &[u8], format: Format) -> Option<i64> {
    let mut magnitude = 0;
    for &byte in &value[..value.len() - 1] {
        let (high, low) = (i64::from(byte >> 4), i64::from(byte & 15));
        magnitude = if format == Format::P { magnitude * 100 + high * 10 + low } else { magnitude * 10 + low };
        if magnitude > 1 << 31 {
            return None;
        }
    }
    Some(magnitude * 10 + i64::from(digit(value, format, 0)))
}

fn number_fits(number: i32, to: Form) -> bool {
    match to.format {
        Format::A => false,
        Format::B => number >= 0 && (to.length >= 4 || number >> (8 * to.length) == 0),
        Format::F => to.length == 4 || i16::try_from(number).is_ok(),
        Format::P | Format::U => {
            let digits = to.digits();
            digits >= 10 || u64::from(number.unsigned_abs()) < 10u64.pow(digits as u32)
        }
    }
}

/// The byte that a longer value of the same format has more of on its left.
fn fill_of(value: &[u8], format: Format) -> u8 {
    match format {
        Format::F if value[0] >= 0x80 => 0xFF,
        Format::U => 0xF0,
        _ => 0,
    }
}

/// Whether a value lies in the conversion range and fits the length.
pub(super) fn fits(value: &[u8], from: Form, to: Form) -> bool {
    if from == to {
        return true;
    }
    match way(from, to) {
        Way::Never => false,
        Way::Same if from.format == Format::A => to.is_variable() || text(value, from).len() <= usize::from(to.length),
        Way::Same => {
            let fill = fill_of(value, from.format);
            let excess = value.len().saturating_sub(usize::from(to.length));
            let signed_alike = from.format != Format::F || (value[excess] ^ fill) < 0x80;
            signed_alike && value[..excess].iter().all(|&byte| byte == fill)
        }
        Way::Digits => (to.digits()..from.digits()).all(|right| digit(value, from.format, right) == 0),
        Way::Number => number(value, from).map_or(false, |number| number_fits(number, to)),
    }
}

/// "The smallest length from 1 up in the format in effect" that holds the value, "or 0 for a value outside the conversion
/// range". An empty text takes one byte, and zero one byte or digit.
pub(super) fn smallest_length(value: &[u8], from: Form, to: Form) -> usize {
    match (way(from, to), from.format) {
        (Way::Never, _) => 0,
        (Way::Same, Format::A) => max(text(value, from).len(), 1),
        (Way::Same, Format::B) => max(significant(value).len(), 1),
        (Way::Same | Way::Digits, Format::P | Format::U) => decimal_length(significant_digits(value, from), to.format),
        _ => number(value, from).map_or(0, |number| number_length(number, to.format)),
    }
}

/// How many digits a decimal value has from the first that isn't 0.
fn significant_digits(value: &[u8], form: Form) -> usize {
    (1..form.digits()).rev().find(|&right| digit(value, form.format, right) != 0).map_or(1, |right| right + 1)
}

/// The length of a decimal value by how many digits it has. In P the sign takes half a byte, in U it takes none.
fn decimal_length(digits: usize, format: Format) -> usize {
    if format == Format::P {
        digits / 2 + 1
    } else {
        digits
    }
}

/// The smallest length of a number by its conversion from another format, or from F to itself. B takes none below zero,
/// and F has two lengths only.
fn number_length(number: i32, format: Format) -> usize {
    match format {
        Format::A => 0,
        Format::B if number < 0 => 0,
        Format::B => max(significant(&number.to_be_bytes()).len(), 1),
        Format::F if i16::try_from(number).is_ok() => 2,
        Format::F => 4,
        Format::P | Format::U => {
            let digits = 1 + (1..10).take_while(|&right| number.unsigned_abs() >= 10u32.pow(right)).count();
            decimal_length(digits, format)
        }
    }
}

/// The length of a value after conversion.
pub(super) fn converted_length(value: &[u8], from: Form, to: Form) -> usize {
    if to.is_variable() {
        1 + text(value, from).len()
    } else {
        usize::from(to.length)
    }
}

/// Writes a value that fits, in normal form, over the whole of the bytes.
pub(super) fn convert(value: &[u8], from: Form, to: Form, out: &mut [u8]) {
    match way(from, to) {
        Way::Never => {}
        Way::Same if from.format == Format::A => put_text(text(value, from), to, out),
        Way::Same => {
            put_right(value, fill_of(value, from.format), out);
            if to.is_decimal() {
                put_sign(is_negative(value, from.format), to.format, out);
            }
        }
        Way::Digits => put_digits(value, from.format, is_negative(value, from.format), to.format, out),
        Way::Number => put_number(number(value, from).unwrap_or(0), to, out),
    }
}

fn put_text(text: &[u8], to: Form, out: &mut [u8]) {
    let bytes = if to.is_variable() {
        out[0] = text.len() as u8 + 1;
        &mut out[1..]
    } else {
        out
    };
    let (front, blanks) = bytes.split_at_mut(text.len());
    front.copy_from_slice(text);
    blanks.fill(SPACE);
}

/// Sets the value against the right end, without the bytes that are too many on its left.
fn put_right(value: &[u8], fill: u8, out: &mut [u8]) {
    let length = min(value.len(), out.len());
    let (left, right) = out.split_at_mut(out.len() - length);
    left.fill(fill);
    right.copy_from_slice(&value[value.len() - length..]);
}

fn put_sign(negative: bool, format: Format, out: &mut [u8]) {
    let sign = if negative { 0xD } else { 0xF };
    if let Some(last) = out.last_mut() {
        *last = if format == Format::P { *last & 0xF0 | sign } else { sign << 4 | *last & 15 };
    }
}

fn put_digits(value: &[u8], from: Format, negative: bool, to: Format, out: &mut [u8]) {
    for (right, byte) in out.iter_mut().rev().enumerate() {
        *byte = match right {
            _ if to == Format::U => 0xF0 | digit(value, from, right),
            0 => digit(value, from, 0) << 4,
            _ => digit(value, from, 2 * right) << 4 | digit(value, from, 2 * right - 1),
        };
    }
    put_sign(negative, to, out);
}

fn put_number(number: i32, to: Form, out: &mut [u8]) {
    if !to.is_decimal() {
        return put_right(&number.to_be_bytes(), if number < 0 { 0xFF } else { 0 }, out);
    }
    let mut digits = [0; 10];
    let mut rest = number.unsigned_abs();
    for digit in digits.iter_mut().rev() {
        *digit = (rest % 10) as u8;
        rest /= 10;
    }
    put_digits(&digits, Format::U, number < 0, to.format, out);
}
