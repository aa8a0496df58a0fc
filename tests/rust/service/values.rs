//! Values: formats and lengths.

use std::cmp::max;

use super::characters::{is_digit, SPACE};

#[derive(Clone, Copy, PartialEq, Eq)]
pub(super) enum Format {
    A,
    B,
    F,
    P,
    U,
}

pub(super) fn format_of(letter: u8) -> Option<Format> {
    match letter {
        0xC1 => Some(Format::A),
        0xC2 => Some(Format::B),
        0xC6 => Some(Format::F),
        0xD7 => Some(Format::P),
        0xE4 => Some(Format::U),
        _ => None,
    }
}

/// The least and the greatest length of each format.
const LENGTHS: [(u8, u8); 5] = [(0, 253), (1, 126), (2, 4), (1, 15), (1, 29)];

/// A format with a length.
#[derive(Clone, Copy, PartialEq, Eq)]
pub(super) struct Form {
    pub(super) format: Format,
    pub(super) length: u8,
}

impl Form {
    pub(super) const NONE: Form = Form { format: Format::A, length: 0 };

    pub(super) fn is_allowed(self) -> bool {
        let (least, greatest) = LENGTHS[self.format as usize];
        least <= self.length && self.length <= greatest && (self.format != Format::F || self.length != 3)
    }

    pub(super) fn is_variable(self) -> bool {
        self.length == 0
    }

    pub(super) fn is_decimal(self) -> bool {
        matches!(self.format, Format::P | Format::U)
    }

    pub(super) fn null_length(self) -> usize {
        usize::from(max(self.length, 1))
    }

    /// How many digits a decimal value has.
    pub(super) fn digits(self) -> usize {
        let length = usize::from(self.length);
        if self.format == Format::P {
            2 * length - 1
        } else {
            length
        }
    }

    /// The length of the stored value that begins there.
    pub(super) fn length_at(self, bytes: &[u8], at: usize) -> usize {
        usize::from(if self.is_variable() { bytes[at] } else { self.length })
    }
}

/// Fills the bytes with null values.
pub(super) fn put_nulls(form: Form, out: &mut [u8]) {
    match form.format {
        Format::A if form.is_variable() => out.fill(1),
        Format::A => out.fill(SPACE),
        Format::B | Format::F => out.fill(0),
        Format::U => out.fill(0xF0),
        Format::P => {
            out.fill(0);
            out.chunks_exact_mut(usize::from(form.length)).for_each(|value| value[value.len() - 1] = 0x0F);
        }
    }
}

/// The sign of a decimal value, none if a digit is above 9 or a high half isn't F.
fn sign(value: &[u8], format: Format) -> Option<u8> {
    let (&last, before) = value.split_last()?;
    let (good, sign, digit) = if format == Format::P {
        (before.iter().all(|byte| byte >> 4 <= 9 && byte & 15 <= 9), last & 15, last >> 4)
    } else {
        (before.iter().all(|&byte| is_digit(byte)), last >> 4, last & 15)
    };
    if good && digit <= 9 {
        Some(sign)
    } else {
        None
    }
}

pub(super) fn is_value(value: &[u8], form: Form) -> bool {
    !form.is_decimal() || sign(value, form.format).map_or(false, |sign| is_plus(sign) || is_minus(sign))
}

fn is_plus(sign: u8) -> bool {
    matches!(sign, 0xA | 0xC | 0xE | 0xF)
}

fn is_minus(sign: u8) -> bool {
    matches!(sign, 0xB | 0xD)
}

pub(super) fn is_normal_decimal(value: &[u8], format: Format) -> bool {
    match sign(value, format) {
        Some(0xF) => true,
        Some(0xD) => is_negative(value, format),
        _ => false,
    }
}

/// Whether a decimal value is below zero, which minus zero isn't.
pub(super) fn is_negative(value: &[u8], format: Format) -> bool {
    let last = value[value.len() - 1];
    let (sign, digit, zero) =
        if format == Format::P { (last & 15, last >> 4, 0) } else { (last >> 4, last & 15, 0xF0) };
    is_minus(sign) && (digit != 0 || value[..value.len() - 1].iter().any(|&byte| byte != zero))
}

/// The digit of a decimal value that has `right` digits to its right.
pub(super) fn digit(value: &[u8], format: Format, right: usize) -> u8 {
    let (back, high) = if format == Format::P { ((right + 1) / 2, right % 2 == 0) } else { (right, false) };
    match value.len().checked_sub(back + 1) {
        Some(at) if high => value[at] >> 4,
        Some(at) => value[at] & 15,
        None => 0,
    }
}

/// The bytes of an A value without trailing blanks.
pub(super) fn text(value: &[u8], form: Form) -> &[u8] {
    let bytes = if form.is_variable() { &value[1..] } else { value };
    let length = bytes.iter().rposition(|&byte| byte != SPACE).map_or(0, |last| last + 1);
    &bytes[..length]
}

/// The bytes of a binary value from the first that isn't 0.
pub(super) fn significant(value: &[u8]) -> &[u8] {
    &value[value.iter().take_while(|&&byte| byte == 0).count()..]
}
