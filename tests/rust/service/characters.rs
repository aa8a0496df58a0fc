//! Characters.

pub(super) const SPACE: u8 = 0x40;
pub(super) const PERIOD: u8 = 0x4B;
pub(super) const OPEN: u8 = 0x4D;
pub(super) const CLOSE: u8 = 0x5D;
pub(super) const HYPHEN: u8 = 0x60;
pub(super) const COMMA: u8 = 0x6B;
pub(super) const APOSTROPHE: u8 = 0x7D;
pub(super) const LETTER_C: u8 = 0xC3;
const LETTER_E: u8 = 0xC5;
pub(super) const LETTER_G: u8 = 0xC7;
pub(super) const LETTER_N: u8 = 0xD5;
pub(super) const LETTER_W: u8 = 0xE6;
pub(super) const LETTER_X: u8 = 0xE7;

pub(super) const LETTERS: usize = 26;
pub(super) const LETTERS_AND_DIGITS: usize = 36;

/// The number of each character among letters and digits; one that is neither has the number after the last.
static CHARACTERS: [u8; 256] = number_characters();

const fn number_characters() -> [u8; 256] {
    let runs = [(0xC1, 9), (0xD1, 9), (0xE2, 8), (0xF0, 10)];
    let mut numbers = [LETTERS_AND_DIGITS as u8; 256];
    let (mut run, mut number) = (0, 0);
    while run < runs.len() {
        let (start, length) = runs[run];
        let mut i = 0;
        while i < length {
            numbers[start + i] = number;
            number += 1;
            i += 1;
        }
        run += 1;
    }
    numbers
}

pub(super) fn number_of(character: u8) -> usize {
    usize::from(CHARACTERS[usize::from(character)])
}

pub(super) fn is_digit(character: u8) -> bool {
    (0xF0..=0xF9).contains(&character)
}

pub(super) const NAMES: usize = LETTERS * LETTERS_AND_DIGITS;

/// The number of a name among all names. E and a digit is none.
pub(super) fn name(first: u8, second: u8) -> Option<usize> {
    let (row, column) = (number_of(first), number_of(second));
    let columns = if first == LETTER_E { LETTERS } else { LETTERS_AND_DIGITS };
    if row < LETTERS && column < columns {
        Some(row * LETTERS_AND_DIGITS + column)
    } else {
        None
    }
}
