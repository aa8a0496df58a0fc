//! The format buffer: syntax.

use std::convert::TryFrom;

use super::characters::*;
use super::values::format_of;
use super::{Outcome, Refusal};

/// An element as it is written.
pub(super) enum Written {
    Blanks(u8),
    Text { at: usize, length: usize },
    Series(usize, usize),
    Count { name: usize, index: Option<u16> },
    Values(Reference),
}

/// N among the indexes that are written, which have three digits at most.
pub(super) const N: u16 = 1000;

/// A name with its index or range, its parentheses, and the length and format that follow.
pub(super) struct Reference {
    pub(super) name: usize,
    pub(super) index: Option<(u16, u16)>,
    pub(super) values: Option<(u16, u16)>,
    pub(super) length: Option<u8>,
    pub(super) format: Option<u8>,
}

pub(super) struct Scanner<'a> {
    pub(super) bytes: &'a [u8],
    pub(super) at: usize,
}

impl Scanner<'_> {
    /// The next character. After the last it is 0, which is none.
    fn peek(&self, ahead: usize) -> u8 {
        self.bytes.get(self.at + ahead).copied().unwrap_or(0)
    }

    pub(super) fn take(&mut self, character: u8) -> bool {
        let found = self.peek(0) == character;
        self.at += usize::from(found);
        found
    }

    pub(super) fn expect(&mut self, character: u8) -> Outcome<()> {
        if self.take(character) {
            Ok(())
        } else {
            Err(Refusal::Syntax)
        }
    }

    pub(super) fn spaces(&mut self) {
        while self.take(SPACE) {}
    }

    fn comma(&mut self) -> bool {
        self.spaces();
        let found = self.take(COMMA);
        self.spaces();
        found
    }

    fn number(&mut self) -> Outcome<u16> {
        let start = self.at;
        let mut number = 0;
        while is_digit(self.peek(0)) {
            number = number * 10 + u16::from(self.peek(0) - 0xF0);
            self.at += 1;
            if self.at - start > 3 {
                return Err(Refusal::Syntax);
            }
        }
        if self.at == start {
            Err(Refusal::Syntax)
        } else {
            Ok(number)
        }
    }

    fn small_number(&mut self) -> Outcome<u8> {
        u8::try_from(self.number()?).map_err(|_| Refusal::Syntax)
    }

    fn name(&mut self) -> Outcome<usize> {
        let name = name(self.peek(0), self.peek(1)).ok_or(Refusal::Syntax)?;
        self.at += 2;
        Ok(name)
    }

    pub(super) fn element(&mut self) -> Outcome<Written> {
        self.spaces();
        match self.peek(0) {
            APOSTROPHE => self.text(),
            0xF0..=0xF9 => self.blanks(),
            _ => self.named(),
        }
    }

    fn text(&mut self) -> Outcome<Written> {
        let at = self.at + 1;
        let length = self.bytes[at..].iter().position(|&byte| byte == APOSTROPHE);
        let length = length.filter(|length| (1..=255).contains(length)).ok_or(Refusal::Syntax)?;
        self.at = at + length + 1;
        Ok(Written::Text { at, length })
    }

    fn blanks(&mut self) -> Outcome<Written> {
        let number = self.small_number()?;
        self.expect(LETTER_X)?;
        if number == 0 {
            Err(Refusal::Syntax)
        } else {
            Ok(Written::Blanks(number))
        }
    }

    fn named(&mut self) -> Outcome<Written> {
        let name = self.name()?;
        if self.take(LETTER_C) {
            return Ok(Written::Count { name, index: None });
        }
        if self.take(HYPHEN) {
            return Ok(Written::Series(name, self.name()?));
        }
        let mut reference = Reference { name, index: None, values: None, length: None, format: None };
        if matches!(self.peek(0), 0xF0..=0xF9 | LETTER_N) {
            let low = self.index()?;
            if self.take(LETTER_C) {
                return Ok(Written::Count { name, index: Some(low) });
            }
            let index = (low, self.range_end(low)?);
            reference.index = Some(index);
            if index != (1, N) && self.take(OPEN) {
                let low = self.index()?;
                reference.values = Some((low, self.range_end(low)?));
                self.expect(CLOSE)?;
            }
        }
        if matches!(self.peek(0), COMMA | SPACE) {
            self.overrides(&mut reference)?;
        }
        Ok(Written::Values(reference))
    }

    /// A number or N.
    fn index(&mut self) -> Outcome<u16> {
        if is_digit(self.peek(0)) {
            self.number()
        } else {
            self.expect(LETTER_N).map(|_| N)
        }
    }

    /// The end of a range that starts there. Only 1 starts one that ends with N, and N starts none.
    fn range_end(&mut self, low: u16) -> Outcome<u16> {
        if !self.take(HYPHEN) {
            return Ok(low);
        }
        match low {
            1 if self.take(LETTER_N) => Ok(N),
            N => Err(Refusal::Syntax),
            _ => self.number(),
        }
    }

    /// Digits after a comma are a length unless an X makes them the next element, and a letter is a format unless a
    /// second character does.
    fn overrides(&mut self, reference: &mut Reference) -> Outcome<()> {
        let mut end = self.at;
        let mut comma = self.comma();
        if comma && is_digit(self.peek(0)) {
            let number = self.number()?;
            comma = self.peek(0) != LETTER_X;
            if comma {
                reference.length = Some(u8::try_from(number).map_err(|_| Refusal::Syntax)?);
                end = self.at;
                comma = self.comma();
            }
        }
        let (letter, second) = (self.peek(0), self.peek(1));
        if comma && number_of(letter) < LETTERS && number_of(second) == LETTERS_AND_DIGITS {
            if format_of(letter).is_none() && !matches!(letter, LETTER_G | LETTER_W) {
                return Err(Refusal::Syntax);
            }
            reference.format = Some(letter);
            end = self.at + 1;
        }
        self.at = end;
        Ok(())
    }
}
