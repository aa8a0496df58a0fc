//! Reading.

use std::cmp::min;

use super::characters::SPACE;
use super::conversion::{convert, converted_length, fits, smallest_length};
use super::elements::{Element, Items, ALL};
use super::record::Record;
use super::table::Kind;
use super::{Filling, Outcome, Refusal, Refused};

impl Record<'_> {
    /// Tests the items of an element that begins at that place of the record buffer, and gives the place after them.
    pub(super) fn measure(&self, element: &Element, at: usize, limit: usize) -> Result<usize, Refused> {
        let end = match element.kind {
            Items::Blanks | Items::Text => at + usize::from(element.form.length),
            Items::Count => at + 1,
            Items::Values if element.in_one_piece => at + self.piece(element).len(),
            Items::Values if element.standard => at + self.standard_length(element),
            Items::Values => return self.measure_converted(element, at, limit),
        };
        Ok(within(end, limit)?)
    }

    fn piece(&self, element: &Element) -> &[u8] {
        &self.bytes[self.place(element.first())..self.place(element.end())]
    }

    /// The length of all items of an element at standard length and format, which always fit.
    fn standard_length(&self, element: &Element) -> usize {
        let entry = &self.table.entries[element.first()];
        if entry.size > 0 && element.values != ALL {
            return element.occurrences().count() * element.values_named() * usize::from(entry.size);
        }
        let length = |occurrence| {
            let (at, exist) = self.stored(element, occurrence);
            self.skip(entry.form, exist, at) - at + element.absent(exist)
        };
        element.occurrences().map(length).sum()
    }

    fn measure_converted(&self, element: &Element, mut end: usize, limit: usize) -> Result<usize, Refused> {
        let (from, to) = (self.table.entries[element.first()].form, element.form);
        for occurrence in element.occurrences() {
            let (mut at, exist) = self.stored(element, occurrence);
            for _ in 0..exist {
                let value = &self.bytes[at..at + from.length_at(self.bytes, at)];
                if !fits(value, from, to) {
                    return Err(Refused { refusal: Refusal::NoFit, needed: smallest_length(value, from, to) });
                }
                end = within(end + converted_length(value, from, to), limit)?;
                at += value.len();
            }
            end = within(end + element.absent(exist) * to.null_length(), limit)?;
        }
        Ok(end)
    }

    pub(super) fn fill(&self, element: &Element, format: &[u8], out: &mut Filling) {
        let length = usize::from(element.form.length);
        match element.kind {
            Items::Blanks => out.take(length).fill(SPACE),
            Items::Text => out.copy(&format[usize::from(element.at)..][..length]),
            Items::Count => out.copy(&[self.count_of(element)]),
            Items::Values if element.in_one_piece => out.copy(self.piece(element)),
            Items::Values if element.first() + 1 == element.end() => self.fill_field(element, out),
            Items::Values => self.fill_group(element, out),
        }
    }

    fn count_of(&self, element: &Element) -> u8 {
        let first = element.first();
        if self.table.entries[first].kind == Kind::Periodic {
            return self.bytes[self.place(first)];
        }
        self.find(first, usize::from(element.occurrences.0)).map_or(0, |at| self.bytes[at])
    }

    fn fill_field(&self, element: &Element, out: &mut Filling) {
        let (from, to) = (self.table.entries[element.first()].form, element.form);
        for occurrence in element.occurrences() {
            let (mut at, exist) = self.stored(element, occurrence);
            if element.standard {
                out.copy(&self.bytes[at..self.skip(from, exist, at)]);
            } else {
                for _ in 0..exist {
                    let value = &self.bytes[at..at + from.length_at(self.bytes, at)];
                    convert(value, from, to, out.take(converted_length(value, from, to)));
                    at += value.len();
                }
            }
            out.nulls(to, element.absent(exist));
        }
    }

    /// Fills in occurrences of a group. Those of a periodic group that exist stand side by side.
    fn fill_group(&self, element: &Element, out: &mut Filling) {
        let (first, end) = (element.first(), element.end());
        let entry = &self.table.entries[first];
        let size = usize::from(entry.size);
        let (low, high) = element.occurrences().into_inner();
        let mut absent = low;
        while let Some(at) = self.find(first, absent).filter(|_| absent <= high) {
            let pieces = if entry.kind == Kind::Periodic { self.existing(first, absent, high) } else { 1 };
            out.copy(&self.bytes[at..at + pieces * size]);
            absent += pieces;
        }
        for _ in absent..=high {
            self.table.fields(first, end).for_each(|(_, field)| out.nulls(field.form, 1));
        }
    }

    /// How many occurrences of a range exist in a periodic group.
    fn existing(&self, group: usize, low: usize, high: usize) -> usize {
        (min(high, self.count(self.place(group))) + 1).saturating_sub(low)
    }
}

pub(super) fn within(end: usize, limit: usize) -> Outcome<usize> {
    if end > limit {
        Err(Refusal::BeyondBuffer)
    } else {
        Ok(end)
    }
}
