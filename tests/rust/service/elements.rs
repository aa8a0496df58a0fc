//! The format buffer: elements.

use std::cmp::max;
use std::ops::RangeInclusive;

use super::characters::{COMMA, PERIOD};
use super::conversion::{way, Way};
use super::record::Record;
use super::syntax::{Reference, Scanner, Written, N};
use super::table::{Entry, Kind, Table};
use super::values::{format_of, Form};
use super::{Outcome, Refusal, HIGHEST_INDEX, MOST_ENTRIES, MOST_FORMAT};

/// What the items of an element are.
#[derive(Clone, Copy, PartialEq, Eq)]
pub(super) enum Items {
    Blanks,
    Text,
    Count,
    Values,
}

#[derive(Clone, Copy)]
pub(super) struct Element {
    pub(super) kind: Items,
    /// The entries named: a field, a group with what it contains, or a series.
    first: u8,
    end: u8,
    /// The occurrences, by their numbers.
    pub(super) occurrences: (u8, u8),
    /// The values, by their numbers or with N, which may be another number in each occurrence.
    pub(super) values: (u8, u8),
    /// The length and format in effect for a field; the length of blanks and text.
    pub(super) form: Form,
    /// Whether every field has its standard length and format.
    pub(super) standard: bool,
    /// Whether it names plain fields outside periodic groups so, whose values stand in the record as they are read.
    pub(super) in_one_piece: bool,
    /// Whether an MU field is named without an index.
    pub(super) bare: bool,
    /// Where the text stands in the format; for an update, where its next item stands in the record buffer.
    pub(super) at: u16,
    /// For an update, the next element that names values of the same MU field.
    pub(super) next: u16,
}

impl Element {
    pub(super) const NONE: Element = Element {
        kind: Items::Blanks,
        first: 0,
        end: 0,
        occurrences: (0, 0),
        values: (0, 0),
        form: Form::NONE,
        standard: false,
        in_one_piece: false,
        bare: false,
        at: 0,
        next: 0,
    };

    fn of_length(kind: Items, length: u8, at: usize) -> Element {
        Element { kind, form: Form { length, ..Form::NONE }, at: at as u16, ..Element::NONE }
    }

    pub(super) fn first(&self) -> usize {
        usize::from(self.first)
    }

    pub(super) fn end(&self) -> usize {
        usize::from(self.end)
    }

    pub(super) fn occurrences(&self) -> RangeInclusive<usize> {
        usize::from(self.occurrences.0)..=usize::from(self.occurrences.1)
    }

    /// How many of the values named in an occurrence don't exist, where `exist` do.
    pub(super) fn absent(&self, exist: usize) -> usize {
        if self.values == ALL {
            0
        } else {
            self.values_named() - exist
        }
    }

    /// How many values it names in each occurrence, if it doesn't name all.
    pub(super) fn values_named(&self) -> usize {
        usize::from(self.values.1) + 1 - usize::from(self.values.0)
    }
}

/// N among the indexes of an element, whose numbers are lower.
const LAST: u8 = 255;

const ONE: (u8, u8) = (1, 1);
/// 1-N.
pub(super) const ALL: (u8, u8) = (1, LAST);

/// Indexes by their numbers where `count` are stored. Where none is, N is 1, and 1-N names nothing.
pub(super) fn settle(indexes: (u8, u8), count: u8) -> (u8, u8) {
    match indexes {
        (LAST, _) => (max(count, 1), max(count, 1)),
        (low, LAST) => (low, count),
        numbers => numbers,
    }
}

/// Decodes the format and gives the number of its elements. A refusal by 4 or 5 waits until the syntax is known.
pub(super) fn decode(
    table: &Table,
    stored: Option<&Record>,
    format: &[u8],
    elements: &mut [Element],
) -> Outcome<usize> {
    if format.len() > MOST_FORMAT {
        return Err(Refusal::Syntax);
    }
    let mut scanner = Scanner { bytes: format, at: 0 };
    let mut decoder = Decoder { table, stored, last: [0; MOST_ENTRIES] };
    let mut count = Ok(0);
    loop {
        let written = scanner.element()?;
        if let Ok(place) = count {
            count = decoder.element(written).map(|element| {
                elements[place] = element;
                place + 1
            });
        }
        scanner.spaces();
        if scanner.take(PERIOD) {
            return count;
        }
        scanner.expect(COMMA)?;
    }
}

/// Finds what the elements of a format mean, one after the other.
struct Decoder<'a> {
    table: &'a Table,
    /// The record in which N is looked up. An update lends none, as N is for reading.
    stored: Option<&'a Record<'a>>,
    /// The last index of each MU field so far, for bare names.
    last: [u8; MOST_ENTRIES],
}

impl Decoder<'_> {
    fn element(&mut self, written: Written) -> Outcome<Element> {
        match written {
            Written::Blanks(length) => Ok(Element::of_length(Items::Blanks, length, 0)),
            Written::Text { at, length } => Ok(Element::of_length(Items::Text, length as u8, at)),
            Written::Count { name, index } => self.count_element(name, index),
            Written::Series(first, last) => self.series_element(first, last),
            Written::Values(reference) => self.values_element(&reference),
        }
    }

    fn count_element(&self, name: usize, index: Option<u16>) -> Outcome<Element> {
        let first = self.table.find(name)?;
        let entry = &self.table.entries[first];
        let occurrences = match (entry.kind, entry.periodic, index) {
            (Kind::Periodic, _, None) | (Kind::Multiple, None, None) => ONE,
            (Kind::Multiple, Some(group), Some(index)) => self.occurrences(group, (index, index))?,
            _ => return Err(Refusal::Use),
        };
        Ok(Element { kind: Items::Count, first: first as u8, occurrences, ..Element::NONE })
    }

    fn series_element(&self, first: usize, last: usize) -> Outcome<Element> {
        let table = self.table;
        let (first, last) = (table.find(first)?, table.find(last)?);
        let ends_at = |i: usize| table.entries[i].kind == Kind::Plain && table.entries[i].periodic.is_none();
        let is_shut_out = |entry: &Entry| matches!(entry.kind, Kind::Multiple | Kind::Periodic);
        if first > last || !ends_at(first) || !ends_at(last) || table.entries[first..last].iter().any(is_shut_out) {
            return Err(Refusal::Use);
        }
        Ok(Element {
            kind: Items::Values,
            first: first as u8,
            end: last as u8 + 1,
            occurrences: ONE,
            values: ONE,
            form: table.entries[first].form,
            standard: true,
            in_one_piece: true,
            ..Element::NONE
        })
    }

    fn values_element(&mut self, reference: &Reference) -> Outcome<Element> {
        let first = self.table.find(reference.name)?;
        let entry = &self.table.entries[first];
        let (occurrences, values) = match (entry.periodic, entry.kind, reference.index, reference.values) {
            (None, Kind::Multiple, None, None) => (ONE, self.indexes(self.next_index(first))?),
            (None, Kind::Multiple, Some(index), None) => (ONE, self.indexes(index)?),
            (None, _, None, None) => (ONE, ONE),
            (Some(group), _, Some(index), None) => (self.occurrences(group, index)?, ONE),
            (Some(group), Kind::Multiple, Some(index), Some(values)) => {
                (self.occurrences(group, index)?, self.indexes(values)?)
            }
            _ => return Err(Refusal::Use),
        };
        let form = form_in_effect(entry, reference)?;
        let standard = form == entry.form;
        self.last[first] = values.1;
        Ok(Element {
            kind: Items::Values,
            first: first as u8,
            end: entry.end,
            occurrences,
            values,
            form,
            standard,
            in_one_piece: standard && entry.periodic.is_none() && entry.kind != Kind::Multiple,
            bare: reference.index.is_none(),
            ..Element::NONE
        })
    }

    /// What the bare name of an MU field means: N after N, else one above the last index.
    fn next_index(&self, field: usize) -> (u16, u16) {
        match self.last[field] {
            LAST => (N, N),
            last => (u16::from(last) + 1, u16::from(last) + 1),
        }
    }

    /// The indexes of an element, N among them.
    fn indexes(&self, written: (u16, u16)) -> Outcome<(u8, u8)> {
        match written {
            (low, high) if 1 <= low && low <= high && high <= u16::from(HIGHEST_INDEX) => Ok((low as u8, high as u8)),
            (N, N) if self.stored.is_some() => Ok((LAST, LAST)),
            (1, N) if self.stored.is_some() => Ok(ALL),
            _ => Err(Refusal::Use),
        }
    }

    /// The occurrences of a periodic group, by their numbers.
    fn occurrences(&self, group: u8, written: (u16, u16)) -> Outcome<(u8, u8)> {
        let indexes = self.indexes(written)?;
        let count = self.stored.map_or(0, |record| record.bytes[record.place(usize::from(group))]);
        Ok(settle(indexes, count))
    }
}

fn form_in_effect(entry: &Entry, reference: &Reference) -> Outcome<Form> {
    if !entry.is_field() {
        let plain = entry.fixed && reference.length.is_none() && reference.format.is_none();
        return if plain { Ok(entry.form) } else { Err(Refusal::Use) };
    }
    let format = reference.format.map_or(Some(entry.form.format), format_of).ok_or(Refusal::Use)?;
    let form = Form { format, length: reference.length.unwrap_or(entry.form.length) };
    if form.is_allowed() && !matches!(way(entry.form, form), Way::Never) {
        Ok(form)
    } else {
        Err(Refusal::Use)
    }
}
