//! The stored record.

use std::cmp::min;

use super::characters::SPACE;
use super::elements::{settle, Element};
use super::table::{Kind, Table};
use super::values::{is_normal_decimal, Form};
use super::{Outcome, Refusal, HIGHEST_INDEX, MOST_ENTRIES, MOST_RECORD, RECORD_HEAD};

pub(super) struct Record<'a> {
    pub(super) table: &'a Table,
    pub(super) bytes: &'a [u8],
    /// Where each part begins, and where the last one ends.
    places: [u16; MOST_ENTRIES + 1],
    /// Where each occurrence of the periodic groups begins, and which of these is a group's first.
    starts: &'a mut [u16],
    firsts: [u16; MOST_ENTRIES],
}

impl<'a> Record<'a> {
    /// Checks the record. An update needs no starts and lends none.
    pub(super) fn load(table: &'a Table, bytes: &'a [u8], starts: &'a mut [u16]) -> Outcome<Record<'a>> {
        let mut record = Record { table, bytes, places: [0; MOST_ENTRIES + 1], starts, firsts: [0; MOST_ENTRIES] };
        record.check().ok_or(Refusal::Record)?;
        Ok(record)
    }

    fn check(&mut self) -> Option<()> {
        if self.bytes.len() > MOST_RECORD || !self.bytes.starts_with(&RECORD_HEAD) {
            return None;
        }
        let mut at = RECORD_HEAD.len();
        let mut occurrences = 0;
        let mut i = 0;
        while i < self.table.count {
            self.places[i] = at as u16;
            if self.table.entries[i].kind == Kind::Periodic {
                self.firsts[i] = occurrences as u16;
                at = self.check_periodic(i, at, &mut occurrences)?;
                i = usize::from(self.table.entries[i].end);
            } else {
                at = self.check_entry(i, at)?;
                i += 1;
            }
        }
        self.places[i] = at as u16;
        if at == self.bytes.len() {
            Some(())
        } else {
            None
        }
    }

    fn check_periodic(&mut self, group: usize, at: usize, occurrences: &mut usize) -> Option<usize> {
        let count = self.check_count(at)?;
        let mut at = at + 1;
        for _ in 0..count {
            if let Some(start) = self.starts.get_mut(*occurrences) {
                *start = at as u16;
            }
            *occurrences += 1;
            for i in group + 1..usize::from(self.table.entries[group].end) {
                at = self.check_entry(i, at)?;
            }
        }
        Some(at)
    }

    fn check_count(&self, at: usize) -> Option<usize> {
        self.bytes.get(at).filter(|&&count| count <= HIGHEST_INDEX).map(|&count| usize::from(count))
    }

    /// Checks the values of an entry outside or in one occurrence, and gives the place after them.
    fn check_entry(&self, i: usize, at: usize) -> Option<usize> {
        let entry = &self.table.entries[i];
        match entry.kind {
            Kind::Plain => self.check_values(entry.form, 1, at),
            Kind::Multiple => self.check_values(entry.form, self.check_count(at)?, at + 1),
            Kind::Group | Kind::Periodic => Some(at),
        }
    }

    fn check_values(&self, form: Form, count: usize, mut at: usize) -> Option<usize> {
        if form.is_variable() {
            for _ in 0..count {
                let length = usize::from(*self.bytes.get(at)?);
                let value = self.bytes.get(at..at + length)?;
                if length == 0 || length == 255 || length > 1 && value[length - 1] == SPACE {
                    return None;
                }
                at += length;
            }
            return Some(at);
        }
        let length = usize::from(form.length);
        let values = self.bytes.get(at..at + count * length)?;
        if form.is_decimal() && !values.chunks_exact(length).all(|value| is_normal_decimal(value, form.format)) {
            return None;
        }
        Some(at + values.len())
    }

    pub(super) fn place(&self, part: usize) -> usize {
        usize::from(self.places[part])
    }

    /// The count of an MU field or a periodic group whose stored bytes begin there.
    pub(super) fn count(&self, at: usize) -> usize {
        usize::from(self.bytes[at])
    }

    /// The place after `count` values.
    pub(super) fn skip(&self, form: Form, count: usize, at: usize) -> usize {
        if form.is_variable() {
            (0..count).fold(at, |at, _| at + usize::from(self.bytes[at]))
        } else {
            at + count * usize::from(form.length)
        }
    }

    /// The place after an entry outside or in one occurrence.
    pub(super) fn after(&self, i: usize, at: usize) -> usize {
        let entry = &self.table.entries[i];
        match entry.kind {
            Kind::Plain => self.skip(entry.form, 1, at),
            Kind::Multiple => self.skip(entry.form, self.count(at), at + 1),
            Kind::Group | Kind::Periodic => at,
        }
    }

    /// Where an entry lies in an occurrence, if that exists.
    pub(super) fn find(&self, i: usize, occurrence: usize) -> Option<usize> {
        let entry = &self.table.entries[i];
        let group = match entry.periodic {
            None => return Some(self.place(i)),
            Some(group) => usize::from(group),
        };
        if occurrence > self.count(self.place(group)) {
            return None;
        }
        let start = usize::from(self.starts[usize::from(self.firsts[group]) + occurrence - 1]);
        Some(match entry.offset {
            Some(offset) => start + usize::from(offset),
            None => (group + 1..i).fold(start, |at, before| self.after(before, at)),
        })
    }

    /// Where the values of one occurrence that an element names begin, and how many of them exist.
    pub(super) fn stored(&self, element: &Element, occurrence: usize) -> (usize, usize) {
        let entry = &self.table.entries[element.first()];
        match self.find(element.first(), occurrence) {
            None => (0, 0),
            Some(at) if entry.kind == Kind::Plain => (at, 1),
            Some(at) => {
                let count = self.bytes[at];
                let (low, high) = settle(element.values, count);
                if count < low {
                    return (0, 0);
                }
                (self.skip(entry.form, usize::from(low) - 1, at + 1), usize::from(min(count, high) + 1 - low))
            }
        }
    }
}
