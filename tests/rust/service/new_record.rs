//! Updating: the new record.

use std::cmp::max;

use super::conversion::{convert, converted_length};
use super::elements::{Element, Items};
use super::items::value_at;
use super::record::Record;
use super::table::{Kind, Table};
use super::values::put_nulls;
use super::{Outcome, Refusal, MOST_ENTRIES, MOST_RECORD};

/// The elements that name values, sorted by where in the record their first occurrence comes.
pub(super) fn sort_named<'a>(table: &Table, elements: &'a mut [Element]) -> &'a mut [Element] {
    let begins = |element: &Element| (table.entries[element.first()].periodic, element.occurrences.0);
    elements.sort_unstable_by_key(|element| (element.kind != Items::Values, begins(element)));
    let count = elements.iter().take_while(|element| element.kind == Items::Values).count();
    &mut elements[..count]
}

/// Where a chain of elements ends.
pub(super) const END: u16 = u16::MAX;

/// The new record as it grows. The items of an element have the order of the record, so each element keeps the place of
/// its next item only.
pub(super) struct Layout<'a> {
    pub(super) record: &'a Record<'a>,
    pub(super) buffer: &'a [u8],
    pub(super) named: &'a mut [Element],
    /// The element that names a field from the occurrence reached on; for an MU field a chain, in the order of values.
    pub(super) active: [u16; MOST_ENTRIES],
    pub(super) new: [u8; MOST_RECORD],
    pub(super) length: usize,
}

impl Layout<'_> {
    pub(super) fn test_named_twice(&mut self) -> Outcome<()> {
        (0..self.named.len()).try_for_each(|place| self.activate(place))?;
        self.active = [END; MOST_ENTRIES];
        Ok(())
    }

    /// Two elements that share an occurrence meet when the later of them begins.
    fn activate(&mut self, place: usize) -> Outcome<()> {
        let element = self.named[place];
        let table = self.record.table;
        if table.entries[element.first()].kind == Kind::Multiple {
            return self.activate_values(place);
        }
        for (i, _) in table.fields(element.first(), element.end()) {
            if self.is_named(self.active[i], element.occurrences.0) {
                return Err(Refusal::NamedTwice);
            }
            self.active[i] = place as u16;
        }
        Ok(())
    }

    /// Puts an element into the chain of its MU field, and takes those out that ended before it begins.
    fn activate_values(&mut self, place: usize) -> Outcome<()> {
        let element = self.named[place];
        let (mut before, mut link) = (END, self.active[element.first()]);
        while link != END {
            let other = self.named[usize::from(link)];
            if !self.is_named(link, element.occurrences.0) {
                self.join(element.first(), before, other.next);
            } else if other.values.0 > element.values.1 {
                break;
            } else if other.values.1 >= element.values.0 {
                return Err(Refusal::NamedTwice);
            } else {
                before = link;
            }
            link = other.next;
        }
        self.join(element.first(), before, place as u16);
        self.named[place].next = link;
        Ok(())
    }

    fn join(&mut self, field: usize, before: u16, link: u16) {
        if before == END {
            self.active[field] = link;
        } else {
            self.named[usize::from(before)].next = link;
        }
    }

    /// Whether an element that began before reaches the occurrence.
    fn is_named(&self, link: u16, occurrence: u8) -> bool {
        link != END && self.named[usize::from(link)].occurrences.1 >= occurrence
    }

    /// The elements from a place on that name something outside, or in that periodic group.
    fn naming(&self, place: usize, periodic: Option<u8>) -> impl Iterator<Item = &Element> {
        let table = self.record.table;
        self.named[place..].iter().take_while(move |element| table.entries[element.first()].periodic == periodic)
    }

    /// Activates the elements from a place on that begin with this occurrence, and gives the place after them.
    fn reach(&mut self, place: usize, periodic: Option<u8>, occurrence: u8) -> Outcome<usize> {
        let count = self.naming(place, periodic).take_while(|element| element.occurrences.0 == occurrence).count();
        (place..place + count).try_for_each(|place| self.activate(place))?;
        Ok(place + count)
    }

    /// Lays out the parts that are named, and copies what stands between them.
    pub(super) fn lay_record(&mut self) -> Outcome<()> {
        let record = self.record;
        let mut next = self.reach(0, None, 1)?;
        let mut copied = 0;
        for part in record.table.parts() {
            let entry = &record.table.entries[part];
            let periodic = entry.kind == Kind::Periodic;
            let named =
                if periodic { self.naming(next, entry.periodic).next().is_some() } else { self.active[part] != END };
            if !named {
                continue;
            }
            let start = record.place(part);
            let end = record.place(if periodic { usize::from(entry.end) } else { part + 1 });
            self.put(&record.bytes[copied..start])?;
            if periodic {
                next = self.lay_periodic(part, next)?;
            } else {
                self.lay_field(part, 1, &record.bytes[start..end])?;
            }
            copied = end;
        }
        self.put(&record.bytes[copied..])
    }

    fn lay_periodic(&mut self, group: usize, mut next: usize) -> Outcome<usize> {
        let record = self.record;
        let entry = &record.table.entries[group];
        let mut at = record.place(group);
        let old = record.bytes[at];
        let count = self.naming(next, entry.periodic).fold(old, |count, element| max(count, element.occurrences.1));
        self.put(&[count])?;
        at += 1;
        for occurrence in 1..=count {
            next = self.reach(next, entry.periodic, occurrence)?;
            for (i, _) in record.table.fields(group, usize::from(entry.end)) {
                let start = at;
                if occurrence <= old {
                    at = record.after(i, at);
                }
                self.lay_field(i, occurrence, &record.bytes[start..at])?;
            }
        }
        Ok(next)
    }

    /// Lays out a field outside or in one occurrence. Where it doesn't exist, its stored bytes are none.
    fn lay_field(&mut self, i: usize, occurrence: u8, stored: &[u8]) -> Outcome<()> {
        if self.record.table.entries[i].kind == Kind::Multiple {
            return self.lay_values(i, occurrence, stored);
        }
        let link = self.active[i];
        self.lay_value(i, if self.is_named(link, occurrence) { link } else { END }, stored)
    }

    fn lay_values(&mut self, i: usize, occurrence: u8, stored: &[u8]) -> Outcome<()> {
        let form = self.record.table.entries[i].form;
        let (&old, mut stored) = stored.split_first().unwrap_or((&0, &[]));
        let count = self.new_count(i, occurrence, old);
        self.put(&[count])?;
        let mut link = self.active[i];
        for value in 1..=count {
            let length = if value <= old { form.length_at(stored, 0) } else { 0 };
            let (kept, rest) = stored.split_at(length);
            stored = rest;
            while link != END && !(self.is_named(link, occurrence) && value <= self.values(link).1) {
                link = self.named[usize::from(link)].next;
            }
            let named = link != END && self.values(link).0 <= value;
            self.lay_value(i, if named { link } else { END }, kept)?;
        }
        Ok(())
    }

    fn values(&self, link: u16) -> (u8, u8) {
        self.named[usize::from(link)].values
    }

    /// The count of an MU field: the number of names if all are bare, else no less than the old count.
    fn new_count(&self, i: usize, occurrence: u8, old: u8) -> u8 {
        let (mut highest, mut bare) = (0, true);
        let mut link = self.active[i];
        while link != END {
            let element = &self.named[usize::from(link)];
            if self.is_named(link, occurrence) {
                highest = max(highest, element.values.1);
                bare &= element.bare;
            }
            link = element.next;
        }
        if highest > 0 && bare {
            highest
        } else {
            max(old, highest)
        }
    }

    /// Takes one value from the record buffer if an element names it, else keeps the stored one, else makes it null.
    fn lay_value(&mut self, i: usize, link: u16, stored: &[u8]) -> Outcome<()> {
        let to = self.record.table.entries[i].form;
        if link != END {
            let element = &mut self.named[usize::from(link)];
            let from = if element.standard { to } else { element.form };
            let value = value_at(self.buffer, usize::from(element.at), from)?;
            element.at += value.len() as u16;
            convert(value, from, to, self.take(converted_length(value, from, to))?);
        } else if stored.is_empty() {
            put_nulls(to, self.take(to.null_length())?);
        } else {
            self.put(stored)?;
        }
        Ok(())
    }

    fn put(&mut self, bytes: &[u8]) -> Outcome<()> {
        self.take(bytes.len())?.copy_from_slice(bytes);
        Ok(())
    }

    fn take(&mut self, length: usize) -> Outcome<&mut [u8]> {
        let start = self.length;
        self.length += length;
        self.new.get_mut(start..self.length).ok_or(Refusal::BeyondRoom)
    }
}
