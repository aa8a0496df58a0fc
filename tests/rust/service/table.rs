//! The field definition table.

use super::characters::{name, NAMES, SPACE};
use super::values::{format_of, Form, Format};
use super::{Outcome, Refusal, HIGHEST_LEVEL, MOST_ENTRIES, TABLE_HEAD};

#[derive(Clone, Copy, PartialEq, Eq)]
pub(super) enum Kind {
    Plain,
    Multiple,
    Group,
    Periodic,
}

#[derive(Clone, Copy)]
pub(super) struct Entry {
    pub(super) kind: Kind,
    /// The standard length and format of a field.
    pub(super) form: Form,
    level: u8,
    /// The periodic group that this is or lies in.
    pub(super) periodic: Option<u8>,
    /// The entry after this one and all that it contains.
    pub(super) end: u8,
    /// Whether it contains no MU or variable-length field, and what one occurrence of it then takes.
    pub(super) fixed: bool,
    pub(super) size: u16,
    /// How far from the start of an occurrence it lies, if that is the same in all.
    pub(super) offset: Option<u16>,
}

impl Entry {
    const NONE: Entry = Entry {
        kind: Kind::Plain,
        form: Form::NONE,
        level: 0,
        periodic: None,
        end: 0,
        fixed: false,
        size: 0,
        offset: None,
    };

    fn of(bytes: &[u8]) -> Option<Entry> {
        let (level, letter, length, option) = (bytes[2], bytes[3], bytes[4], bytes[5]);
        let (kind, format) = match (letter, option) {
            (SPACE, 0) => (Kind::Group, Format::A),
            (SPACE, 2) if level == 1 => (Kind::Periodic, Format::A),
            (_, 0) => (Kind::Plain, format_of(letter)?),
            (_, 1) => (Kind::Multiple, format_of(letter)?),
            _ => return None,
        };
        let entry = Entry { kind, form: Form { format, length }, level, ..Entry::NONE };
        let allowed = if entry.is_field() { entry.form.is_allowed() } else { length == 0 };
        if allowed && level <= HIGHEST_LEVEL {
            Some(entry)
        } else {
            None
        }
    }

    pub(super) fn is_field(&self) -> bool {
        matches!(self.kind, Kind::Plain | Kind::Multiple)
    }

    fn may_precede(&self, level: u8) -> bool {
        if self.is_field() {
            1 <= level && level <= self.level
        } else {
            level == self.level + 1
        }
    }

    pub(super) fn empty_length(&self) -> usize {
        match self.kind {
            Kind::Plain => self.form.null_length(),
            Kind::Multiple | Kind::Periodic => 1,
            Kind::Group => 0,
        }
    }
}

pub(super) struct Table {
    pub(super) count: usize,
    pub(super) entries: [Entry; MOST_ENTRIES],
    /// For each name its entry plus one, or 0.
    names: [u8; NAMES],
}

impl Table {
    pub(super) const NONE: Table = Table { count: 0, entries: [Entry::NONE; MOST_ENTRIES], names: [0; NAMES] };

    pub(super) fn load(&mut self, bytes: &[u8]) -> Outcome<()> {
        self.load_entries(bytes).ok_or(Refusal::Table)?;
        self.measure_entries();
        self.place_entries();
        Ok(())
    }

    fn load_entries(&mut self, bytes: &[u8]) -> Option<()> {
        let body = bytes.strip_prefix(&TABLE_HEAD[..])?;
        let (&count, body) = body.split_first()?;
        self.count = usize::from(count);
        if self.count < 1 || self.count > MOST_ENTRIES || body.len() != 6 * self.count {
            return None;
        }
        let mut previous = Entry { kind: Kind::Group, ..Entry::NONE };
        for (i, bytes) in body.chunks_exact(6).enumerate() {
            let place = &mut self.names[name(bytes[0], bytes[1])?];
            let mut entry = Entry::of(bytes)?;
            if *place != 0 || !previous.may_precede(entry.level) {
                return None;
            }
            *place = i as u8 + 1;
            entry.periodic = match entry.kind {
                Kind::Periodic => Some(i as u8),
                _ if entry.level == 1 => None,
                _ => previous.periodic,
            };
            self.entries[i] = entry;
            previous = entry;
        }
        if previous.is_field() {
            Some(())
        } else {
            None
        }
    }

    /// From the last entry back, as a group is made of what follows it.
    fn measure_entries(&mut self) {
        for i in (0..self.count).rev() {
            let mut entry = self.entries[i];
            entry.end = i as u8 + 1;
            entry.fixed = entry.kind != Kind::Multiple;
            if entry.is_field() {
                entry.fixed &= !entry.form.is_variable();
                entry.size = u16::from(entry.form.length);
            } else {
                while usize::from(entry.end) < self.count && self.entries[usize::from(entry.end)].level > entry.level {
                    let member = &self.entries[usize::from(entry.end)];
                    entry.end = member.end;
                    entry.fixed &= member.fixed;
                    entry.size += member.size;
                }
            }
            self.entries[i] = entry;
        }
    }

    fn place_entries(&mut self) {
        let mut offset = None;
        for entry in &mut self.entries[..self.count] {
            if entry.kind == Kind::Periodic {
                offset = Some(0);
            }
            entry.offset = offset;
            if entry.is_field() {
                offset = offset.filter(|_| entry.fixed).map(|offset| offset + entry.size);
            }
        }
    }

    pub(super) fn find(&self, name: usize) -> Outcome<usize> {
        usize::from(self.names[name]).checked_sub(1).ok_or(Refusal::Name)
    }

    /// The entries that the body is made of: those outside periodic groups, and the periodic groups.
    pub(super) fn parts(&self) -> impl Iterator<Item = usize> + '_ {
        let is_part = move |&i: &usize| self.entries[i].periodic.map_or(true, |group| usize::from(group) == i);
        (0..self.count).filter(is_part)
    }

    /// The fields of a span of entries.
    pub(super) fn fields(&self, first: usize, end: usize) -> impl Iterator<Item = (usize, &Entry)> {
        self.entries[..end].iter().enumerate().skip(first).filter(|(_, entry)| entry.is_field())
    }
}
