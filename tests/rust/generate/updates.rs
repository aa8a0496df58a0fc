//! Writes the updates of stories, with their record buffers.

use crate::bytes::hexadecimal;
use crate::elements::{Element, Named};
use crate::maker::Maker;
use crate::plans::{plan, Plan};
use crate::random::Random;
use crate::records::MOST_RECORD;
use crate::service;
use crate::stories::{choose_length, Story};
use crate::values::{make_bad, make_value};
use std::io::{self, Write};

impl Story {
    /// An update; `percent` of those that are accepted give the record of the next call.
    pub(crate) fn write_update(&mut self, random: &mut Random, percent: usize, out: &mut impl Write) -> io::Result<()> {
        const PLANS: [(usize, Plan); 10] = [
            (4, Plan::Table),
            (4, Plan::Record),
            (5, Plan::Syntax),
            (4, Plan::Name),
            (5, Plan::Use),
            (7, Plan::Twice),
            (5, Plan::Short),
            (12, Plan::Bad),
            (8, Plan::Misfit),
            (10, Plan::Room),
        ];
        let plan = plan(random, &PLANS);
        let update = self.make_update(random, plan);
        let (number, new) = update.carry_out();
        let room = choose_length(random, new.len(), plan == Plan::Room);
        if number == 0 && new.len() <= room && random.chance(percent) {
            self.record = new;
        }
        update.write(room, out)
    }

    /// The next update of a history, which may take `most` bytes of its journal; what it takes of them.
    pub(crate) fn write_next(&mut self, random: &mut Random, most: usize, out: &mut impl Write) -> io::Result<usize> {
        const PLANS: [(usize, Plan); 9] = [
            (4, Plan::Syntax),
            (3, Plan::Name),
            (4, Plan::Use),
            (5, Plan::Twice),
            (4, Plan::Short),
            (6, Plan::Bad),
            (5, Plan::Misfit),
            (4, Plan::Room),
            (25, Plan::Bare),
        ];
        let plan = plan(random, &PLANS);
        let update = self.make_update(random, plan);
        let length = 4 + update.format.len() + update.buffer.len();
        if length > most {
            return self.write_next(random, most, out);
        }
        let (number, new) = update.carry_out();
        if number == 0 {
            self.record = new;
        }
        update.write(MOST_RECORD, out)?;
        Ok(length)
    }

    fn make_update(&self, random: &mut Random, plan: Plan) -> Update {
        let elements = Maker::make(random, &self.table, plan, true);
        let (table, record, format) = self.lend(random, plan, &elements);
        let buffer = self.make_buffer(random, plan, &elements);
        Update { table, record, format, buffer }
    }

    fn make_buffer(&self, random: &mut Random, plan: Plan, elements: &[Element]) -> Vec<u8> {
        let mut buffer = Vec::new();
        for element in elements {
            buffer.extend((0..element.skipped).map(|_| random.byte()));
            if let Some(named) = element.named {
                self.put_values(random, plan, &named, &mut buffer);
            }
        }
        if plan == Plan::Short && !buffer.is_empty() {
            buffer.truncate(random.below(buffer.len()));
        } else if random.chance(10) {
            buffer.extend((0..random.below(20)).map(|_| random.byte()));
        }
        buffer
    }

    fn put_values(&self, random: &mut Random, plan: Plan, named: &Named, buffer: &mut Vec<u8>) {
        let fields = self.table[named.first..named.end].iter().filter(|entry| !entry.is_group());
        for _ in named.occurrences.0..=named.occurrences.1 {
            for field in fields.clone() {
                for _ in named.values.0..=named.values.1 {
                    if buffer.len() > 33_000 {
                        return;
                    }
                    let form = named.form.unwrap_or_else(|| field.form());
                    let fit = if plan == Plan::Misfit { form } else { field.form() };
                    let mut value = make_value(random, form, fit, true);
                    if plan == Plan::Bad && random.chance(40) {
                        make_bad(random, form, &mut value);
                    }
                    buffer.extend(value);
                }
            }
        }
    }
}

pub(crate) struct Update {
    pub(crate) table: Vec<u8>,
    pub(crate) record: Vec<u8>,
    pub(crate) format: Vec<u8>,
    pub(crate) buffer: Vec<u8>,
}

impl Update {
    /// The number and the new record.
    fn carry_out(&self) -> (u8, Vec<u8>) {
        let mut new = vec![0; MOST_RECORD];
        let (number, length) = service::update(&self.table, &self.record, &self.format, &self.buffer, &mut new);
        new.truncate(length);
        (number, new)
    }

    pub(crate) fn write(&self, room: usize, out: &mut impl Write) -> io::Result<()> {
        let (table, record) = (hexadecimal(&self.table), hexadecimal(&self.record));
        let (format, buffer) = (hexadecimal(&self.format), hexadecimal(&self.buffer));
        writeln!(out, "U {} {} {} {} {}", table, record, format, buffer, room)
    }
}
