//! Starts stories, and writes those of their calls that are no updates.

use crate::bytes::hexadecimal;
use crate::elements::Element;
use crate::formats::{bad_format, write_format};
use crate::maker::Maker;
use crate::plans::{plan, Plan};
use crate::random::Random;
use crate::records::{bad_record, empty_record, make_record, put_ends, MOST_RECORD};
use crate::service;
use crate::tables::{bad_table, make_table, table_bytes, Entry};
use std::io::{self, Write};

pub(crate) struct Story {
    pub(crate) table: Vec<Entry>,
    pub(crate) record: Vec<u8>,
}

impl Story {
    pub(crate) fn new(random: &mut Random) -> Story {
        let table = make_table(random);
        let mut record = make_record(random, &table);
        if random.chance(25) {
            record = empty_record(&table);
        }
        if record.is_empty() && random.chance(90) {
            return Story::new(random);
        }
        Story { table, record }
    }

    /// The start of a history.
    pub(crate) fn start(random: &mut Random) -> Story {
        let table = history_table(random);
        let record = empty_record(&table);
        Story { table, record }
    }

    /// The table, record and elements' format of one call.
    pub(crate) fn lend(&self, random: &mut Random, plan: Plan, elements: &[Element]) -> (Vec<u8>, Vec<u8>, Vec<u8>) {
        let table = if plan == Plan::Table { bad_table(random, &self.table) } else { table_bytes(&self.table) };
        let record = match plan {
            Plan::Record if !self.record.is_empty() => bad_record(random, &self.table, &self.record),
            _ => self.record.clone(),
        };
        let mut format = write_format(random, elements);
        if plan == Plan::Syntax && random.chance(50) {
            format = bad_format(random, format);
        }
        (table, record, format)
    }

    pub(crate) fn write_empty(&self, random: &mut Random, out: &mut impl Write) -> io::Result<()> {
        let (bad, short) = (random.chance(30), random.chance(30));
        let table = if bad { bad_table(random, &self.table) } else { table_bytes(&self.table) };
        let (_, length) = service::empty(&table, &mut [0; MOST_RECORD]);
        let room = choose_length(random, length, short);
        writeln!(out, "E {} {}", hexadecimal(&table), room)
    }

    pub(crate) fn write_read(&self, random: &mut Random, out: &mut impl Write) -> io::Result<()> {
        const PLANS: [(usize, Plan); 9] = [
            (5, Plan::Table),
            (6, Plan::Record),
            (8, Plan::Syntax),
            (6, Plan::Name),
            (8, Plan::Use),
            (6, Plan::Short),
            (13, Plan::Misfit),
            (1, Plan::Room),
            (8, Plan::Bare),
        ];
        let plan = plan(random, &PLANS);
        let elements = Maker::make(random, &self.table, plan, false);
        let (table, mut record, format) = self.lend(random, plan, &elements);
        if plan == Plan::Misfit && random.chance(60) {
            put_ends(random, &self.table, &mut record);
        }
        let mut buffer = vec![0; 32_800];
        let (_, length, _) = service::read(&table, &record, &format, &mut buffer);
        let length = choose_length(random, length, plan == Plan::Short);
        let (table, record, format) = (hexadecimal(&table), hexadecimal(&record), hexadecimal(&format));
        writeln!(out, "R {} {} {} {}", table, record, format, length)
    }
}

/// A table whose empty record fits: mostly one with counts, and with more variable-length fields than other tables.
fn history_table(random: &mut Random) -> Vec<Entry> {
    loop {
        let mut table = make_table(random);
        for entry in table.iter_mut().filter(|entry| entry.format == b'A') {
            if random.chance(25) {
                entry.length = 0;
            }
        }
        let counts = table.iter().any(|entry| entry.is_multiple() || entry.is_periodic());
        if (counts || random.chance(10)) && !empty_record(&table).is_empty() {
            return table;
        }
    }
}

/// A length to lend where `needed` bytes are needed, or 0 where the call is refused in any case.
pub(crate) fn choose_length(random: &mut Random, needed: usize, short: bool) -> usize {
    match random.below(4) {
        _ if needed == 0 => random.pick(&[0, 30, 999, 4096, 4097, 33_000]),
        _ if short && random.chance(60) => needed - 1,
        _ if short => random.below(needed),
        0 | 1 => needed,
        2 => needed + random.below(40),
        _ => needed.max(random.pick(&[999, 4096, 33_000])),
    }
}
