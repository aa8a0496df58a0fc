//! Read, update and make the empty record, by the rules of document 01 and, for N, the signs of old hosts and the length
//! that goes with 9, of document 02.
//!
//! Nothing is allocated. A call decodes what it was lent once: the table into entries, the record into the places of
//! its entries and occurrences, the format into elements. A read then goes over its elements twice, to test and to
//! write. An update tests its items, then lays the new record out in table order and copies it to the room last.

use std::cmp::min;

mod characters;
mod conversion;
mod elements;
mod items;
mod new_record;
mod reading;
mod record;
mod syntax;
mod table;
mod values;

use elements::{decode, Element};
use items::test_items;
use new_record::{sort_named, Layout, END};
use record::Record;
use table::{Entry, Kind, Table};
use values::{put_nulls, Form};

const MOST_ENTRIES: usize = 64;
const MOST_FORMAT: usize = 2048;
const MOST_ITEMS: usize = 32_767;
const MOST_RECORD: usize = 4096;
const HIGHEST_LEVEL: u8 = 7;
const HIGHEST_INDEX: u8 = 191;
const TABLE_HEAD: [u8; 5] = [0xE5, 0xC6, 0xE3, 0x00, 0x01];
const RECORD_HEAD: [u8; 5] = [0xE5, 0xD9, 0xC3, 0x00, 0x01];

/// The refusals, by their numbers.
#[derive(Clone, Copy)]
enum Refusal {
    Table = 1,
    Record,
    Syntax,
    Name,
    Use,
    NamedTwice,
    BeyondBuffer,
    BadValue,
    NoFit,
    BeyondRoom,
}

type Outcome<T> = Result<T, Refusal>;

/// A refusal of a read. "With 9, a read shall also return the smallest length" in the format in effect.
struct Refused {
    refusal: Refusal,
    needed: usize,
}

/// "All other answers carry 0 there."
impl From<Refusal> for Refused {
    fn from(refusal: Refusal) -> Refused {
        Refused { refusal, needed: 0 }
    }
}

// The services.

/// Fills the record buffer with the items that the format names. The last of what it gives is the smallest length "that
/// would have held that value", where it is refused with 9.
pub fn read(table: &[u8], record: &[u8], format: &[u8], buffer: &mut [u8]) -> (u8, usize, usize) {
    let outcome = if is_usual(record, format) {
        read_within::<32, 256>(table, record, format, buffer)
    } else {
        read_within::<683, MOST_RECORD>(table, record, format, buffer)
    };
    match outcome {
        Ok(length) => (0, length, 0),
        Err(Refused { refusal, needed }) => (refusal as u8, 0, needed),
    }
}

/// Writes to the room the record in which every occurrence that the format names has its value from the record buffer.
pub fn update(table: &[u8], record: &[u8], format: &[u8], buffer: &[u8], room: &mut [u8]) -> (u8, usize) {
    answer(if is_usual(record, format) {
        update_within::<32>(table, record, format, buffer, room)
    } else {
        update_within::<683>(table, record, format, buffer, room)
    })
}

/// Writes to the room the record of the table that has every value null and every count 0.
pub fn empty(table: &[u8], room: &mut [u8]) -> (u8, usize) {
    answer(make_empty(table, room))
}

fn answer(outcome: Outcome<usize>) -> (u8, usize) {
    match outcome {
        Ok(length) => (0, length),
        Err(refusal) => (refusal as u8, 0),
    }
}

/// Most calls get by with small work areas, which are quicker to clear. An element with its comma takes three bytes.
fn is_usual(record: &[u8], format: &[u8]) -> bool {
    record.len() <= 256 && format.len() <= 3 * 32
}

#[inline(never)]
fn read_within<const ELEMENTS: usize, const STARTS: usize>(
    table: &[u8],
    record: &[u8],
    format: &[u8],
    buffer: &mut [u8],
) -> Result<usize, Refused> {
    let mut entries = Table::NONE;
    entries.load(table)?;
    let mut starts = [0; STARTS];
    let record = Record::load(&entries, record, &mut starts)?;
    let mut elements = [Element::NONE; ELEMENTS];
    let count = decode(&entries, Some(&record), format, &mut elements)?;
    let limit = min(buffer.len(), MOST_ITEMS);
    let mut length = 0;
    for element in &elements[..count] {
        length = record.measure(element, length, limit)?;
    }
    let mut filling = Filling { bytes: buffer, at: 0 };
    for element in &elements[..count] {
        record.fill(element, format, &mut filling);
    }
    Ok(length)
}

#[inline(never)]
fn update_within<const ELEMENTS: usize>(
    table: &[u8],
    record: &[u8],
    format: &[u8],
    buffer: &[u8],
    room: &mut [u8],
) -> Outcome<usize> {
    let mut entries = Table::NONE;
    entries.load(table)?;
    let record = Record::load(&entries, record, &mut [])?;
    let mut elements = [Element::NONE; ELEMENTS];
    let count = decode(&entries, None, format, &mut elements)?;
    let elements = &mut elements[..count];
    let tested = test_items(&entries, elements, buffer);
    let named = sort_named(&entries, elements);
    let active = [END; MOST_ENTRIES];
    let mut layout = Layout { record: &record, buffer, named, active, new: [0; MOST_RECORD], length: 0 };
    layout.test_named_twice()?;
    tested?;
    layout.lay_record()?;
    let new = &layout.new[..layout.length];
    room.get_mut(..new.len()).ok_or(Refusal::BeyondRoom)?.copy_from_slice(new);
    Ok(new.len())
}

fn make_empty(table: &[u8], room: &mut [u8]) -> Outcome<usize> {
    let mut entries = Table::NONE;
    entries.load(table)?;
    let parts = || entries.parts().map(|part| &entries.entries[part]);
    let length = RECORD_HEAD.len() + parts().map(Entry::empty_length).sum::<usize>();
    if length > min(room.len(), MOST_RECORD) {
        return Err(Refusal::BeyondRoom);
    }
    let mut filling = Filling { bytes: room, at: 0 };
    filling.copy(&RECORD_HEAD);
    for part in parts() {
        match part.kind {
            Kind::Plain => filling.nulls(part.form, 1),
            Kind::Multiple | Kind::Periodic => filling.copy(&[0]),
            Kind::Group => {}
        }
    }
    Ok(length)
}

/// A lent slice that is filled from its start. That the bytes have room is tested before.
struct Filling<'a> {
    bytes: &'a mut [u8],
    at: usize,
}

impl Filling<'_> {
    fn take(&mut self, length: usize) -> &mut [u8] {
        let from = self.at;
        self.at += length;
        &mut self.bytes[from..self.at]
    }

    fn copy(&mut self, bytes: &[u8]) {
        self.take(bytes.len()).copy_from_slice(bytes);
    }

    fn nulls(&mut self, form: Form, count: usize) {
        put_nulls(form, self.take(count * form.null_length()));
    }
}
