//! Lends slices between unreadable pages: the calls on standard input, `guard COUNT` of them, by the compiled library, once with every slice
//! right before such a page and once right after one. Number, lengths and every byte have to be those of the service in Rust, and the bytes
//! around a slice have to stay. Reads are also asked how long, and updates carried out in place too. An empty slice is lent once as a null
//! pointer.

use std::env;
use std::io::{self, BufRead};
use std::process::exit;

#[allow(dead_code)]
#[path = "../../rust/lyrecanyon/src/exports.rs"]
mod exports;
mod lines;
mod pages;
mod service;

use exports::{lyrecanyon_apply, lyrecanyon_empty, lyrecanyon_read, lyrecanyon_read_needing, lyrecanyon_update};
use lines::{Call, Service};
use pages::{Area, Place};

/// Calls with empty slices, each as far as it comes with one: on the table that has the field AB, packed, of three bytes.
const EMPTY: [&str; 10] = [
    "R - - - 0",
    "U - - - - 0",
    "E - 0",
    "E e5c6e3000101c1c201d70300 0",
    "R e5c6e3000101c1c201d70300 - c1c24b 3",
    "R e5c6e3000101c1c201d70300 e5d9c3000100000f - 3",
    "R e5c6e3000101c1c201d70300 e5d9c3000100000f c1c24b 0",
    "R e5c6e3000101c1c201d70300 e5d9c3000100150f c1c26bf14b 0",
    "U e5c6e3000101c1c201d70300 e5d9c3000100000f c1c24b - 4096",
    "U e5c6e3000101c1c201d70300 e5d9c3000100000f c1c24b 00150f 0",
];

/// A function of the library.
#[derive(Clone, Copy, PartialEq, Eq, Debug)]
enum Function {
    Read,
    ReadNeeding,
    Update,
    Apply,
    Empty,
}

fn functions_of(service: Service) -> &'static [Function] {
    match service {
        Service::Read => &[Function::Read, Function::ReadNeeding],
        Service::Update => &[Function::Update, Function::Apply],
        Service::Empty => &[Function::Empty],
    }
}

/// What the lengths are before a call that has them from nowhere.
const UNSET: usize = 0x5A5A_5A5A;

fn main() -> io::Result<()> {
    let count: usize = env::args().nth(1).and_then(|word| word.parse().ok()).expect("guard COUNT");
    pages::see_that_they_guard();
    let mut areas = Areas::new();
    let (mut calls, mut done, mut in_place, mut too_short) = (0, 0, 0, 0);
    let empty = EMPTY.iter().map(|line| Ok(line.to_string()));
    for line in empty.chain(io::stdin().lock().lines()) {
        let call = lines::call(&line?).unwrap();
        calls += 1;
        for &function in functions_of(call.service) {
            let left = areas.agree(&call, function).unwrap_or_else(|trouble| stop(calls, &trouble));
            match function {
                Function::Apply => in_place += 1,
                Function::ReadNeeding => too_short += usize::from(left.needed > 0),
                _ => done += usize::from(left.number == 0),
            }
        }
    }
    if calls != EMPTY.len() + count {
        stop(calls, "the last, and more were to come");
    }
    println!(
        "{} calls, {} of them done, {} updates in place, and {} reads that say how long",
        calls, done, in_place, too_short
    );
    Ok(())
}

fn stop(call: usize, trouble: &str) -> ! {
    eprintln!("call {}: {}", call, trouble);
    exit(1);
}

/// An area for each slice, and one for each length that is returned.
struct Areas {
    table: Area,
    stored: Area,
    format: Area,
    buffer: Area,
    lent: Area,
    used: Area,
    needed: Area,
}

/// What a call leaves: its number, the length used, the length needed, and the slice that it was lent to write.
#[derive(PartialEq, Eq, Debug)]
struct Left {
    number: u8,
    used: usize,
    needed: usize,
    lent: Vec<u8>,
}

impl Areas {
    fn new() -> Areas {
        let area = Area::new;
        let (table, stored, format, buffer) = (area(), area(), area(), area());
        Areas { table, stored, format, buffer, lent: area(), used: area(), needed: area() }
    }

    /// What the library leaves, if it is what the service in Rust does, at both places.
    fn agree(&mut self, call: &Call, function: Function) -> Result<Left, String> {
        let (used, lent) = before(call, function);
        let expected = expected(call, function, used, &lent);
        for &place in &[Place::BeforePage, Place::AfterPage] {
            let left = self.carry_out(call, function, used, &lent, place);
            if left != expected {
                return Err(format!("{:?}, {:?}: {:?} and not {:?}", place, function, left, expected));
            }
            if !self.rest_stays(call) {
                return Err(format!("{:?}, {:?}: a byte is written that is not lent for it", place, function));
            }
        }
        Ok(expected)
    }

    fn carry_out(&mut self, call: &Call, function: Function, used: usize, lent: &[u8], place: Place) -> Left {
        let read_only = [
            (&mut self.table, &call.table),
            (&mut self.stored, &call.stored),
            (&mut self.format, &call.format),
            (&mut self.buffer, &call.buffer),
        ];
        let slices = read_only.map(|(area, bytes)| (area.lend(bytes, place) as *const u8, bytes.len()));
        let room = (self.lent.lend(lent, place), lent.len());
        let used = self.used.lend(&used.to_ne_bytes(), place) as *mut usize;
        let needed = self.needed.lend(&UNSET.to_ne_bytes(), place) as *mut usize;
        let number = unsafe { by_library(function, slices, room, used, needed) };
        Left { number, used: unsafe { *used }, needed: unsafe { *needed }, lent: self.lent.slice().to_vec() }
    }

    /// Whether the slices that are only read, and the bytes beside all of them, are as they were.
    fn rest_stays(&self, call: &Call) -> bool {
        let areas = [&self.table, &self.stored, &self.format, &self.buffer, &self.lent, &self.used, &self.needed];
        self.table.slice() == &call.table[..]
            && self.stored.slice() == &call.stored[..]
            && self.format.slice() == &call.format[..]
            && self.buffer.slice() == &call.buffer[..]
            && areas.iter().all(|area| area.surroundings_stay())
    }
}

/// The length used and the slice to be written, before the call. For an update in place the record stands in it, as far as it has room.
fn before(call: &Call, function: Function) -> (usize, Vec<u8>) {
    let mut lent: Vec<u8> = (0..call.lent).map(|i| (i * 167 + 91) as u8).collect();
    if function == Function::Apply {
        lent.iter_mut().zip(&call.stored).for_each(|(byte, stored)| *byte = *stored);
        return (call.stored.len(), lent);
    }
    (UNSET, lent)
}

/// What the service in Rust leaves. Only a read that is asked how long sets the length needed.
fn expected(call: &Call, function: Function, used: usize, before: &[u8]) -> Left {
    let Call { table, stored, format, buffer, .. } = call;
    let mut lent = before.to_vec();
    let mut needed = UNSET;
    let (number, mut written) = match function {
        Function::Read | Function::ReadNeeding => {
            let (number, written, smallest) = service::read(table, stored, format, &mut lent);
            if function == Function::ReadNeeding {
                needed = smallest;
            }
            (number, written)
        }
        Function::Empty => service::empty(table, &mut lent),
        Function::Apply => service::update(table, &before[..used.min(before.len())], format, buffer, &mut lent),
        Function::Update => service::update(table, stored, format, buffer, &mut lent),
    };
    if function == Function::Apply && number != 0 {
        written = used;
    }
    Left { number, used: written, needed, lent }
}

/// The number that the library returns.
unsafe fn by_library(
    function: Function,
    slices: [(*const u8, usize); 4],
    (room, room_length): (*mut u8, usize),
    used: *mut usize,
    needed: *mut usize,
) -> u8 {
    let [(t, t_length), (s, s_length), (f, f_length), (b, b_length)] = slices;
    match function {
        Function::Read => lyrecanyon_read(t, t_length, s, s_length, f, f_length, room, room_length, used),
        Function::ReadNeeding => {
            lyrecanyon_read_needing(t, t_length, s, s_length, f, f_length, room, room_length, used, needed)
        }
        Function::Empty => lyrecanyon_empty(t, t_length, room, room_length, used),
        Function::Apply => lyrecanyon_apply(t, t_length, room, room_length, used, f, f_length, b, b_length),
        Function::Update => {
            lyrecanyon_update(t, t_length, s, s_length, f, f_length, b, b_length, room, room_length, used)
        }
    }
}
