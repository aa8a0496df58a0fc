//! Calls of the functions that the library exports, on a stack of their own. The calls are those of `rows.rs`, some on deep groups, and the
//! lines of standard input.

use std::arch::asm;
use std::io::{self, BufRead};

use crate::exports;
use crate::lines::{self, Service};
use crate::rows;

/// A stack of this many bytes is enough for every call.
pub const AMPLE: usize = 128 * 1024;

/// A call as it is made: the function and its parameters, words all of them.
pub struct Call {
    pub function: &'static str,
    entry: usize,
    words: [usize; 11],
}

/// What is lent to a call, and what the call is named. In `place` the record stands where it is updated.
#[derive(Clone)]
pub struct Lent {
    #[allow(dead_code)] // Not every program names its calls.
    pub row: String,
    pub table: Vec<u8>,
    pub stored: Vec<u8>,
    pub format: Vec<u8>,
    pub buffer: Option<Vec<u8>>,
    pub room: Vec<u8>,
    pub place: Vec<u8>,
    pub used: usize,
    pub needed: usize,
    pub length: usize,
}

pub fn calls() -> Vec<Lent> {
    let mut calls = rows::rows();
    calls.extend(deep_groups());
    for line in io::stdin().lock().lines() {
        let call = lines::call(&line.unwrap()).unwrap();
        let values = if call.service == Service::Read { None } else { Some(call.buffer) };
        let (row, lent) = ("a random call".to_string(), call.lent);
        calls.push(rows::Call { row, table: call.table, record: call.stored, format: call.format, values, lent });
    }
    calls.into_iter().map(lent).collect()
}

fn lent(call: rows::Call) -> Lent {
    let mut place = call.record.clone();
    place.resize(place.len().max(call.lent), 0);
    Lent {
        row: call.row,
        table: call.table,
        length: call.record.len(),
        stored: call.record,
        format: call.format,
        buffer: call.values,
        room: vec![0; call.lent],
        place,
        used: 0,
        needed: 0,
    }
}

/// Reads of occurrences that do not exist: of groups that lie in groups down to level 7, and of a group of many small groups.
fn deep_groups() -> Vec<rows::Call> {
    let names: Vec<String> = (b'M'..=b'Z').flat_map(|a| (0..5).map(move |b| format!("{}{}", a as char, b))).collect();
    let groups: String = (2..=6).map(|level| format!("  {}G{} _0", level, level)).collect();
    let fields: String = names[..58].iter().map(|name| format!("  7{} B1", name)).collect();
    let pairs: String = names[..62].chunks(2).map(|pair| format!("  2{} _0  3{} B1", pair[0], pair[1])).collect();
    let none = || rows::record(vec![vec![0]].into_iter());
    vec![
        rows::read(
            "of groups in groups down to level 7",
            &("1PG _0 P".to_string() + &groups + &fields),
            none(),
            "PG1-191.",
        ),
        rows::read("of a group of 31 groups", &("1PG _0 P".to_string() + &pairs), none(), "PG1-191."),
    ]
}

/// The calls of what is lent: a read and one that is asked how long, or an update to the room and one in place; and the empty record of its
/// table.
pub fn made(lent: &mut Lent) -> Vec<Call> {
    let slice = |bytes: &[u8]| vec![bytes.as_ptr() as usize, bytes.len()];
    let (table, stored, format) = (slice(&lent.table), slice(&lent.stored), slice(&lent.format));
    let room = vec![lent.room.as_mut_ptr() as usize, lent.room.len(), &mut lent.used as *mut usize as usize];
    let mut calls = vec![call("lyrecanyon_empty", exports::lyrecanyon_empty as *const () as usize, &[&table, &room])];
    if let Some(buffer) = &lent.buffer {
        let parts = [&table, &stored, &format, &slice(buffer), &room];
        calls.push(call("lyrecanyon_update", exports::lyrecanyon_update as *const () as usize, &parts));
        let place = vec![lent.place.as_mut_ptr() as usize, lent.place.len(), &mut lent.length as *mut usize as usize];
        let parts = [&table, &place, &format, &slice(buffer)];
        calls.push(call("lyrecanyon_apply", exports::lyrecanyon_apply as *const () as usize, &parts));
    } else {
        calls.push(call("lyrecanyon_read", exports::lyrecanyon_read as *const () as usize, &[&table, &stored, &format, &room]));
        let parts = [&table, &stored, &format, &room, &vec![&mut lent.needed as *mut usize as usize]];
        calls.push(call("lyrecanyon_read_needing", exports::lyrecanyon_read_needing as *const () as usize, &parts));
    }
    calls
}

fn call(function: &'static str, entry: usize, parts: &[&Vec<usize>]) -> Call {
    let mut words = [0; 11];
    parts.iter().copied().flatten().zip(&mut words).for_each(|(&part, word)| *word = part);
    Call { function, entry, words }
}

/// The bytes below the stack pointer that a call wrote to: the return address and all under it. Two paints, since a byte that was written
/// may look like one.
pub fn used_of(stack: &mut [u8], call: &Call) -> usize {
    let mut depth = |paint: u8| {
        stack.iter_mut().for_each(|byte| *byte = paint);
        let top = (stack.as_mut_ptr() as usize + stack.len()) & !15;
        let deepest_argument = top - 48;
        unsafe { call_on(top, call) };
        let untouched = 64 * stack.chunks(64).take_while(|chunk| *chunk == [paint; 64]).count();
        let bottom = untouched + stack[untouched..].iter().take_while(|&&byte| byte == paint).count();
        deepest_argument - (stack.as_ptr() as usize + bottom)
    };
    [0xA7, 0x58].iter().map(|&paint| depth(paint)).max().unwrap()
}

/// Calls the function on another stack: six words in registers, five on the stack, whether it takes them all or not.
pub unsafe fn call_on(top: usize, call: &Call) -> u8 {
    let number: usize;
    asm!(
        "mov r12, rsp",
        "mov rsp, r13",
        "sub rsp, 8",
        "push qword ptr [r10 + 80]",
        "push qword ptr [r10 + 72]",
        "push qword ptr [r10 + 64]",
        "push qword ptr [r10 + 56]",
        "push qword ptr [r10 + 48]",
        "mov rdi, [r10]",
        "mov rsi, [r10 + 8]",
        "mov rdx, [r10 + 16]",
        "mov rcx, [r10 + 24]",
        "mov r8, [r10 + 32]",
        "mov r9, [r10 + 40]",
        "call r11",
        "mov rsp, r12",
        in("r10") call.words.as_ptr(),
        in("r11") call.entry,
        in("r13") top,
        out("r12") _,
        lateout("rax") number,
        clobber_abi("C"),
    );
    number as u8
}
