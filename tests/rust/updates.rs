//! The calls that are timed: updates.

use crate::rows::{mixed_record, most_items, plain_record, record, update, Call};
use crate::rows::{MANY_VALUES, MIXED, PLAIN, SPECIMEN, SPECIMEN_RECORD};
use crate::service;

/// The update that stores what a read gives.
pub fn stored_again(call: &Call) -> Call {
    let mut buffer = vec![0; call.lent];
    let (_, length, _) = service::read(&call.table, &call.record, &call.format, &mut buffer);
    buffer.truncate(length);
    Call {
        row: call.row.replacen("read", "update", 1),
        table: call.table.clone(),
        record: call.record.clone(),
        format: call.format.clone(),
        values: Some(buffer),
        lent: 4096,
    }
}

pub fn rows() -> Vec<Call> {
    let mut rows = specimen_updates();
    rows.extend(from_the_last());
    rows.extend(one_field());
    rows.extend(bare_names());
    rows.extend(grown());
    rows.push(too_many_items());
    rows
}

fn specimen_updates() -> Vec<Call> {
    let updates: [(&str, &[u8]); 6] = [
        ("MF.", b"\xF5\xF0"),
        ("MF1.", b"\xF5\xF0"),
        ("MF4.", b"\xF1\xF0"),
        ("HB2.", b"\x05\xC1\xC2"),
        ("ZV,5.", b"\xC1\xC2\xC3\x40\x40"),
        (
            "AA,AB,MF,MF,BA1,CB1(1-2),HB1,ZV.",
            b"\xC1\xC2\xC3\xC4\xC5\x00\x15\x0F\xF1\xF1\xF2\xF2\x07\xF1\xF2\x05\xC1\xC2\x03\xC1\xC2",
        ),
    ];
    let row = |&(format, values): &(&str, &[u8])| {
        let written: String = values.iter().map(|byte| format!("{:02X}", byte)).collect();
        let row = format!("specimen {} {}", format, written);
        update(&row, SPECIMEN, SPECIMEN_RECORD.to_vec(), format, values.to_vec())
    };
    updates.iter().map(row).collect()
}

/// A hundred occurrences, named one by one from the last to the first.
fn from_the_last() -> Vec<Call> {
    let format = |name: &str, after: &str| {
        let names: Vec<String> = (1..=100).rev().map(|i| format!("{}{}{}", name, i, after)).collect();
        names.join(",") + "."
    };
    let row = |name: &str| format!("a hundred occurrences from the last, {}", name);
    vec![
        update(&row("plain"), PLAIN, plain_record(), &format("PC", ""), b"\x00\x17\x0F".repeat(100)),
        update(&row("MU field"), MIXED, mixed_record(), &format("PM", "(1-2)"), b"\xF1\xF7\xF1\xF8".repeat(100)),
        update(&row("variable length"), MIXED, mixed_record(), &format("PV", ""), b"\x04\xC1\xC2\xC3".repeat(100)),
    ]
}

/// One field of a long record: the first value gets longer, so that all after it moves; or what is after it stays as it is.
fn one_field() -> Vec<Call> {
    let before = |fields: &str| "1AV A0  ".to_string() + fields;
    let short = |rest: Vec<u8>| record(vec![vec![1], rest].into_iter());
    let fields = |level: usize, form: &str| {
        two_letters(20).iter().map(|name| format!("  {}{} {}", level, name, form)).collect::<String>()
    };
    let long = || [vec![21], vec![0xC1; 20]].concat();
    let group = "1PG _0 P".to_string() + &fields(2, "B1");
    let values = [vec![191], vec![0xF1; 191]].concat().repeat(20);
    vec![
        update("a value that moves all after it", &before(MIXED), short(mixed_record()[5..].to_vec()), "AV.", long()),
        update(
            "one field before 191 occurrences of 20 fields",
            &before(&group),
            short([vec![191], vec![7; 3820]].concat()),
            "AV.",
            long(),
        ),
        update(
            "one field before 20 MU fields of 191 values",
            &before(&fields(1, "U1 M")),
            short(values),
            "AV.",
            long(),
        ),
    ]
}

/// As many bare names as a format buffer holds. They name the values of four MU fields, and no two name the same, so that each is
/// compared with all before it; and the same where the fields stand after sixty others.
fn bare_names() -> Vec<Call> {
    let names = ["QA", "QB", "QC", "QD"];
    let fields: String = names.iter().map(|name| format!("  1{} U1 M", name)).collect();
    let before: String = two_letters(60).iter().map(|name| format!("1{} P15  ", name)).collect();
    let number = b"\0\0\0\0\0\0\0\0\0\0\x01\x23\x45\x67\x8D".repeat(60);
    let one_by_one: Vec<&str> = names.iter().flat_map(|&name| vec![name; 170]).collect();
    let in_turn: Vec<&str> = names.iter().cloned().cycle().take(680).collect();
    let values = || vec![0xF1; 680];
    let row = |name: &str| format!("680 bare names of four MU fields, {}", name);
    let few = || record(vec![vec![0; 4]].into_iter());
    let many = record(vec![number, vec![0; 4]].into_iter());
    let in_turn = in_turn.join(",") + ".";
    vec![
        update(&row("one after the other"), &fields, few(), &(one_by_one.join(",") + "."), values()),
        update(&row("in turn"), &fields, few(), &in_turn, values()),
        update(&row("in turn, last of 64 entries"), &(before + &fields), many, &in_turn, values()),
    ]
}

/// Updates that make many occurrences or many values.
fn grown() -> Vec<Call> {
    let five = "1GA _0 P  2BA B2  2BB A0  2BC P3 M  1AA A9";
    let empty = record(vec![vec![0], vec![0x40; 9]].into_iter());
    let columns: Vec<String> = (1..=170).rev().map(|k| format!("PM1-23({})", k)).collect();
    let none = || record(vec![vec![0]].into_iter());
    let names = two_letters(63);
    let fields: String = names.iter().map(|name| format!("  2{} U1 M", name)).collect();
    let cells: Vec<String> =
        names[7..].iter().rev().flat_map(|name| (1..=9).map(move |i| format!("{}{}", name, i))).collect();
    vec![
        update("one index that makes 191 occurrences", five, empty, "BA191.", b"\x00\x07".to_vec()),
        update(
            "170 columns of 23 values, from the last",
            "1PG _0 P  2PM U1 M",
            none(),
            &(columns.join(",") + "."),
            vec![0xF1; 3910],
        ),
        update(
            "504 cells of a group of 64 entries",
            &("1PG _0 P".to_string() + &fields),
            none(),
            &(cells.join(",") + "."),
            vec![0xF1; 504],
        ),
    ]
}

/// As many items as one call may have, of one byte each: all are tested before the record is found to be too long.
fn too_many_items() -> Call {
    let items = most_items();
    let format = "PM1-171(1-191),PM172(1-106).";
    update("32,767 items, too long a record", MANY_VALUES, items.record, format, vec![0xF1; 32_767])
}

/// Names of two letters.
fn two_letters(count: usize) -> Vec<String> {
    let names =
        (b'A'..=b'C').flat_map(|first| (b'A'..=b'Z').map(move |second| format!("{}{}", first as char, second as char)));
    names.take(count).collect()
}
