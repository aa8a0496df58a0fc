//! The calls that are timed: reads, and how calls are written.

use crate::updates;

/// A read, or an update where it has values to store.
pub struct Call {
    pub row: String,
    pub table: Vec<u8>,
    pub record: Vec<u8>,
    pub format: Vec<u8>,
    pub values: Option<Vec<u8>>,
    pub lent: usize,
}

pub fn rows() -> Vec<Call> {
    let mut reads = specimen_reads();
    reads.push(nine_elements());
    reads.extend(forty_fields());
    reads.extend(hundred_occurrences());
    reads.extend(hundred_conversions());
    let stored: Vec<Call> = reads.iter().map(updates::stored_again).collect();
    reads.extend(last_of_a_hundred());
    reads.push(most_elements());
    reads.push(most_items());
    reads.into_iter().chain(stored).chain(updates::rows()).collect()
}

pub const SPECIMEN: &str = "1AA A5  1AB P3  1MF U2 M  1GB _0 P  2BA B1  2CB U1 M  1HB _0 P  2BB B1  2BD A2  1ZV A0";

pub const SPECIMEN_RECORD: &[u8] =
    b"\xE5\xD9\xC3\x00\x01\xC3\xC1\xC2\x40\x40\x00\x15\x0F\x02\xF1\xF5\xF5\xF0\x01\x07\x01\xF3\x00\x01";

fn specimen(format: &str) -> Call {
    read(&format!("specimen {}", format), SPECIMEN, SPECIMEN_RECORD.to_vec(), format)
}

fn specimen_reads() -> Vec<Call> {
    let formats =
        ["AA,AB.", "AB,2.", "AB,5,U.", "AB,2,B.", "MF,MF,MF.", "MFC,3X,MF2.", "CB1(1-2),CB2C.", "HB2.", "ZV."];
    formats.iter().map(|format| specimen(format)).collect()
}

fn nine_elements() -> Call {
    specimen("AA,AB,5,U,MFC,MF1-2,3X,'KG',CB1(1-2),HB1-2,ZV.")
}

/// A group of forty plain fields, by group, by series and by names.
fn forty_fields() -> Vec<Call> {
    let forms = ["A5", "B2", "F4", "P3", "U2"];
    let values: [&[u8]; 5] = [b"\xC3\xC1\xC2\x40\x40", b"\x00\x96", b"\xFF\xFF\xFF\x6A", b"\x00\x15\x0F", b"\xF1\xF5"];
    let names: Vec<String> = (0..40).map(|i| format!("{}{}", (b'P' + i / 10) as char, i % 10)).collect();
    let fields = names.iter().enumerate().map(|(i, name)| format!("  2{} {}", name, forms[i % 5]));
    let table = "1GG _0".to_string() + &fields.collect::<String>();
    let record = || record((0..40).map(|i| values[i % 5].to_vec()));
    vec![
        read("forty fields by group", &table, record(), "GG."),
        read("forty fields by series", &table, record(), &format!("{}-{}.", names[0], names[39])),
        read("forty fields by names", &table, record(), &(names.join(",") + ".")),
    ]
}

pub const PLAIN: &str = "1PG _0 P  2PA B2  2PB A4  2PC P3";
pub const MIXED: &str = "1PG _0 P  2PA B2  2PM U2 M  2PV A0  2PC P3";

pub fn plain_record() -> Vec<u8> {
    record(vec![vec![100]].into_iter().chain((0..100).map(|i| plain_occurrence(i).to_vec())))
}

pub fn mixed_record() -> Vec<u8> {
    record(vec![vec![100]].into_iter().chain((0..100).map(mixed_occurrence)))
}

/// A hundred occurrences of a periodic group, without and with an MU and a variable-length field.
fn hundred_occurrences() -> Vec<Call> {
    let row = |name: &str| format!("a hundred occurrences, {}", name);
    vec![
        read(&row("group"), PLAIN, plain_record(), "PG1-100."),
        read(&row("last field"), PLAIN, plain_record(), "PC1-100."),
        read(&row("fields in turn"), PLAIN, plain_record(), "PA1-100,PB1-100,PC1-100."),
        read(&row("MU field"), MIXED, mixed_record(), "PM1-100(1-2)."),
        read(&row("variable length"), MIXED, mixed_record(), "PV1-100."),
        read(&row("after both"), MIXED, mixed_record(), "PC1-100."),
    ]
}

/// The last of a hundred values or occurrences, and all of them, by N. No update takes it.
fn last_of_a_hundred() -> Vec<Call> {
    let row = |name: &str| format!("a hundred by N, {}", name);
    let values = |value: &[u8]| record(vec![vec![100], value.repeat(100)].into_iter());
    vec![
        read(&row("last value"), "1MF U2 M", values(b"\xF1\xF5"), "MFN."),
        read(&row("last value of variable length"), "1MV A0 M", values(b"\x03\xC1\xC2"), "MVN."),
        read(&row("all values"), "1MF U2 M", values(b"\xF1\xF5"), "MF1-N."),
        read(&row("last occurrence"), PLAIN, plain_record(), "PGN."),
        read(&row("group"), PLAIN, plain_record(), "PG1-N."),
        read(&row("last field"), PLAIN, plain_record(), "PC1-N."),
        read(&row("last value in each occurrence"), MIXED, mixed_record(), "PM1-100(N)."),
        read(&row("all values in each occurrence"), MIXED, mixed_record(), "PM1-100(1-N)."),
    ]
}

fn plain_occurrence(i: u8) -> [u8; 9] {
    [0, i, 0xC1, 0xC2, 0x40, 0x40, 0, ((i / 10 % 10) << 4) | (i % 10), 0x5F]
}

fn mixed_occurrence(i: u8) -> Vec<u8> {
    let mut bytes = vec![0, i, i % 3];
    bytes.extend((0..i % 3).flat_map(|_| vec![0xF1, 0xF5]));
    bytes.push(1 + i % 7);
    bytes.extend((0..i % 7).map(|_| 0xC1));
    bytes.extend(&[0, 0x15, 0x0F]);
    bytes
}

/// Conversions of a hundred values of an MU field.
fn hundred_conversions() -> Vec<Call> {
    let conversions: [(&str, &str, &[u8]); 10] = [
        ("P5", "9,U", b"\x01\x23\x45\x67\x8D"),
        ("P5", "4,B", b"\x01\x23\x45\x67\x8F"),
        ("P5", "4,F", b"\x01\x23\x45\x67\x8D"),
        ("P15", "5,P", b"\0\0\0\0\0\0\0\0\0\0\x01\x23\x45\x67\x8D"),
        ("U9", "5,P", b"\xF0\xF0\xF1\xF2\xF3\xF4\xF5\xF6\xD7"),
        ("F4", "6,P", b"\xFF\xFE\x1D\xC0"),
        ("F4", "2,F", b"\xFF\xFF\x85\xEE"),
        ("B2", "5,U", b"\x30\x39"),
        ("A9", "20", b"\xC3\xC1\xC2\x40\x40\x40\x40\x40\x40"),
        ("A9", "0", b"\xC3\xC1\xC2\x40\x40\x40\x40\x40\x40"),
    ];
    let convert = |&(from, to, value): &(&str, &str, &[u8])| {
        let values = (0..100).map(|_| value.to_vec());
        let record = record(vec![vec![100]].into_iter().chain(values));
        let row = format!("a hundred conversions, {} to {}", from, to);
        read(&row, &format!("1MF {} M", from), record, &format!("MF1-100,{}.", to))
    };
    conversions.iter().map(convert).collect()
}

/// As many elements as a format buffer holds: three bytes each.
fn most_elements() -> Call {
    let names: Vec<String> =
        (b'A'..=b'Z').filter(|&letter| letter != b'E').map(|c| format!("{}1", c as char)).collect();
    let table: String = names.iter().map(|name| format!("  1{} B2", name)).collect();
    let record = record((0..names.len()).map(|_| vec![0x30, 0x39]));
    let elements: Vec<&str> = names.iter().cycle().take(682).map(|name| name.as_str()).collect();
    read("682 elements", &table, record, &(elements.join(",") + "."))
}

pub const MANY_VALUES: &str = "1PG _0 P  2PA B1  2PM U1 M";

/// As many items as one call may have, of one byte each.
pub fn most_items() -> Call {
    let occurrence = |i: u8| vec![7, 3, 0xF0 | (i % 10), 0xF5, 0xF9];
    let record = record(vec![vec![191]].into_iter().chain((0..191).map(occurrence)));
    read("32,767 items", MANY_VALUES, record, "PM1-171(1-191),PM172(1-106).")
}

pub fn read(row: &str, table: &str, record: Vec<u8>, format: &str) -> Call {
    let format = format.bytes().map(ebcdic).collect();
    Call { row: format!("read {}", row), table: table_bytes(table), record, format, values: None, lent: 32_767 }
}

pub fn update(row: &str, table: &str, record: Vec<u8>, format: &str, values: Vec<u8>) -> Call {
    let format = format.bytes().map(ebcdic).collect();
    Call { row: format!("update {}", row), table: table_bytes(table), record, format, values: Some(values), lent: 4096 }
}

/// A table from words: level and name, format and length, and M for MU or P for PE. A group has format _.
fn table_bytes(table: &str) -> Vec<u8> {
    let mut bytes = vec![0xE5, 0xC6, 0xE3, 0x00, 0x01, 0];
    for word in table.split_whitespace() {
        let characters = word.as_bytes();
        match characters.len() {
            3 if characters[0].is_ascii_digit() => {
                bytes.extend(&[ebcdic(characters[1]), ebcdic(characters[2]), characters[0] - b'0']);
                bytes[5] += 1;
            }
            1 => *bytes.last_mut().unwrap() = if word == "M" { 1 } else { 2 },
            _ => bytes.extend(&[ebcdic(characters[0]), word[1..].parse().unwrap(), 0]),
        }
    }
    bytes
}

pub fn record(values: impl Iterator<Item = Vec<u8>>) -> Vec<u8> {
    let mut bytes = vec![0xE5, 0xD9, 0xC3, 0x00, 0x01];
    values.for_each(|value| bytes.extend(value));
    bytes
}

fn ebcdic(character: u8) -> u8 {
    match character {
        b'A'..=b'I' => character - b'A' + 0xC1,
        b'J'..=b'R' => character - b'J' + 0xD1,
        b'S'..=b'Z' => character - b'S' + 0xE2,
        b'0'..=b'9' => character - b'0' + 0xF0,
        b'.' => 0x4B,
        b'(' => 0x4D,
        b')' => 0x5D,
        b'-' => 0x60,
        b',' => 0x6B,
        b'\'' => 0x7D,
        _ => 0x40,
    }
}
