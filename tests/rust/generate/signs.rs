//! Writes calls with every half byte as a sign, at every length of P and U, in each round: an update with the value at the
//! field's own form, an update of a field of another form that it fits, and a read of a record that holds it.

use crate::bytes::{encode, hexadecimal};
use crate::random::Random;
use crate::records::MOST_RECORD;
use crate::tables::{length_for, table_bytes, Entry, Form};
use crate::updates::Update;
use crate::values::{make_value, put_sign};
use std::io::{self, Write};

pub(crate) fn write_signs(random: &mut Random, rounds: u64, out: &mut impl Write) -> io::Result<()> {
    let packed = (1..=15).map(|length| Form { format: b'P', length });
    let unpacked = (1..=29).map(|length| Form { format: b'U', length });
    let forms: Vec<Form> = packed.chain(unpacked).collect();
    for _ in 0..rounds {
        for &form in &forms {
            for sign in 0..16 {
                write_own(random, form, sign, out)?;
                write_converted(random, form, sign, out)?;
                write_stored(random, form, sign, out)?;
            }
        }
    }
    Ok(())
}

/// A value of a form that fits another, with a half byte as its sign.
fn value_with(random: &mut Random, form: Form, fit: Form, sign: u8) -> Vec<u8> {
    let mut value = make_value(random, form, fit, false);
    put_sign(form, sign, &mut value);
    value
}

/// The table of one plain field.
fn table_of(form: Form) -> Vec<Entry> {
    let Form { format, length } = form;
    vec![Entry { name: "AA".to_string(), level: 1, format, length, option: 0, periodic: None, end: 1 }]
}

fn record_of(value: &[u8]) -> Vec<u8> {
    [&[0xE5, 0xD9, 0xC3, 0x00, 0x01], value].concat()
}

fn write_own(random: &mut Random, form: Form, sign: u8, out: &mut impl Write) -> io::Result<()> {
    let record = record_of(&make_value(random, form, form, false));
    let buffer = value_with(random, form, form, sign);
    Update { table: table_bytes(&table_of(form)), record, format: encode("AA."), buffer }.write(MOST_RECORD, out)
}

fn write_converted(random: &mut Random, form: Form, sign: u8, out: &mut impl Write) -> io::Result<()> {
    let format = random.pick(b"BFPU");
    let field = Form { format, length: length_for(random, format, true) };
    let record = record_of(&make_value(random, field, field, false));
    let buffer = value_with(random, form, field, sign);
    let format = encode(&format!("AA,{},{}.", form.length, form.format as char));
    Update { table: table_bytes(&table_of(field)), record, format, buffer }.write(MOST_RECORD, out)
}

fn write_stored(random: &mut Random, form: Form, sign: u8, out: &mut impl Write) -> io::Result<()> {
    let table = hexadecimal(&table_bytes(&table_of(form)));
    let record = hexadecimal(&record_of(&value_with(random, form, form, sign)));
    writeln!(out, "R {} {} {} {}", table, record, hexadecimal(&encode("AA.")), form.length)
}
