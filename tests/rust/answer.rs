//! Answers calls: each line of standard input is a call, each line of standard output its answer.
//!
//! The program stops if a service writes a byte that it has no leave to write.

use std::io::{self, BufRead, BufWriter, Write};
use std::process::exit;

#[allow(dead_code)]
mod lines;
mod service;

use lines::{bytes, number};

const MOST_RECORD: usize = 4096;

/// The number and the bytes written.
type Written = (u8, Vec<u8>);

type Answer<T> = Result<T, &'static str>;

fn main() -> io::Result<()> {
    let mut out = BufWriter::new(io::stdout());
    for (i, line) in io::stdin().lock().lines().enumerate() {
        let line = line?;
        match answer(&line) {
            Ok(words) => writeln!(out, "{}", words)?,
            Err(trouble) => {
                out.flush()?;
                eprintln!("line {}: {}", i + 1, trouble);
                exit(1);
            }
        }
    }
    out.flush()
}

/// The words of an answer. A read's has four, also that after the updates of a journal, and all others three.
fn answer(line: &str) -> Answer<String> {
    let words: Vec<&str> = line.split_whitespace().collect();
    match words[..] {
        ["R", table, record, format, length] => read(&bytes(table)?, &bytes(record)?, &bytes(format)?, number(length)?),
        ["U", table, record, format, buffer, length] => {
            let (table, record, format, buffer) = (bytes(table)?, bytes(record)?, bytes(format)?, bytes(buffer)?);
            lend(number(length)?, |room| service::update(&table, &record, &format, &buffer, room)).map(spell)
        }
        ["E", table, length] => {
            let table = bytes(table)?;
            lend(number(length)?, |room| service::empty(&table, room)).map(spell)
        }
        ["H", table, journal, format, length] => {
            let (table, journal, format) = (bytes(table)?, bytes(journal)?, bytes(format)?);
            match carry_out(&table, &journal)? {
                (0, record) => read(&table, &record, &format, number(length)?),
                refusal => Ok(spell(refusal) + " 0"),
            }
        }
        _ => Err("not a call"),
    }
}

fn read(table: &[u8], record: &[u8], format: &[u8], length: usize) -> Answer<String> {
    let mut needed = 0;
    let answer = lend(length, |buffer| {
        let (number, written, smallest) = service::read(table, record, format, buffer);
        needed = smallest;
        (number, written)
    })?;
    if answer.0 != 9 && needed != 0 {
        return Err("a smallest length without 9");
    }
    Ok(format!("{} {}", spell(answer), needed))
}

/// The record after the updates of a journal, or the refusal of the empty record that they start from.
fn carry_out(table: &[u8], mut journal: &[u8]) -> Answer<Written> {
    let (number, mut record) = lend(MOST_RECORD, |room| service::empty(table, room))?;
    while let (0, Some((format, buffer, rest))) = (number, entry(journal)) {
        if let (0, new) = lend(MOST_RECORD, |room| service::update(table, &record, format, buffer, room))? {
            record = new;
        }
        journal = rest;
    }
    Ok((number, record))
}

/// The format and record buffer of a journal's first update, and the rest of it; none if it is cut short.
fn entry(journal: &[u8]) -> Option<(&[u8], &[u8], &[u8])> {
    let length = |at: usize| Some(usize::from(*journal.get(at)?) << 8 | usize::from(*journal.get(at + 1)?));
    let (middle, end) = (4 + length(0)?, 4 + length(0)? + length(2)?);
    Some((journal.get(4..middle)?, journal.get(middle..end)?, journal.get(end..)?))
}

/// Lends a slice of that length to a service and looks at all of it afterwards.
fn lend(length: usize, service: impl FnOnce(&mut [u8]) -> (u8, usize)) -> Answer<Written> {
    let before: Vec<u8> = (0..length).map(|i| (i * 167 + 91) as u8).collect();
    let mut lent = before.clone();
    let (number, written) = service(&mut lent);
    if written > length || lent[written..] != before[written..] {
        return Err("a byte after the length was written");
    }
    if number != 0 && written != 0 {
        return Err("a refusal with a length");
    }
    lent.truncate(written);
    Ok((number, lent))
}

fn spell((number, bytes): Written) -> String {
    format!("{} {} {}", number, bytes.len(), hexadecimal(&bytes))
}

fn hexadecimal(bytes: &[u8]) -> String {
    if bytes.is_empty() {
        return "-".to_string();
    }
    bytes.iter().map(|byte| format!("{:02x}", byte)).collect()
}
