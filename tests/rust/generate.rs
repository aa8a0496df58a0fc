//! Writes random calls: `generate SEED COUNT calls`, or chains of updates: `generate SEED COUNT chains`, or histories:
//! `generate SEED COUNT histories`, or rounds of every sign at every length: `generate SEED COUNT signs`.
//!
//! Calls come in stories. A story has one table and one record; what an accepted update gives is mostly the record of the
//! next call. Most calls are good ones, each of the others is made to be refused by one number, and some meet another
//! first. A chain is a story of 8 to 20 updates and nothing else: what an accepted one gives is always the record of the
//! next, and a refused one leaves the record as it is. A history is a chain that starts from the empty record, asked for
//! by its first call; its table and record are good ones, and each call has room for every record.

use std::env;
use std::io::{self, BufWriter, Write};
use std::process::exit;

#[path = "generate/bytes.rs"]
mod bytes;
#[path = "generate/elements.rs"]
mod elements;
#[path = "generate/formats.rs"]
mod formats;
#[path = "generate/maker.rs"]
mod maker;
#[path = "generate/odd_elements.rs"]
mod odd_elements;
#[path = "generate/plans.rs"]
mod plans;
#[path = "generate/random.rs"]
mod random;
#[path = "generate/records.rs"]
mod records;
mod service;
#[path = "generate/signs.rs"]
mod signs;
#[path = "generate/stories.rs"]
mod stories;
#[path = "generate/tables.rs"]
mod tables;
#[path = "generate/updates.rs"]
mod updates;
#[path = "generate/values.rs"]
mod values;

use bytes::hexadecimal;
use random::Random;
use records::MOST_RECORD;
use stories::Story;
use tables::table_bytes;

/// How long the journal of a history may be: a line with it is shorter than the longest that is taken as a call.
const MOST_JOURNAL: usize = 75_000;

fn main() -> io::Result<()> {
    let words: Vec<String> = env::args().skip(1).collect();
    let (seed, count, kind) = match &words[..] {
        [seed, count, kind] => (seed.parse(), count.parse(), kind.as_str()),
        _ => usage(),
    };
    let (seed, count) = match (seed, count) {
        (Ok(seed), Ok(count)) => (seed, count),
        _ => usage(),
    };
    let mut random = Random::new(seed);
    let mut out = BufWriter::new(io::stdout());
    match kind {
        "calls" => write_calls(&mut random, count, &mut out)?,
        "chains" => write_chains(&mut random, count, &mut out)?,
        "histories" => write_histories(&mut random, count, &mut out)?,
        "signs" => signs::write_signs(&mut random, count, &mut out)?,
        _ => usage(),
    }
    out.flush()
}

fn usage() -> ! {
    eprintln!("generate SEED COUNT calls|chains|histories|signs");
    exit(2);
}

fn write_calls(random: &mut Random, count: u64, out: &mut impl Write) -> io::Result<()> {
    let mut story = Story::new(random);
    for _ in 0..count {
        if random.chance(9) {
            story = Story::new(random);
        }
        match random.below(20) {
            0 => story.write_empty(random, out)?,
            1..=9 => story.write_read(random, out)?,
            _ => story.write_update(random, 80, out)?,
        }
    }
    Ok(())
}

fn write_chains(random: &mut Random, count: u64, out: &mut impl Write) -> io::Result<()> {
    for _ in 0..count {
        let mut story = Story::new(random);
        for _ in 0..random.between(8, 20) {
            story.write_update(random, 100, out)?;
        }
    }
    Ok(())
}

fn write_histories(random: &mut Random, count: u64, out: &mut impl Write) -> io::Result<()> {
    for _ in 0..count {
        let mut story = Story::start(random);
        writeln!(out, "E {} {}", hexadecimal(&table_bytes(&story.table)), MOST_RECORD)?;
        let mut journal = 0;
        for left in (1..=random.between(8, 20)).rev() {
            journal += story.write_next(random, (MOST_JOURNAL - journal) / left, out)?;
        }
    }
    Ok(())
}
