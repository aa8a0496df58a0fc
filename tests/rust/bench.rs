//! Times calls: both services are timed on each in turn, in one run. With the word `names` it prints the names of the rows, and with
//! `once` it has the proved services answer each of them once, between marks that `tests/instructions` finds in the emulator's trace.

use std::env;
use std::time::{Duration, Instant};

#[allow(dead_code)]
#[path = "../../rust/lyrecanyon/src/exports.rs"]
mod exports;
mod rows;
#[allow(dead_code)]
mod service;
mod updates;

use rows::Call;

/// The proved services, by their export to C.
fn proved(call: &Call, lent: &mut [u8]) -> (u8, usize) {
    match &call.values {
        None => exports::read(&call.table, &call.record, &call.format, lent),
        Some(values) => exports::update(&call.table, &call.record, &call.format, values, lent),
    }
}

/// The services in Rust.
fn rust(call: &Call, lent: &mut [u8]) -> (u8, usize) {
    match &call.values {
        None => {
            let (number, length, _) = service::read(&call.table, &call.record, &call.format, lent);
            (number, length)
        }
        Some(values) => service::update(&call.table, &call.record, &call.format, values, lent),
    }
}

fn main() {
    let words: Vec<String> = env::args().skip(1).collect();
    match &words[..] {
        [] => print_times(),
        [word] if word == "names" => rows::rows().iter().for_each(|call| println!("{}", call.row)),
        [word] if word == "once" => rows::rows().iter().for_each(once),
        _ => panic!("bench [names | once]"),
    }
}

fn once(call: &Call) {
    let mut lent = vec![0; call.lent];
    mark();
    proved(call, &mut lent);
    mark();
}

/// Does nothing, where the trace shows it by its name.
#[no_mangle]
#[inline(never)]
pub extern "C" fn mark() {
    unsafe { std::ptr::read_volatile(&0u8) };
}

/// Times of a call in nanoseconds, by the Rust service and by the proved one, and the second as a multiple of the first.
fn print_times() {
    println!("| call | number | length | Rust, ns | proved, ns | times |");
    println!("|---|---|---|---|---|---|");
    for call in rows::rows() {
        let (mut first, mut second) = (f64::MAX, f64::MAX);
        let ((number, length), answer) = answered(&call, rust);
        assert!(answered(&call, proved) == ((number, length), answer), "the services differ on {}", call.row);
        for _ in 0..12 {
            first = first.min(time(&call, rust));
            second = second.min(time(&call, proved));
        }
        println!("| {} | {} | {} | {:.0} | {:.0} | {:.2} |", call.row, number, length, first, second, second / first);
    }
}

/// What a service answers, and what it leaves in the slice that it is lent.
fn answered<F>(call: &Call, service: F) -> ((u8, usize), Vec<u8>)
where
    F: Fn(&Call, &mut [u8]) -> (u8, usize),
{
    let mut lent = vec![0x5A; call.lent];
    (service(call, &mut lent), lent)
}

/// The least time that a call took, in nanoseconds.
fn time<F>(call: &Call, service: F) -> f64
where
    F: Fn(&Call, &mut [u8]) -> (u8, usize),
{
    let mut lent = vec![0; call.lent];
    let mut run = |times: u32| {
        let start = Instant::now();
        for _ in 0..times {
            service(call, &mut lent);
        }
        start.elapsed()
    };
    let mut times = 1;
    while run(times) < Duration::from_micros(500) {
        times *= 2;
    }
    let least = (0..20).map(|_| run(times)).min().unwrap_or_default();
    least.as_nanos() as f64 / f64::from(times)
}
