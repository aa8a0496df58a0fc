//! Runs calls on stacks that are as large as the header says: `threads NAME BYTES ...`, a name and a bound for each function. A thread
//! makes the calls of `calls_made.rs` on a stack of exactly that many bytes, arguments among them, right after an unreadable page. Each has
//! to come back, with the number and the lengths that it has on an ordinary stack. That the page guards is seen first.

use std::env;
use std::process::exit;
use std::thread;

mod calls_made;
#[allow(dead_code)]
#[path = "../../rust/lyrecanyon/src/exports.rs"]
mod exports;
mod lines;
#[allow(dead_code)]
mod pages;
mod rows;
#[allow(dead_code)]
mod service;
mod updates;

use calls_made::{call_on, calls, made, used_of, Call, Lent, AMPLE};
use pages::{in_child, Area, Place};

const PAGE: usize = 4096;

/// The number, the length and, where it is asked for, the length needed.
type Answer = (u8, usize, usize);

/// A function, the bytes that the header says, and its calls with their answers on an ordinary stack.
struct Function<'a> {
    name: &'a str,
    bound: usize,
    calls: Vec<(&'a Lent, Answer)>,
}

fn main() {
    let words: Vec<String> = env::args().skip(1).collect();
    assert!(!words.is_empty() && words.len() % 2 == 0, "threads NAME BYTES ...");
    let calls = calls();
    let functions: Vec<Function> = words.chunks(2).map(|words| Function::new(words, &calls)).collect();
    let mut checks = vec![pages_guard(&functions)];
    checks.extend(functions.iter().map(Function::bound_is_enough));
    let passed = checks.iter().filter(|&&check| check).count();
    println!("{} passed, {} failed", passed, checks.len() - passed);
    exit(i32::from(passed < checks.len()));
}

/// Whether a child process that makes the calls of a function on a page less than they use is ended, for every function.
fn pages_guard(functions: &[Function]) -> bool {
    pages::see_that_they_guard();
    let ends = |function: &&Function| {
        let less = function.used().saturating_sub(PAGE) & !15;
        in_child(|| function.answers_stay(less)).is_none()
    };
    let unguarded = functions.iter().find(|function| !ends(function));
    unguarded.iter().for_each(|function| println!("{}: no page ends its calls on too small a stack", function.name));
    unguarded.is_none()
}

impl<'a> Function<'a> {
    fn new(words: &'a [String], calls: &'a [Lent]) -> Function<'a> {
        let name = words[0].as_str();
        let bound = words[1].parse().expect("a number of bytes");
        let calls: Vec<_> = calls.iter().filter_map(|lent| Some((lent, ordinary(name, lent.clone())?))).collect();
        assert!(!calls.is_empty(), "no call of {}", name);
        Function { name, bound, calls }
    }

    /// The bytes of the stack that the calls use at most.
    fn used(&self) -> usize {
        let mut stack = vec![0; AMPLE];
        self.calls.iter().map(|(lent, _)| used_of(&mut stack, &self.call(&mut Lent::clone(lent)))).max().unwrap()
    }

    fn bound_is_enough(&self) -> bool {
        let stay = in_child(|| self.answers_stay(self.bound));
        let said = match stay {
            Some(true) => "calls",
            Some(false) => "calls do not have their answers",
            None => "calls do not all come back",
        };
        println!("{}: {} {} on a stack of {} bytes", self.name, self.calls.len(), said, self.bound);
        stay == Some(true)
    }

    /// Whether a thread whose calls run on a stack of that many bytes, right after an unreadable page, gets the answers.
    fn answers_stay(&self, size: usize) -> bool {
        let run = || {
            let mut area = Area::for_slice(size);
            let top = area.lend(&vec![0; size], Place::AfterPage) as usize + size;
            self.calls.iter().all(|(lent, answer)| self.answer(top, Lent::clone(lent)) == *answer)
        };
        thread::scope(|scope| scope.spawn(run).join().unwrap_or(false))
    }

    fn answer(&self, top: usize, mut lent: Lent) -> Answer {
        let number = unsafe { call_on(top, &self.call(&mut lent)) };
        (number, if self.name == "lyrecanyon_apply" { lent.length } else { lent.used }, lent.needed)
    }

    fn call(&self, lent: &mut Lent) -> Call {
        made(lent).into_iter().find(|call| call.function == self.name).unwrap()
    }
}

/// The answer on an ordinary stack, if what is lent is for a call of that function.
fn ordinary(name: &str, mut lent: Lent) -> Option<Answer> {
    let Lent { table, stored, format, buffer, room, place, length, .. } = &mut lent;
    let (number, used) = match (name, buffer) {
        ("lyrecanyon_read_needing", None) => return Some(exports::read_needing(table, stored, format, room)),
        ("lyrecanyon_read", None) => exports::read(table, stored, format, room),
        ("lyrecanyon_update", Some(buffer)) => exports::update(table, stored, format, buffer, room),
        ("lyrecanyon_apply", Some(buffer)) => (exports::apply(table, place, length, format, buffer), *length),
        ("lyrecanyon_empty", _) => exports::empty(table, room),
        _ => return None,
    };
    Some((number, used, 0))
}
