//! Measures what each function that the library exports uses of the stack: a call runs on a stack of its own, which was painted before, and
//! the deepest byte that is not as it was painted is looked for. The calls are those of `calls_made.rs`. For each function it prints its
//! name, the bytes and the call that used the most, parted by `|`.

mod calls_made;
#[allow(dead_code)]
#[path = "../../rust/lyrecanyon/src/exports.rs"]
mod exports;
mod lines;
mod rows;
#[allow(dead_code)]
mod service;
mod updates;

use calls_made::{calls, made, used_of, AMPLE};

fn main() {
    let mut deepest: Vec<(&str, usize, String)> = Vec::new();
    let mut stack = vec![0; AMPLE];
    for mut lent in calls() {
        for call in made(&mut lent) {
            let depth = used_of(&mut stack, &call);
            match deepest.iter_mut().find(|most| most.0 == call.function) {
                None => deepest.push((call.function, depth, lent.row.clone())),
                Some(most) if depth > most.1 => *most = (call.function, depth, lent.row.clone()),
                Some(_) => {}
            }
        }
    }
    deepest.iter().for_each(|(function, depth, row)| println!("{}|{}|{}", function, depth, row));
}
