//! The calls of `tests/vectors`, by the functions of this crate.

#[path = "../../../tests/rust/lines.rs"]
mod lines;

use lines::{Call, Service};
use lyrecanyon::{apply, empty, empty_vec, read, read_needing, read_vec, update, update_vec, Refusal, LONGEST_RECORD};
use std::fs;
use std::thread;

/// A call with its answer: the number, the length used and the bytes as a line has them, and the length that is needed, the fourth word of
/// a read's line, where 0 is none.
struct Vector {
    call: Call,
    expected: String,
    needed: Option<usize>,
}

/// The call of a line, with the line of its answer. That of a read has to have the fourth word.
fn vector(request: &str, answer: &str) -> Vector {
    let call = lines::call(request).unwrap();
    let (expected, needed) = match call.service {
        Service::Read => answer.rsplit_once(' ').unwrap(),
        Service::Update | Service::Empty => (answer, "0"),
    };
    let needed = lines::number(needed).unwrap_or_else(|error| panic!("{}: {}", answer, error));
    Vector { call, expected: expected.to_string(), needed: Some(needed).filter(|&length| length != 0) }
}

/// The calls of a file, each with its answer.
fn vectors(name: &str) -> Vec<Vector> {
    let text = |ending: &str| {
        let path = format!("{}/../../tests/vectors/{}.{}", env!("CARGO_MANIFEST_DIR"), name, ending);
        fs::read_to_string(&path).unwrap_or_else(|error| panic!("{}: {}", path, error))
    };
    let (requests, answers) = (text("requests"), text("answers"));
    assert_eq!(requests.lines().count(), answers.lines().count());
    requests.lines().zip(answers.lines()).map(|(request, answer)| vector(request, answer)).collect()
}

fn answer(call: &Call, lent: &mut [u8]) -> Result<usize, Refusal> {
    let Call { table, stored, format, buffer, .. } = call;
    match call.service {
        Service::Read => read(table, stored, format, lent),
        Service::Update => update(table, stored, format, buffer, lent),
        Service::Empty => empty(table, lent),
    }
}

fn answer_vec(call: &Call) -> Result<Vec<u8>, Refusal> {
    let Call { table, stored, format, buffer, .. } = call;
    match call.service {
        Service::Read => read_vec(table, stored, format),
        Service::Update => update_vec(table, stored, format, buffer),
        Service::Empty => empty_vec(table),
    }
}

/// An answer as a line has it, without the length that a read needs.
fn line(answer: Result<&[u8], Refusal>) -> String {
    match answer {
        Ok([]) => "0 0 -".to_string(),
        Ok(bytes) => {
            let digits: String = bytes.iter().map(|byte| format!("{:02x}", byte)).collect();
            format!("0 {} {}", bytes.len(), digits)
        }
        Err(refusal) => format!("{} 0 -", refusal.number()),
    }
}

/// Answers the calls of a file, and looks at what was lent after the answer.
fn answer_all(name: &str) {
    let vectors = vectors(name);
    assert!(!vectors.is_empty());
    for Vector { call, expected, needed } in &vectors {
        let mut lent = vec![0x5A; call.lent];
        let answer = answer(call, &mut lent);
        let (written, after) = lent.split_at(answer.unwrap_or(0));
        assert_eq!(&line(answer.map(|_| written)), expected);
        assert!(after.iter().all(|&byte| byte == 0x5A));
        if call.service == Service::Read {
            let mut same = vec![0x5A; call.lent];
            let needing = read_needing(&call.table, &call.stored, &call.format, &mut same);
            assert_eq!((needing.map_err(Refusal::from), same), (answer, lent));
            assert_eq!(needing.err().and_then(|refused| refused.needed), *needed);
        }
    }
}

#[test]
fn specimen() {
    answer_all("specimen");
}

#[test]
fn values() {
    answer_all("values");
}

#[test]
fn base() {
    answer_all("base");
}

#[test]
fn m103() {
    answer_all("m103");
}

#[test]
fn vectors_have_room_for_every_answer() {
    let refused_for_room = |expected: &str| expected.starts_with("7 ") || expected.starts_with("10 ");
    let specimen = vectors("specimen").into_iter().filter(|vector| !refused_for_room(&vector.expected));
    for Vector { call, expected, .. } in specimen {
        assert_eq!(line(answer_vec(&call).as_deref().map_err(|&refusal| refusal)), expected);
    }
}

#[test]
fn in_place() {
    let updates = vectors("base").into_iter().map(|vector| vector.call).filter(|call| call.service == Service::Update);
    for Call { table, stored, format, buffer, .. } in updates {
        let mut place = stored.clone();
        place.resize(LONGEST_RECORD.max(stored.len()), 0x5A);
        let (before, mut used) = (place.clone(), stored.len());
        let answer = apply(&table, &mut place, &mut used, &format, &buffer);
        match update_vec(&table, &stored, &format, &buffer) {
            Ok(new) => assert_eq!((answer, &place[..used], &place[used..]), (Ok(()), &new[..], &before[used..])),
            Err(refusal) => assert_eq!((answer, place, used), (Err(refusal), before, stored.len())),
        }
    }
}

#[test]
fn many_threads_at_once() {
    let threads: Vec<_> = (0..4).map(|_| thread::spawn(|| answer_all("values"))).collect();
    threads.into_iter().for_each(|thread| thread.join().unwrap());
}
