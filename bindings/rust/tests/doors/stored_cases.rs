//! The project's stored calls of the doors, crates/cases/stdin, made through these
//! bindings: what they return is compared line by line with crates/cases/stdout, which
//! a model written from the reference alone has computed.
//!
//! A call is a kind (u8) and its fields, as crates/cases/src/main.rt describes them.

use crate::support::{handle, hex, listing};
use std::fs;
use zimatuno::{check, create, name, run_batch, Answer, DoorError, ANSWER_SIZE};

/// The calls not made yet.
struct Calls<'a>(&'a [u8]);

impl<'a> Calls<'a> {
    fn bytes(&mut self, length: usize) -> &'a [u8] {
        let (part, rest) = self.0.split_at(length);
        self.0 = rest;
        part
    }

    fn u8(&mut self) -> u8 {
        self.bytes(1)[0]
    }

    fn u16(&mut self) -> u16 {
        u16::from_le_bytes(self.bytes(2).try_into().unwrap())
    }

    fn u32(&mut self) -> u32 {
        u32::from_le_bytes(self.bytes(4).try_into().unwrap())
    }
}

fn code(result: Result<(), DoorError>) -> u8 {
    result.err().map_or(0, DoorError::code)
}

/// Kind 1. Gives the length in use from then on. A size above the argument's type is
/// above the limits.
fn next_create(calls: &mut Calls<'_>, space: &mut [u8], lines: &mut Vec<String>) -> usize {
    let (slots, trees) = (u16::try_from(calls.u32()), u16::try_from(calls.u32()));
    let text = calls.u32();
    let used = calls.u32() as usize;
    let result = match (slots, trees) {
        (Ok(slots), Ok(trees)) => create(slots, trees, text, &mut space[..used]),
        _ => Err(DoorError::BadSize),
    };
    lines.push(format!("create {}", code(result)));
    used
}

fn answer_line(bytes: &[u8]) -> String {
    let answer = Answer::from_bytes(bytes.try_into().unwrap()).unwrap();
    let code = answer.refusal().map_or(0, |refusal| refusal.code());
    let kind = answer.cursor.code();
    match answer.shown() {
        None => format!("{code} {kind} 0 0 0 0 0"),
        Some(shown) => format!(
            "{code} {kind} {} {} {} {} {}",
            shown.handle.slot, shown.handle.stamp, shown.key, shown.name_start, shown.name_length
        ),
    }
}

/// Kind 2. The answers' bytes are 255 before the call; those behind the answers that still
/// are have their number printed.
fn next_batch(calls: &mut Calls<'_>, pool: &mut [u8], lines: &mut Vec<String>) {
    let (length, room) = (calls.u32() as usize, calls.u32() as usize);
    let mut answers = vec![255; room];
    let result = run_batch(pool, calls.bytes(length), &mut answers);
    let answered = result.unwrap_or(0);
    lines.push(format!("batch {} {answered}", code(result.map(|_| ()))));
    let (written, rest) = answers.split_at(ANSWER_SIZE * usize::from(answered));
    lines.extend(written.chunks_exact(ANSWER_SIZE).map(answer_line));
    lines.push(format!("rest {}", rest.iter().filter(|&&byte| byte == 255).count()));
}

/// Kind 4.
fn next_name(calls: &mut Calls<'_>, pool: &[u8], lines: &mut Vec<String>) {
    let (tree, slot, stamp) = (calls.u8(), calls.u16(), calls.u32());
    let found = name(pool, tree, handle(slot, stamp));
    lines.push(found.map_or("name".to_string(), |name| format!("name {}", hex(name))));
}

/// Kind 6.
fn next_title(calls: &mut Calls<'_>, lines: &mut Vec<String>) {
    let length = calls.u16().into();
    lines.push(String::from_utf8(calls.bytes(length).to_vec()).unwrap());
}

/// Kind 7.
fn next_damage(calls: &mut Calls<'_>, pool: &mut [u8]) {
    let place = calls.u32() as usize;
    pool[place] = calls.u8();
}

/// The lines that all the calls print.
fn run(mut calls: Calls<'_>) -> Vec<String> {
    let (mut space, mut used) = (vec![0; 41_056], 0);
    let mut lines = Vec::new();
    while !calls.0.is_empty() {
        let kind = calls.u8();
        let pool = &mut space[..used];
        match kind {
            1 => used = next_create(&mut calls, &mut space, &mut lines),
            2 => next_batch(&mut calls, pool, &mut lines),
            3 => lines.push(format!("check {}", code(check(pool)))),
            4 => next_name(&mut calls, pool, &mut lines),
            5 => lines.extend(listing(pool)),
            6 => next_title(&mut calls, &mut lines),
            7 => next_damage(&mut calls, pool),
            _ => panic!("no call has kind {kind}"),
        }
    }
    lines
}

#[test]
fn stored_calls_return_what_is_stored() {
    let folder = concat!(env!("CARGO_MANIFEST_DIR"), "/../../crates/cases/");
    let calls = fs::read(format!("{folder}stdin")).expect("crates/cases/stdin is in the project");
    let expected = fs::read_to_string(format!("{folder}stdout")).unwrap();
    let printed = run(Calls(&calls));
    for (number, (line, expected)) in printed.iter().zip(expected.lines()).enumerate() {
        assert_eq!(line, expected, "line {} of crates/cases/stdout", number + 1);
    }
    assert_eq!(printed.len(), expected.lines().count());
}
