//! The Rust for measuring: judges each file on standard input, reads it into the Rust's tree and runs a part of
//! the lint, as often as asked; prints how many warnings it gave. crates/speed is the same over the Rattle, with the
//! same input: part and repeats as 32 bits each, then files, each after its length.
#[allow(dead_code)]
#[path = "../../src/judge.rs"]
mod judge;
#[path = "../../src/kinds.rs"]
mod kinds;

use std::hint::black_box;
use std::io::Read;

/// By number of the part; the first judges alone, the last reads and runs no pass.
const PARTS: [&[&str]; 7] = [
    &[],
    &["names"],
    &["flow"],
    &["incompatible"],
    &["dubious"],
    &["names", "flow", "incompatible", "dubious"],
    &[],
];

fn once(part: usize, file: &[u8]) -> usize {
    if judge::judge(file).is_some() || part == 0 {
        return 0;
    }
    originals::count(file, PARTS[part])
}

/// The next 32 bits, if there are any.
fn word(bytes: &mut &[u8]) -> Option<usize> {
    let (head, rest) = (bytes.get(..4)?, bytes.get(4..)?);
    *bytes = rest;
    Some(u32::from_le_bytes(head.try_into().ok()?) as usize)
}

fn main() {
    let mut input = Vec::new();
    std::io::stdin().lock().read_to_end(&mut input).expect("standard input");
    let mut rest = input.as_slice();
    let part = word(&mut rest).expect("a part");
    let repeats = word(&mut rest).expect("repeats");
    while let Some(length) = word(&mut rest) {
        let (file, after) = rest.split_at(length);
        rest = after;
        let mut count = 0;
        for _ in 0..repeats {
            count = once(part, black_box(file));
        }
        println!("{count}");
    }
}
