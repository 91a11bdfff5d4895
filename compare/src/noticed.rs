//! Whether a wrong number would be noticed: lists that are right, with one number of one
//! record changed at a time, held against each side.
use crate::against::Side;
use crate::file::version;
use crate::rules::Mode;
use std::collections::BTreeMap;

/// So many records of a list are enough: in longer ones the same comes again and again.
const ENOUGH: usize = 20;

/// The list with another number there, for reason 1 reason 2 and the reverse.
fn changed(records: &[Vec<u32>], row: usize, at: usize) -> String {
    let mut records = records.to_vec();
    records[row][at] ^= 3;
    let line = |r: &Vec<u32>| r.iter().map(u32::to_string).collect::<Vec<_>>().join(" ") + "\n";
    records.iter().map(line).collect::<String>() + &format!("total {}\n", records.len())
}

/// A list's records; none of a refusal.
fn records(list: &str) -> Vec<Vec<u32>> {
    let record = |line: &str| line.split(' ').map(|n| n.parse().ok()).collect();
    list.lines().filter_map(record).collect()
}

/// What a number is that a side has no word on, by the file's version, the record's code and the place in it.
type NotItsOwn = fn(Option<u16>, u32, usize) -> Option<&'static str>;

/// A record that gets another code than 15 is one more for the Rust, and that it notices.
fn not_the_rusts(version: Option<u16>, code: u32, at: usize) -> Option<&'static str> {
    match (version, code, at) {
        (_, 16, 6 | 7) => Some("in reasons"),
        (_, 1..=6, 8 | 9) => Some("in nodes of 1 to 6"),
        (Some(2), 15, 1..) => Some("in code 15 of version 2"),
        _ => None,
    }
}

/// The changes that a side took otherwise than it must, and a line on all of them.
fn beside(side: Side, not_its_own: NotItsOwn, files: &[Vec<u8>], lists: &[String]) -> (usize, String) {
    let (mut all, mut free, mut wrong) = (0, BTreeMap::new(), 0);
    for (file, list) in files.iter().zip(lists) {
        let (own, records) = (side.list(file), records(list));
        for (row, record) in records.iter().enumerate().take(ENOUGH) {
            for at in 0..record.len() {
                let unseen = not_its_own(version(file), record[0], at);
                all += 1;
                unseen.into_iter().for_each(|what| *free.entry(what).or_insert(0) += 1);
                let agrees = side.agrees(file, &own, &changed(&records, row, at));
                wrong += usize::from(agrees != unseen.is_some());
            }
        }
    }
    let parts: String = free.iter().map(|(what, count)| format!(", {count} {what}")).collect();
    let free: usize = free.values().sum();
    let line = format!("{all} numbers changed, {free} of them none of its own{parts}; {wrong} taken wrongly");
    (wrong, format!("{}: {line}\n", side.name()))
}

/// Both sides, with ordinary keys; whether each noticed what it must and nothing else.
pub fn noticed(files: &[Vec<u8>], lists: &[String]) -> (bool, String) {
    let found = [
        beside(Side::RUST, not_the_rusts, files, lists),
        beside(Side::rules(Mode::Ordinary), |_, _, _| None, files, lists),
    ];
    (found.iter().all(|f| f.0 == 0), found.iter().map(|f| f.1.as_str()).collect())
}
