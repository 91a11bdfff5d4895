//! Document 01's listing, with the Rust behind it.
use crate::file::version;
use crate::judge::judge;
use crate::rules::{self, Mode};
use originals::Record;
use std::cell::Cell;
use std::fmt::Write;

pub const PASSES: [&str; 4] = ["names", "flow", "incompatible", "dubious"];
/// The listing program's room in records, and the bytes that it reads.
const ROOM: usize = 2048;
const LONGEST: usize = 49152;
/// The bytes that the program desk reads: no valid tree has more.
const LONGEST_TREE: usize = 149515;

thread_local! {
    static IN_THE_RUST: Cell<bool> = const { Cell::new(false) };
}

/// The Rust's panics are answers here, not noise; others are shown.
pub fn hush_the_rust() {
    let usual = std::panic::take_hook();
    std::panic::set_hook(Box::new(move |x| {
        if !IN_THE_RUST.get() {
            usual(x)
        }
    }));
}

/// The Rust's records for a valid file; `None` where the Rust panicked.
pub fn records(bytes: &[u8]) -> Option<[Vec<Record>; 4]> {
    IN_THE_RUST.set(true);
    let out = std::panic::catch_unwind(|| originals::records(bytes)).ok();
    IN_THE_RUST.set(false);
    out
}

fn lines(records: &[Record]) -> String {
    let mut out = String::new();
    for record in records {
        let numbers: Vec<String> = record.iter().map(u32::to_string).collect();
        writeln!(out, "{}", numbers.join(" ")).unwrap();
    }
    writeln!(out, "total {}", records.len()).unwrap();
    out
}

/// How much of a record counts where two lists are compared.
#[derive(Clone, Copy)]
pub enum Extent {
    /// All ten numbers.
    Whole,
    /// What the Rust says: no reason of equal keys, and of codes 1 to 6 no node. Where nodes share span
    /// and name its span comes from the one warned, which need not be the first met.
    Rust,
    /// Document 01 alone: the first eight, but no reason.
    Eight,
}

impl Extent {
    /// Whether the number at this place of a record counts.
    fn counts(self, code: u32, at: usize) -> bool {
        let (reason, node) = (code == 16 && matches!(at, 6 | 7), at > 7);
        match self {
            Extent::Whole => true,
            Extent::Rust => !reason && !(node && code <= 6),
            Extent::Eight => !reason && !node,
        }
    }

    /// Of a record what counts; any other line as it is.
    fn line(self, line: &str) -> String {
        let Some(code) = code(line) else { return line.to_owned() };
        let numbers = line.split(' ').enumerate().filter(|(at, _)| self.counts(code, *at));
        numbers.map(|n| n.1).collect::<Vec<_>>().join(" ")
    }

    /// A listing, of each record what counts.
    pub fn of(self, list: &str) -> String {
        list.split('\n').map(|line| self.line(line)).collect::<Vec<_>>().join("\n")
    }
}

fn code(line: &str) -> Option<u32> {
    line.split(' ').next()?.parse().ok()
}

/// A listing without the records of a code, its total less by so many.
fn without(left_out: u32, list: &str) -> String {
    let (gone, kept): (Vec<&str>, _) = list.split('\n').partition(|line| code(line) == Some(left_out));
    let less = |line: &&str| {
        let total: i64 = line.strip_prefix("total ")?.parse().ok()?;
        Some(format!("total {}", total - gone.len() as i64))
    };
    let kept: Vec<String> = kept.iter().map(|line| less(line).unwrap_or((*line).to_owned())).collect();
    kept.join("\n")
}

/// Who says what the records of a valid file are.
#[derive(Clone, Copy)]
pub enum Source {
    /// The four files, unchanged; strict keys, reasons and dialect 2 are not theirs.
    Rust,
    /// Document 01 as rules.rs reads it, with the reasons, the nodes and the dialect of 02.
    Rules(Mode),
}

impl Source {
    fn records(self, bytes: &[u8]) -> Option<[Vec<Record>; 4]> {
        match self {
            Source::Rust => records(bytes),
            Source::Rules(mode) => Some(rules::records(bytes, mode)),
        }
    }

    /// Of a file's list what it has a word on: "Demand 2 compares version 2 with the Rust in all but code 15".
    pub fn part_of(self, file: &[u8], list: &str) -> String {
        match (self, version(file)) {
            (Source::Rust, Some(2)) => without(15, list),
            _ => list.to_owned(),
        }
    }

    /// What the listing program prints; of all passes, or of one alone.
    pub fn listing(self, bytes: &[u8], pass: Option<usize>) -> String {
        self.printed(bytes, pass, LONGEST, ROOM)
    }

    /// What the program desk prints in an answer, but for the line that ends it.
    pub fn desk(self, bytes: &[u8]) -> String {
        self.printed(bytes, None, LONGEST_TREE, usize::MAX)
    }

    /// What the joined call answers to a file of any length, with room for any list.
    pub fn answer(self, bytes: &[u8], pass: Option<usize>) -> String {
        self.printed(bytes, pass, usize::MAX, usize::MAX)
    }

    fn printed(self, bytes: &[u8], pass: Option<usize>, longest: usize, room: usize) -> String {
        if bytes.len() > longest {
            return "too long\n".to_owned();
        }
        if let Some((number, place)) = judge(bytes) {
            return format!("refused {number} {place}\n");
        }
        let Some(passes) = self.records(bytes) else {
            return "panic\n".to_owned();
        };
        let all = match pass {
            Some(i) => passes[i].clone(),
            None => passes.concat(),
        };
        if all.len() > room {
            return format!("refused 11 {}\n", all.len());
        }
        lines(&all)
    }
}
