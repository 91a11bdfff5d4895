//! The command line.
use crate::against::{against, with_lists, Differences, Program, Side, Takes};
use crate::batch::{self, input, print, print_all};
use crate::coverage::Coverage;
use crate::file::version;
use crate::judge::judge;
use crate::listing::{Source, PASSES};
use crate::make::Plan;
use crate::noticed::noticed;
use crate::recorded::{self, Limits};
use crate::rules::{self, Mode};
use crate::show::show;
use std::path::Path;

const USAGE: &str = "usage:
  compare list [--pass P] [--batch]   the Rust's listing of the file or files on standard input
  compare rules [--pass P] [--batch] [--strict]
                                      the same by document 01's rules, without the Rust
  compare judge [--batch]             `valid` or `refused N P`
  compare show                        a file's nodes by name
  compare make [--seed S] [--from I] [--count N] [--any-order] [--damage] [--long] [--shared] [--floats]
                                      [--dialect]
                                      generated files, each after its length, on standard output
  compare sized SORT                  trees of one sort at growing numbers of nodes, each after its length;
                                      SORT: straight, loops, dicts, names
  compare coverage FILES..            what files show
  compare lists [--rules | --strict] [--eight] [--before R] FILES LISTS
                                      the Rust beside lists written before; --rules: and document 01's rules,
                                      strict keys: these alone. Of a record's ten numbers the Rust says neither
                                      the reason of 16 nor the node of 1 to 6, and nothing of 15 in version 2,
                                      the rules say all; --eight: of lists of 01 alone its eight numbers a record,
                                      of 16 six; --before: lists older than a request of 02, so files of which it
                                      says something new are left out; R: dialect (§9), or floats (§2, then §9)
  compare noticed FILES LISTS         whether the Rust and the rules would notice a wrong number in right lists
  compare against [--each | --desk] [--rules | --strict] [--chunk N] [--as-found] FILES.. -- PROGRAM ..
                                      the same beside a program, which takes files as --batch has them;
                                      --each: one file a start; --desk: requests
  compare record [--seed S] [--count N] [--bytes N] FOLDER
                                      chooses and writes the recorded list
P: names, flow, incompatible, dubious. FILES hold many files, each after its length.";

/// Words of a command line: flags with and without a value, and the rest.
struct Words {
    flags: Vec<(String, Option<String>)>,
    rest: Vec<String>,
    after: Vec<String>,
}

impl Words {
    fn new(words: &[String], valued: &[&str], plain: &[&str]) -> Result<Words, String> {
        let mut out = Words { flags: vec![], rest: vec![], after: vec![] };
        let mut words = words.iter().cloned();
        while let Some(word) = words.next() {
            if word == "--" {
                out.after = words.collect();
                break;
            } else if valued.contains(&&*word) {
                let value = words.next().ok_or(format!("{word} wants a value"))?;
                out.flags.push((word, Some(value)));
            } else if plain.contains(&&*word) {
                out.flags.push((word, None));
            } else if word.starts_with("--") {
                return Err(format!("unknown {word}\n{USAGE}"));
            } else {
                out.rest.push(word);
            }
        }
        Ok(out)
    }

    fn has(&self, flag: &str) -> bool {
        self.flags.iter().any(|f| f.0 == flag)
    }

    fn number(&self, flag: &str, default: u64) -> Result<u64, String> {
        match self.flags.iter().rev().find(|f| f.0 == flag) {
            Some((_, Some(text))) => text.parse().map_err(|_| format!("{flag} wants a number")),
            _ => Ok(default),
        }
    }

    fn text(&self, flag: &str) -> Option<&str> {
        self.flags.iter().rev().find(|f| f.0 == flag).and_then(|f| f.1.as_deref())
    }

    fn mode(&self) -> Mode {
        if self.has("--strict") {
            Mode::Strict
        } else {
            Mode::Ordinary
        }
    }

    /// What lists are held against; the Rust has no strict keys.
    fn sides(&self) -> Result<Vec<Side>, String> {
        let rules = Side::rules(self.mode());
        let sides = match (self.has("--rules"), self.has("--strict")) {
            (false, false) => vec![Side::RUST],
            (true, false) => vec![Side::RUST, rules],
            (false, true) => vec![rules],
            (true, true) => return Err(USAGE.to_owned()),
        };
        Ok(if self.has("--eight") { sides.into_iter().map(Side::eight).collect() } else { sides })
    }

    /// Every file of the named heaps.
    fn files(&self) -> Result<Vec<Vec<u8>>, String> {
        let mut out = Vec::new();
        for path in &self.rest {
            out.extend(batch::read(Path::new(path))?);
        }
        Ok(out)
    }
}

/// Whether all was as it should be.
pub fn run(words: &[String]) -> Result<bool, String> {
    let (command, words) = words.split_first().ok_or(USAGE)?;
    match command.as_str() {
        "list" => list(Words::new(words, &["--pass"], &["--batch"])?, Source::Rust),
        "rules" => {
            let words = Words::new(words, &["--pass"], &["--batch", "--strict"])?;
            let mode = words.mode();
            list(words, Source::Rules(mode))
        }
        "judge" => judged(Words::new(words, &[], &["--batch"])?),
        "show" => {
            print(show(&input()).as_bytes());
            Ok(true)
        }
        "make" => make(Words::new(words, &["--seed", "--from", "--count"], &Plan::FLAGS)?),
        "sized" => sized(Words::new(words, &[], &[])?),
        "coverage" => coverage(Words::new(words, &[], &[])?),
        "lists" => lists(Words::new(words, &["--before"], &["--rules", "--strict", "--eight"])?),
        "noticed" => wrong_numbers(Words::new(words, &[], &[])?),
        "record" => record(Words::new(words, &["--seed", "--count", "--bytes"], &[])?),
        "against" => {
            let plain = ["--each", "--desk", "--rules", "--strict", "--as-found"];
            beside(Words::new(words, &["--chunk"], &plain)?)
        }
        _ => Err(USAGE.to_owned()),
    }
}

/// An answer for the one file on standard input, or for each of many.
fn answers(
    many: bool,
    one: impl Fn(&[u8]) -> String,
    each: impl Fn(&[u8]) -> String,
) -> Result<bool, String> {
    let input = input();
    if !many {
        print(one(&input).as_bytes());
        return Ok(true);
    }
    let files = batch::split(&input)?;
    print_all(files.iter().map(|f| (each(f) + "--\n").into_bytes()));
    Ok(true)
}

fn list(words: Words, source: Source) -> Result<bool, String> {
    let pass = match words.text("--pass") {
        None => None,
        Some(name) => Some(PASSES.iter().position(|p| *p == name).ok_or(USAGE)?),
    };
    answers(words.has("--batch"), |f| source.listing(f, pass), |f| source.answer(f, pass))
}

fn judged(words: Words) -> Result<bool, String> {
    let verdict = |f: &[u8]| match judge(f) {
        None => "valid\n".to_owned(),
        Some((number, place)) => format!("refused {number} {place}\n"),
    };
    answers(words.has("--batch"), verdict, verdict)
}

fn make(words: Words) -> Result<bool, String> {
    let plan = Plan::new(words.number("--seed", 1)?, |flag| words.has(flag));
    let from = words.number("--from", 0)?;
    let count = words.number("--count", 1)?;
    let mut wrong = None;
    print_all((from..from + count).map_while(|index| {
        let file = plan.file(index);
        if !plan.damage && judge(&file).is_some() {
            wrong = Some(index);
            return None;
        }
        Some(batch::join(&[file]))
    }));
    match wrong {
        None => Ok(true),
        Some(index) => Err(format!("made a file that isn't valid: {}", plan.words(index))),
    }
}

fn sized(words: Words) -> Result<bool, String> {
    let [sort] = words.rest.as_slice() else { return Err(USAGE.to_owned()) };
    let files = crate::hand::sized::files(sort).ok_or(USAGE)?;
    print_all(files.into_iter().map(|x| batch::join(&[x.file])));
    Ok(true)
}

fn coverage(words: Words) -> Result<bool, String> {
    let mut found = Coverage::default();
    words.files()?.iter().for_each(|f| found.add(f));
    print(found.report().as_bytes());
    Ok(true)
}

/// Whether no side found a difference.
fn reported(found: Vec<Differences>) -> bool {
    found.iter().for_each(|side| print(side.report().as_bytes()));
    found.iter().all(Differences::none)
}

/// The files of a heap, and their lists.
fn listed(words: &Words) -> Result<(Vec<Vec<u8>>, Vec<String>), String> {
    let [files, lists] = words.rest.as_slice() else { return Err(USAGE.to_owned()) };
    let (files, lists) = (batch::read(Path::new(files))?, batch::read_lists(Path::new(lists))?);
    if files.len() != lists.len() {
        return Err(format!("{} files but {} lists", files.len(), lists.len()));
    }
    Ok((files, lists))
}

/// Whether 02, §2 finds equal keys in a file: a whole float of 2^53 or more beside its integer.
fn has_large_floats(file: &[u8]) -> bool {
    judge(file).is_none() && rules::in_two_forms(file).iter().any(|bits| *bits > 53)
}

/// Whether 02, §9 says another thing of a file than refusal 2: its version is 2 and its mark is right.
fn has_dialect(file: &[u8]) -> bool {
    version(file) == Some(2) && judge(file).is_none_or(|(number, _)| number > 1)
}

fn lists(words: Words) -> Result<bool, String> {
    let (files, lists) = listed(&words)?;
    let (floats, dialect) = match words.text("--before") {
        None => (false, false),
        Some("dialect") => (false, true),
        Some("floats") => (words.has("--strict"), true),
        _ => return Err(USAGE.to_owned()),
    };
    let out = |file: &[u8]| floats && has_large_floats(file) || dialect && has_dialect(file);
    let kept = files.into_iter().zip(lists).filter(|(file, _)| !out(file));
    let (files, lists): (Vec<_>, Vec<_>) = kept.unzip();
    Ok(reported(with_lists(&words.sides()?, &files, &lists)))
}

fn wrong_numbers(words: Words) -> Result<bool, String> {
    let (files, lists) = listed(&words)?;
    let (right, report) = noticed(&files, &lists);
    print(report.as_bytes());
    Ok(right)
}

fn beside(words: Words) -> Result<bool, String> {
    if words.after.is_empty() {
        return Err(USAGE.to_owned());
    }
    let chunk = words.number("--chunk", 1000)?.max(1) as usize;
    let takes = match (words.has("--each"), words.has("--desk")) {
        (false, false) => Takes::Files,
        (true, false) => Takes::File,
        (false, true) => Takes::Requests,
        (true, true) => return Err(USAGE.to_owned()),
    };
    let program = Program { words: words.after.clone(), takes, keys: words.mode(), chunk };
    Ok(reported(against(&program, &words.sides()?, &words.files()?, !words.has("--as-found"))?))
}

fn record(words: Words) -> Result<bool, String> {
    let [folder] = words.rest.as_slice() else { return Err(USAGE.to_owned()) };
    let limits = Limits {
        seed: words.number("--seed", 7)?,
        count: words.number("--count", 20000)?,
        bytes: words.number("--bytes", 500000)? as usize,
    };
    print(recorded::write(&limits, Path::new(folder))?.as_bytes());
    Ok(true)
}
