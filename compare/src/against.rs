//! The Rust, or document 01's rules, beside another program that speaks 01's listing or
//! beside lists already written; the smallest file that differs is shown.
use crate::batch;
use crate::listing::{Extent, Source};
use crate::reduce::reduced;
use crate::rules::Mode;
use crate::show::show;
use std::io::{Read, Write};
use std::process::{Command, Stdio};

/// The choice of strict keys in a request.
const STRICT: u32 = 1;

/// What lists are held against.
#[derive(Clone, Copy)]
pub struct Side {
    source: Source,
    extent: Extent,
}

impl Side {
    pub const RUST: Side = Side { source: Source::Rust, extent: Extent::Rust };

    pub fn rules(mode: Mode) -> Side {
        Side { source: Source::Rules(mode), extent: Extent::Whole }
    }

    /// The same beside lists of document 01 alone.
    pub fn eight(self) -> Side {
        Side { extent: Extent::Eight, ..self }
    }

    pub fn name(self) -> &'static str {
        match self.source {
            Source::Rust => "the Rust",
            Source::Rules(_) => "document 01's rules",
        }
    }

    /// Its own list, with room for any.
    pub fn list(self, file: &[u8]) -> String {
        self.source.answer(file, None)
    }

    /// Whether two lists of a file are the same in what it says.
    pub fn agrees(self, file: &[u8], own: &str, other: &str) -> bool {
        let said = |list| self.extent.of(&self.source.part_of(file, list));
        said(own) == said(other)
    }
}

/// What a program takes on standard input.
#[derive(Clone, Copy, PartialEq)]
pub enum Takes {
    /// One file at each start, as document 01's listing program.
    File,
    /// Many, each after its length, as `compare list --batch`.
    Files,
    /// Requests, as the program desk.
    Requests,
}

/// A program, and how it is asked.
pub struct Program {
    pub words: Vec<String>,
    pub takes: Takes,
    /// The keys of its lists; only a request asks for them, other programs have one sort.
    pub keys: Mode,
    /// Files for one start of a program that takes many.
    pub chunk: usize,
}

impl Program {
    fn run(&self, input: Vec<u8>) -> Result<String, String> {
        let failed = |e: std::io::Error| format!("{}: {e}", self.words[0]);
        let mut child = Command::new(&self.words[0])
            .args(&self.words[1..])
            .stdin(Stdio::piped())
            .stdout(Stdio::piped())
            .spawn()
            .map_err(failed)?;
        let mut to = child.stdin.take().expect("piped");
        // Written beside the reading; a program that reads no further is no fault here.
        let writer = std::thread::spawn(move || drop(to.write_all(&input)));
        let mut out = Vec::new();
        child.stdout.take().expect("piped").read_to_end(&mut out).map_err(failed)?;
        writer.join().expect("the writer");
        child.wait().map_err(failed)?;
        Ok(String::from_utf8_lossy(&out).into_owned())
    }

    /// Its listing for each file.
    pub fn lists(&self, files: &[Vec<u8>]) -> Result<Vec<String>, String> {
        if self.takes == Takes::File {
            return files.iter().map(|f| self.run(f.clone())).collect();
        }
        let mut out: Vec<String> = Vec::new();
        while out.len() < files.len() {
            let part = &files[out.len()..files.len().min(out.len() + self.chunk)];
            let mut lists = batch::split_lists(&self.run(self.joined(part))?);
            lists.truncate(part.len());
            // Where it stopped it has no answer; the rest goes to a new start.
            if lists.len() < part.len() {
                lists.push("no answer\n".to_owned());
            }
            out.extend(lists);
        }
        Ok(out)
    }

    fn joined(&self, files: &[Vec<u8>]) -> Vec<u8> {
        match (self.takes, self.keys) {
            (Takes::Requests, Mode::Ordinary) => batch::requests(files, 0),
            (Takes::Requests, Mode::Strict) => batch::requests(files, STRICT),
            _ => batch::join(files),
        }
    }

    fn wanted(&self, source: Source, file: &[u8]) -> String {
        match self.takes {
            Takes::File => source.listing(file, None),
            Takes::Files => source.answer(file, None),
            Takes::Requests => source.desk(file),
        }
    }
}

/// What differs from a side, counted, with the smallest.
pub struct Differences {
    side: Side,
    files: usize,
    count: usize,
    smallest: Option<(Vec<u8>, String, String)>,
}

/// Nodes as written, then bytes.
pub fn measure(file: &[u8]) -> (usize, usize) {
    let nodes = file.get(5..7).map_or(0, |b| usize::from(u16::from_le_bytes([b[0], b[1]])));
    (nodes, file.len())
}

impl Differences {
    fn new(side: Side) -> Differences {
        Differences { side, files: 0, count: 0, smallest: None }
    }

    fn add(&mut self, file: &[u8], own: &str, other: &str) {
        self.files += 1;
        if self.side.agrees(file, own, other) {
            return;
        }
        self.count += 1;
        let smaller = |s: &(Vec<u8>, String, String)| measure(file) < measure(&s.0);
        if self.smallest.as_ref().is_none_or(smaller) {
            self.smallest = Some((file.to_vec(), own.to_owned(), other.to_owned()));
        }
    }

    pub fn none(&self) -> bool {
        self.count == 0
    }

    pub fn report(&self) -> String {
        let name = self.side.name();
        let mut out = format!("{name}: {} files, {} differ\n", self.files, self.count);
        if let Some((file, own, other)) = &self.smallest {
            out += &format!("the smallest:\n{}{name}:\n{own}the other:\n{other}", show(file));
        }
        out
    }

    /// Cuts the smallest down while the two still differ on it.
    fn reduce(&mut self, program: &Program) -> Result<(), String> {
        let Some((file, ..)) = self.smallest.take() else { return Ok(()) };
        let side = self.side;
        let file = reduced(file, |files| {
            let lists = program.lists(files)?;
            let differ = |(f, l): (&Vec<u8>, String)| !side.agrees(f, &program.wanted(side.source, f), &l);
            Ok(files.iter().zip(lists).map(differ).collect())
        })?;
        let other = program.lists(std::slice::from_ref(&file))?.remove(0);
        self.smallest = Some((file.clone(), program.wanted(side.source, &file), other));
        Ok(())
    }
}

/// Each side beside a program, from one run of it over the files.
pub fn against(
    program: &Program,
    sides: &[Side],
    files: &[Vec<u8>],
    reduce: bool,
) -> Result<Vec<Differences>, String> {
    let lists = program.lists(files)?;
    let beside = |side: &Side| {
        let mut found = Differences::new(*side);
        files.iter().zip(&lists).for_each(|(f, l)| found.add(f, &program.wanted(side.source, f), l));
        if reduce {
            found.reduce(program)?;
        }
        Ok(found)
    };
    sides.iter().map(beside).collect()
}

/// Each side beside the files' lists.
pub fn with_lists(sides: &[Side], files: &[Vec<u8>], lists: &[String]) -> Vec<Differences> {
    let beside = |side: &Side| {
        let mut found = Differences::new(*side);
        files.iter().zip(lists).for_each(|(f, l)| found.add(f, &side.list(f), l));
        found
    };
    sides.iter().map(beside).collect()
}
