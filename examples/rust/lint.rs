//! lint [FILE]: lints a tree file, or standard input, and prints what the desk's program prints of it: ten numbers for each
//! record, then the total; or the refusal's number and place, or `too long`.
//! Exit status: 0 no warning, 1 a warning, 2 refused or too long, a file that can't be read or written, or wrong use.

use std::env;
use std::ffi::OsString;
use std::fs::File;
use std::io::{self, Read, Write};
use std::process::ExitCode;

/// include/yudronkha.h; nothing but the version compares this declaration with it.
mod yudronkha {
    pub const VERSION: usize = 30100;
    pub const TREE_BYTES_MOST: usize = 149_515;
    pub const WORK_WORDS: usize = 32_768;
    pub const RECORD_WORDS: usize = 10;
    pub const REPORT_WORDS: usize = 18;
    const REFUSED_ANSWER_ROOM: usize = 11;
    const WARNING: usize = 1;

    #[cfg(not(all(target_arch = "x86_64", target_os = "linux", target_pointer_width = "64")))]
    compile_error!("liblint_c.a is code for x86-64 Linux with 64-bit pointers, and the target is another");

    extern "C" {
        fn yudronkha_version() -> usize;
        fn yudronkha_severity(code: usize) -> usize;
        fn yudronkha_lint(
            tree: *const u8,
            tree_len: usize,
            work: *mut u16,
            work_len: usize,
            answer: *mut u32,
            answer_len: usize,
            report: *mut usize,
            report_len: usize,
        ) -> usize;
    }

    pub fn version() -> usize {
        unsafe { yudronkha_version() }
    }

    /// Codes of severity disabled are no reason to turn a script down.
    pub fn is_warning(code: u32) -> bool {
        unsafe { yudronkha_severity(code as usize) == WARNING }
    }

    /// 0, or the number of the refusal. Safe: slices are all that the header asks of a caller, but for the stack.
    pub fn lint(tree: &[u8], work: &mut [u16], answer: &mut [u32], report: &mut [usize]) -> usize {
        unsafe {
            yudronkha_lint(
                tree.as_ptr(),
                tree.len(),
                work.as_mut_ptr(),
                work.len(),
                answer.as_mut_ptr(),
                answer.len(),
                report.as_mut_ptr(),
                report.len(),
            )
        }
    }

    /// The records, or the refusal's number and place.
    /// Starts with room for few records. Where that is refused, report[0] says how many there are, and the second call succeeds.
    pub fn lint_all(tree: &[u8]) -> Result<Vec<u32>, (usize, usize)> {
        let mut work = vec![0; WORK_WORDS];
        let mut report = [0; REPORT_WORDS];
        let mut answer = vec![0; 64 * RECORD_WORDS];
        loop {
            match lint(tree, &mut work, &mut answer, &mut report) {
                0 => {
                    answer.truncate(report[0] * RECORD_WORDS);
                    return Ok(answer);
                }
                REFUSED_ANSWER_ROOM => answer.resize(report[0] * RECORD_WORDS, 0),
                number => return Err((number, report[0])),
            }
        }
    }
}

/// A refusal must never look like a clean script, so trouble has a status of its own.
const CLEAN: u8 = 0;
const FOUND: u8 = 1;
const TROUBLE: u8 = 2;

/// At most one byte more than a valid tree has, to see that there is one.
fn read(name: Option<&OsString>) -> io::Result<Vec<u8>> {
    let most = yudronkha::TREE_BYTES_MOST as u64 + 1;
    let mut tree = Vec::new();
    match name {
        Some(name) => File::open(name)?.take(most).read_to_end(&mut tree)?,
        None => io::stdin().take(most).read_to_end(&mut tree)?,
    };
    Ok(tree)
}

fn print(answer: &[u32], out: &mut impl Write) -> io::Result<()> {
    for record in answer.chunks(yudronkha::RECORD_WORDS) {
        let words: Vec<String> = record.iter().map(u32::to_string).collect();
        writeln!(out, "{}", words.join(" "))?;
    }
    writeln!(out, "total {}", answer.len() / yudronkha::RECORD_WORDS)
}

fn lint(tree: &[u8], out: &mut impl Write) -> io::Result<u8> {
    if tree.len() > yudronkha::TREE_BYTES_MOST {
        writeln!(out, "too long")?;
        return Ok(TROUBLE);
    }
    match yudronkha::lint_all(tree) {
        Ok(answer) => {
            print(&answer, out)?;
            let warned =
                answer.chunks(yudronkha::RECORD_WORDS).any(|record| yudronkha::is_warning(record[0]));
            Ok(if warned { FOUND } else { CLEAN })
        }
        Err((number, place)) => {
            writeln!(out, "refused {number} {place}")?;
            Ok(TROUBLE)
        }
    }
}

fn run() -> Result<u8, String> {
    let words: Vec<OsString> = env::args_os().skip(1).collect();
    if words.len() > 1 || words.iter().any(|word| word.to_string_lossy().starts_with('-')) {
        return Err("usage: lint [FILE]".to_string());
    }
    let (here, there) = (yudronkha::VERSION, yudronkha::version());
    if here != there {
        return Err(format!("this program is for version {here} of the library, which is of {there}"));
    }
    let name = words.first();
    let shown = name.map_or("standard input".into(), |name| name.to_string_lossy());
    let tree = read(name).map_err(|why| format!("{shown}: {why}"))?;
    let mut out = io::BufWriter::new(io::stdout().lock());
    let status = lint(&tree, &mut out).and_then(|status| out.flush().map(|()| status));
    status.map_err(|why| format!("standard output: {why}"))
}

fn main() -> ExitCode {
    ExitCode::from(run().unwrap_or_else(|why| {
        eprintln!("lint: {why}");
        TROUBLE
    }))
}
