//! Many files in one: each its length as 32 bits, little-endian, then its bytes.
//! Many listings in one: a line `--` after each.
use std::io::{self, Read, Write};
use std::path::Path;

pub fn split(mut bytes: &[u8]) -> Result<Vec<Vec<u8>>, String> {
    let mut out = Vec::new();
    while !bytes.is_empty() {
        let (length, rest) = bytes.split_first_chunk::<4>().ok_or("a length is cut short")?;
        let length = u32::from_le_bytes(*length) as usize;
        out.push(rest.get(..length).ok_or("a file is cut short")?.to_vec());
        bytes = &rest[length..];
    }
    Ok(out)
}

fn joined(files: &[Vec<u8>], head: impl Fn(&[u8]) -> Vec<u8>) -> Vec<u8> {
    files.iter().flat_map(|file| [head(file), file.clone()].concat()).collect()
}

fn length(file: &[u8]) -> [u8; 4] {
    (file.len() as u32).to_le_bytes()
}

pub fn join(files: &[Vec<u8>]) -> Vec<u8> {
    joined(files, |file| length(file).to_vec())
}

/// Requests to the program desk: before each file's length what is asked of it.
pub fn requests(files: &[Vec<u8>], choices: u32) -> Vec<u8> {
    joined(files, |file| [choices.to_le_bytes(), length(file)].concat())
}

/// Each listing with its own lines, the `--` taken away.
pub fn split_lists(text: &str) -> Vec<String> {
    let mut out = Vec::new();
    let mut rest = text;
    while let Some(at) = find_end(rest) {
        out.push(rest[..at].to_owned());
        rest = &rest[at + 3..];
    }
    out
}

fn find_end(text: &str) -> Option<usize> {
    if text.starts_with("--\n") {
        Some(0)
    } else {
        text.find("\n--\n").map(|at| at + 1)
    }
}

pub fn read(path: &Path) -> Result<Vec<Vec<u8>>, String> {
    let bytes = std::fs::read(path).map_err(|e| format!("{}: {e}", path.display()))?;
    split(&bytes).map_err(|e| format!("{}: {e}", path.display()))
}

pub fn read_lists(path: &Path) -> Result<Vec<String>, String> {
    let text = std::fs::read_to_string(path).map_err(|e| format!("{}: {e}", path.display()))?;
    Ok(split_lists(&text))
}

pub fn input() -> Vec<u8> {
    let mut out = Vec::new();
    io::stdin().lock().read_to_end(&mut out).expect("standard input");
    out
}

/// A reader that goes away early is no fault.
pub fn print(bytes: &[u8]) {
    let _ = io::stdout().lock().write_all(bytes);
}

/// Many small pieces.
pub fn print_all(pieces: impl Iterator<Item = Vec<u8>>) {
    let mut out = io::BufWriter::with_capacity(1 << 20, io::stdout().lock());
    for piece in pieces {
        if out.write_all(&piece).is_err() {
            return;
        }
    }
    let _ = out.flush();
}
