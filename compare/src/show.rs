//! A file for the eye: its nodes by name, its values, its globals.
use crate::file::{File, NONE};
use crate::judge::refusal;
use crate::kinds;
use std::fmt::Write;

fn text(kind: u8, bytes: &[u8]) -> String {
    match kind {
        0 => bytes.escape_ascii().to_string(),
        1 => format!("\"{}\"", bytes.escape_ascii()),
        2 => format!("b\"{}\"", bytes.escape_ascii()),
        3 if bytes.len() <= 16 => bytes.iter().fold(0u128, |n, b| n << 8 | u128::from(*b)).to_string(),
        4 if bytes.len() == 8 => {
            let float = f64::from_bits(u64::from_le_bytes(bytes.try_into().unwrap()));
            format!("{float:?}")
        }
        3 => {
            let digits: String = bytes.iter().map(|b| format!("{b:02x}")).collect();
            format!("0x{digits}")
        }
        _ => format!("kind {kind} {bytes:?}"),
    }
}

pub fn show(bytes: &[u8]) -> String {
    let mut out = format!("{} bytes", bytes.len());
    let Some(file) = File::read(bytes) else {
        return out + ", the sections don't fill them\n";
    };
    let (version, [nodes, values, globals]) = (file.version, file.counts);
    writeln!(out, ", version {version}, {nodes} nodes, {values} values, globals {globals}").unwrap();
    // Ends of the nodes that are still open: their count is the depth.
    let mut open: Vec<usize> = Vec::new();
    for (i, x) in file.nodes.iter().enumerate() {
        open.retain(|end| *end > i);
        let name = kinds::of(x.kind).map_or("?", |k| k.name);
        let value = match file.values.get(usize::from(x.value)) {
            Some(v) => format!(" {}", text(v.kind, &v.bytes)),
            None if x.value == NONE => String::new(),
            None => format!(" value {}", x.value),
        };
        let zero = if x.zero == 0 { String::new() } else { format!(" last field {}", x.zero) };
        let indent = "  ".repeat(open.len());
        let (kind, role, size) = (x.kind, x.role, x.size);
        writeln!(out, "{i:4} {indent}{name} {kind}/{role} [{}..{}]{value} size {size}{zero}", x.begin, x.end)
            .unwrap();
        open.push(i + usize::from(x.size));
    }
    for (i, v) in file.values.iter().enumerate() {
        writeln!(out, "value {i}: {} {}", v.kind, text(v.kind, &v.bytes)).unwrap();
    }
    if globals != NONE {
        writeln!(out, "globals: {:?}", file.globals).unwrap();
    }
    if let Some(r) = refusal(bytes) {
        writeln!(out, "refused {} {}: {}", r.number, r.place, r.why).unwrap();
    }
    out
}
