//! Each limit at its number and one past it.
use super::build::*;
use super::{made, Made};
use crate::file::File;
use crate::tree::{Node, Tree};

pub fn files() -> Vec<Made> {
    let mut out = Vec::new();
    for nodes in [1024, 1025] {
        out.push(made(&format!("limit: {nodes} nodes"), list((1..nodes).map(|_| pass()).collect())));
    }
    for depth in [48, 49] {
        let inner = (2..depth).fold(pass(), |x, _| list(vec![x]));
        out.push(made(&format!("limit: depth {depth} of lists"), list(vec![inner])));
        let inner = (3..depth).fold(id("x"), |x, _| tuple(vec![x]));
        out.push(made(&format!("limit: depth {depth} of tuples"), list(vec![say(inner)])));
    }
    for values in [512, 513] {
        let mut tree = Tree::new(list(vec![]));
        tree.spare = (0..values).map(|i| crate::make::integer(i)).collect();
        out.push(file(&format!("limit: {values} values"), &tree));
    }
    for globals in [512, 513] {
        let names: Vec<Vec<u8>> = (0..globals).map(|i| format!("n{i}").into_bytes()).collect();
        let mut tree = spanned(Tree::new(list(vec![say(id("n7")), say(id("m"))])));
        // The name m makes one value too many; it goes where the globals are full.
        if globals >= 512 {
            tree.root.children.truncate(1);
        }
        tree.globals = Some(names);
        out.push(file(&format!("limit: {globals} globals"), &tree));
    }
    out.extend(counts());
    out.extend(lengths());
    out.extend(many_records());
    out
}

fn file(how: &str, tree: &Tree) -> Made {
    Made { how: how.to_owned(), file: tree.bytes() }
}

/// Counts in the head that nothing behind them bears out.
fn counts() -> Vec<Made> {
    let head = |how: &str, counts: [u16; 3]| {
        let mut file = Tree::new(list(vec![])).file();
        file.counts = counts;
        Made { how: how.to_owned(), file: file.bytes() }
    };
    vec![
        head("limit: 0 nodes", [0, 0, 65535]),
        head("limit: 513 values in the head", [1, 513, 65535]),
        head("limit: 513 globals in the head", [1, 0, 513]),
        head("limit: 65534 globals in the head", [1, 0, 65534]),
        head("limit: 512 globals in the head, none behind", [1, 0, 512]),
    ]
}

fn lengths() -> Vec<Made> {
    let mut out = Vec::new();
    for length in [255, 256] {
        for kind in [0, 1, 2] {
            let mut tree = Tree::new(list(vec![]));
            tree.spare = vec![(kind, vec![b'q'; length])];
            out.push(file(&format!("limit: a value of kind {kind} with {length} bytes"), &tree));
        }
    }
    for length in [64, 65] {
        let keys = || Node::with(21, 0, (3, vec![255; length]));
        out.push(made(&format!("limit: keys of {length} bytes"), list(vec![dict_of(vec![keys(), keys()])])));
    }
    let short: &[u8] = b"SLT\x01\x00\x01\x00\x00\x00\xff";
    out.push(Made { how: "limit: ten bytes".to_owned(), file: short.to_vec() });
    out.push(Made { how: "limit: no bytes".to_owned(), file: vec![] });
    out
}

/// The most records that are known: one load of 1,023 equal names at the root.
fn many_records() -> Vec<Made> {
    let root = load(&["x"; 1023]);
    let mut file: File = spanned(Tree::new(root)).file();
    // Short spans keep the list short; all different, so that nothing is warned once.
    for (i, x) in file.nodes.iter_mut().enumerate().skip(1) {
        (x.begin, x.end) = (0, i as u32);
    }
    let keys = (0..60).map(|_| int(1)).collect();
    vec![
        Made { how: "limit: a load of 1,023 equal names, 2,045 records".to_owned(), file: file.bytes() },
        made("many: 60 equal keys", dict_of(keys)),
    ]
}
