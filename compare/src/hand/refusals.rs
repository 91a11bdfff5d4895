//! Files that are refused, one for each reading of the table of refusals.
use super::build::*;
use super::Made;
use crate::file::{File, NONE};
use crate::tree::Tree;

/// A small tree with a change.
pub fn damaged(how: &str, change: &dyn Fn(&mut File)) -> Made {
    let mut file = spanned(Tree::new(list(vec![set("x", int(1)), use_of("x")]))).file();
    change(&mut file);
    Made { how: format!("refusal: {how}"), file: file.bytes() }
}

pub fn files() -> Vec<Made> {
    let outside = |sizes: [u16; 4]| {
        let mut file = Tree::new(list(vec![])).file();
        file.nodes = sizes.map(|size| crate::file::Node { size, ..file.nodes[0].clone() }).to_vec();
        file.recount();
        Made { how: format!("refusal: nodes of kind 8 with sizes {sizes:?}"), file: file.bytes() }
    };
    vec![
        outside([1, 2, 2, 1]),
        outside([1, 1, 2, 2]),
        outside([2, 2, 1, 1]),
        outside([4, 3, 3, 1]),
        damaged("mark in small letters", &|f| f.mark = *b"slt"),
        damaged("a length one too great", &|f| f.values[0].length += 1),
        damaged("one value too many in the head", &|f| f.counts[1] += 1),
        damaged("globals in the head, none behind", &|f| f.counts[2] = 1),
        damaged("values swapped", &|f| f.values.swap(0, 1)),
        damaged("a value twice", &|f| {
            f.values.insert(0, f.values[0].clone());
            f.recount()
        }),
        damaged("a wrong value and a wrong node: 5 first", &|f| {
            f.values[2].kind = 9;
            f.nodes[0].kind = 99
        }),
        damaged("two wrong nodes: the lower", &|f| {
            f.nodes[3].zero = 1;
            f.nodes[2].begin = 100
        }),
        damaged("the root's kind no statement's", &|f| f.nodes[0].kind = 28),
        damaged("the root's role", &|f| f.nodes[0].role = 1),
        damaged("a name's node without a value", &|f| f.nodes[2].value = NONE),
        damaged("a list with a value", &|f| f.nodes[0].value = 0),
        damaged("a name's value for a literal", &|f| f.nodes[3].value = 0),
        damaged("a value number just beyond", &|f| f.nodes[2].value = f.counts[1]),
        damaged("global 65535", &|f| {
            f.globals = vec![0, 65535];
            f.counts[2] = 2
        }),
        damaged("a global that is an integer", &|f| {
            f.globals = vec![2];
            f.counts[2] = 1
        }),
        damaged("globals that don't ascend", &|f| {
            f.globals = vec![0, 1, 1];
            f.counts[2] = 3
        }),
    ]
}
