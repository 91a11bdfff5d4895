//! Trees for measuring: one sort of script at growing numbers of nodes.
use super::build::*;
use super::{made, Made};
use crate::tree::Node;

const SIZES: [usize; 5] = [64, 128, 256, 512, 1024];

pub fn files(sort: &str) -> Option<Vec<Made>> {
    let of = |make: fn(usize) -> Node| Some(SIZES.iter().map(|n| made(sort, make(*n))).collect());
    match sort {
        "straight" => of(straight),
        "loops" => of(loops),
        "dicts" => of(dicts),
        "names" => of(names),
        _ => None,
    }
}

/// As many of the parts as go into a list of so many nodes.
fn filled(nodes: usize, part: impl Fn(usize) -> Node) -> Vec<Node> {
    let room = nodes / part(0).size();
    (0..room).map(part).collect()
}

/// A def that sets one of four names from another, over and over, and gives the last.
fn straight(nodes: usize) -> Node {
    let step = |i: usize| {
        let [x, y] = [i, i + 3].map(|k| format!("v{}", k % 4));
        set(&x, call(id("f"), vec![id(&y), int(1)]))
    };
    let mut body = filled(nodes - 8, step);
    body.push(give(id("v0")));
    list(vec![def("d", vec![], None, body)])
}

/// Five loops in one another, the inmost of which uses and sets; as often as there is room.
fn loops(nodes: usize) -> Node {
    let nest = |i: usize| {
        let inmost = set("a", call(id("f"), vec![id("a"), id(&format!("i{}", i % 8))]));
        (0..5).fold(inmost, |x, _| each(&format!("i{}", i % 8), id("xs"), vec![x]))
    };
    list(filled(nodes - 1, nest))
}

/// One dict with different keys: integers, strings and names by turns.
fn dicts(nodes: usize) -> Node {
    let key = |i: usize| match i % 3 {
        0 => int(i as u128),
        1 => text(&format!("k{i}")),
        _ => id(&format!("n{i}")),
    };
    list(vec![dict_of((0..(nodes - 3) / 2).map(key).collect())])
}

/// A def that sets as many names, and then uses each.
fn names(nodes: usize) -> Node {
    let count = (nodes - 6) / 7;
    let named = |i: usize| format!("n{i}");
    let sets = (0..count).map(|i| set(&named(i), int(1)));
    let uses = (0..count).map(|i| use_of(&named(i)));
    list(vec![def("d", vec![], None, sets.chain(uses).collect())])
}
