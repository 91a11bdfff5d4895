//! Files made by hand, each with a name: document 01's known lists, its example,
//! its easy errors, its limits, and the readings taken of it.
mod build;
mod dialect;
mod floats;
mod flow;
mod language;
mod limits;
mod names;
mod nodes;
mod others;
mod refusals;
pub mod sized;

use crate::tree::{Node, Tree};
use build::*;

pub struct Made {
    pub how: String,
    pub file: Vec<u8>,
}

fn made(how: &str, root: Node) -> Made {
    Made { how: how.to_owned(), file: spanned(Tree::new(root)).bytes() }
}

pub fn files() -> Vec<Made> {
    let mut out = known();
    out.extend(example());
    out.extend(easy_errors());
    out.extend(names::files());
    out.extend(flow::files());
    out.extend(others::files());
    out.extend(floats::files());
    out.extend(dialect::files());
    out.extend(nodes::files());
    out.extend(language::files());
    out.extend(refusals::files());
    out.extend(limits::files());
    out
}

/// The starred lists of document 01; globals aren't given.
fn known() -> Vec<Made> {
    let looped = each("i", id("xs"), vec![call_of("print", vec![id("a")]), set("a", int(1))]);
    let sides = either(id("c"), vec![set("x", int(1)), bare()], vec![bare()]);
    let inside = when(id("c"), vec![give(int(1))]);
    vec![
        made("known 1: empty statements root", list(vec![])),
        made("known 2: for i in xs with print(a), a = 1 inside", list(vec![looped])),
        made(
            "known 3: in a def, if c: x = 1, return; else: return; then use(x)",
            list(vec![def("d", vec![], None, vec![sides, call_of("use", vec![id("x")])])]),
        ),
        made("known 4: x = 1, x = 2", list(vec![set("x", int(1)), set("x", int(2))])),
        made("known 5: keys 1, 1.0, 1", list(vec![dict_of(vec![int(1), float(1.0), int(1)])])),
        made("known 6: keys 10000000000, 1e10", list(vec![dict_of(vec![int(10000000000), float(1e10)])])),
        made("known 7: load x, x = x, x = x", list(vec![load(&["x"]), set("x", id("x")), set("x", id("x"))])),
        made(
            "known 8: def g() -> None with return 1 only inside an if",
            list(vec![def("g", vec![], Some(id("None")), vec![inside])]),
        ),
    ]
}

/// The example of 47 bytes; `no globals` may be either count.
fn example() -> Vec<Made> {
    let statement = Node { span: (0, 1), ..Node::new(5, 0, vec![]) };
    let literal = Node { span: (0, 1), ..Node::with(21, 4, (3, vec![1])) };
    let root = Node { children: vec![literal], ..statement };
    let not_given = Tree::new(root);
    let none = Tree { globals: Some(vec![]), ..not_given.clone() };
    vec![
        Made { how: "the example of 47 bytes, globals 65535".to_owned(), file: not_given.bytes() },
        Made { how: "the example of 47 bytes, globals 0".to_owned(), file: none.bytes() },
    ]
}

fn easy_errors() -> Vec<Made> {
    let keys = ["k", "k", "k", "k"].map(text).to_vec();
    let before_loop = |inside: Node| {
        either(id("c"), vec![bare(), each("i", id("xs"), vec![inside])], vec![set("x", int(1))])
    };
    let use_x = || use_of("x");
    let sides = |a: Node, b: Node| either(id("c"), vec![set("x", int(1)), a], vec![b]);
    vec![
        made("easy error: four equal keys", list(vec![dict_of(keys)])),
        made(
            "easy error: a function abort from before a loop stays after it",
            list(vec![def("d", vec![], None, vec![before_loop(pass()), use_x()])]),
        ),
        made(
            "a break in a loop replaces the function abort from before it",
            list(vec![def("d", vec![], None, vec![before_loop(stop()), use_x()])]),
        ),
        made(
            "a return in a loop leaves the function abort from before it",
            list(vec![def("d", vec![], None, vec![before_loop(bare()), use_x()])]),
        ),
        made(
            "both sides' settings are used",
            list(vec![def(
                "d",
                vec![],
                None,
                vec![
                    either(id("c"), vec![set("x", int(1))], vec![set("x", int(2))]),
                    when(id("c"), vec![set("x", int(3))]),
                    use_x(),
                ],
            )]),
        ),
        made(
            "two aborting sides make Maybe Definitely",
            list(vec![def(
                "d",
                vec![],
                None,
                vec![
                    when(id("c"), vec![set("x", int(1))]),
                    either(id("c"), vec![bare()], vec![bare()]),
                    use_x(),
                ],
            )]),
        ),
        made(
            "easy error: two aborting sides, one setting x",
            list(vec![each("i", id("xs"), vec![sides(stop(), go_on()), use_x()])]),
        ),
        made(
            "easy error: one aborting side",
            list(vec![each("i", id("xs"), vec![sides(pass(), go_on()), use_x()])]),
        ),
        made(
            "easy error: the other side aborting",
            list(vec![each("i", id("xs"), vec![sides(go_on(), pass()), use_x()])]),
        ),
    ]
}
