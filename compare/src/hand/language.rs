//! Scripts on which the Starlark language document and the lint part, as far as
//! known; docs/DIFFERENCES.md tells them.
use super::build::*;
use super::{made, Made};
use crate::tree::{Node, Tree};

/// An operator's call, as -1 is one.
fn minus(n: u128) -> Node {
    Node::new(33, 0, vec![int(n)])
}

fn print_of(x: &str) -> Node {
    call_of("print", vec![id(x)])
}

pub fn files() -> Vec<Made> {
    let mut out = keys();
    out.extend(top());
    out.extend(loops());
    out.extend(runs());
    out
}

fn keys() -> Vec<Made> {
    let large = 9007199254740992;
    vec![
        made(
            "language: keys 9007199254740992 in both forms",
            list(vec![dict_of(vec![int(large), float(large as f64)])]),
        ),
        made(
            "language: keys 9007199254740992 in both forms, the float first",
            list(vec![dict_of(vec![float(large as f64), int(large)])]),
        ),
        made("language: keys -1, -1", list(vec![dict_of(vec![minus(1), minus(1)])])),
        made(
            "language: keys (1,), (1,)",
            list(vec![dict_of(vec![tuple(vec![int(1)]), tuple(vec![int(1)])])]),
        ),
        made("language: keys x, y", list(vec![dict_of(vec![id("x"), id("y")])])),
    ]
}

fn top() -> Vec<Made> {
    vec![
        made(
            "language: if c: x = 1; print(x)",
            list(vec![when(id("c"), vec![set("x", int(1))]), print_of("x")]),
        ),
        made("language: if c: load(\"m\", \"x\")", list(vec![when(id("c"), vec![load(&["x"])])])),
        made("language: x = 1; x += 1", list(vec![set("x", int(1)), modify(name("x"), int(1))])),
        made("language: load(\"m\", \"x\"); x = x", list(vec![load(&["x"]), set("x", id("x"))])),
        made("language: break at the top", list(vec![stop(), pass()])),
    ]
}

fn loops() -> Vec<Made> {
    let after = |over: Node| {
        let body = vec![each("x", over, vec![pass()]), print_of("x")];
        list(vec![def("f", vec![], None, body)])
    };
    let comprehension = list_comp(id("x"), vec![for_clause(name("x"), id("xs"))]);
    let mut tree = spanned(Tree::new(list(vec![say(comprehension), print_of("x")])));
    tree.globals = Some(vec![b"print".to_vec(), b"xs".to_vec()]);
    vec![
        made("language: def f(): for x in []: pass; print(x)", after(Node::new(28, 0, vec![]))),
        made("language: def f(): for x in [1]: pass; print(x)", after(Node::new(28, 0, vec![int(1)]))),
        Made { how: "language: [x for x in xs]; print(x), globals given".to_owned(), file: tree.bytes() },
    ]
}

fn runs() -> Vec<Made> {
    let later = vec![
        when(id("c"), vec![set("x", int(1))]),
        def("f", vec![], None, vec![give(id("x"))]),
        set("x", int(2)),
        call_of("f", vec![]),
    ];
    let another = vec![
        def("fail", vec![], None, vec![pass()]),
        def("f", vec![], None, vec![call_of("fail", vec![]), call_of("g", vec![])]),
    ];
    vec![
        made("language: if c: x = 1; def f(): return x; x = 2; f()", list(later)),
        made("language: def fail(): pass; def f(): fail(); g()", list(another)),
        made("language: type(x) == int", list(vec![say(equal(call(id("type"), vec![id("x")]), id("int")))])),
    ]
}
