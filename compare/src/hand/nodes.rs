//! Which node a record has where nodes share a span (02, §4).
use super::build::*;
use super::Made;
use crate::tree::{Node, Tree};

pub fn files() -> Vec<Made> {
    let mut out = first_met();
    out.push(warned_later());
    out.push(every_code());
    out
}

/// As a text has its spans, but for these nodes, which stand on one. Globals are given, and there are none.
fn together(how: &str, script: Vec<Node>, these: fn(&Node) -> bool) -> Made {
    let mut tree = spanned(Tree { globals: Some(vec![]), ..Tree::new(list(script)) });
    tree.root.each_mut(&mut |x| {
        if these(x) {
            x.span = (0, 1);
        }
    });
    Made { how: format!("nodes: {how}"), file: tree.bytes() }
}

fn swapped(mut x: Node, a: usize, b: usize) -> Node {
    x.children.swap(a, b);
    x
}

fn x() -> Node {
    id("x")
}

/// Every x on one span: the record of x has the one that the walk meets first, mostly not the file's first.
fn first_met() -> Vec<Made> {
    let mut out = statements();
    out.extend(comprehensions());
    let is_x = |n: &Node| n.value == Some((0, b"x".to_vec()));
    out.into_iter().map(|(how, script)| together(how, script, is_x)).collect()
}

type Script = (&'static str, Vec<Node>);

fn statements() -> Vec<Script> {
    let indexed = || several(vec![name("x"), part(vec![x()])]);
    let sides = either(id("c"), vec![use_of("x")], vec![set("y", x())]);
    vec![
        ("an assign's type, its value, its name", vec![assign_typed(name("x"), x(), x())]),
        ("an assign's value before its name", vec![set("x", x())]),
        ("an assign's value before its index", vec![assign(part(vec![x()]), x())]),
        ("an assign's index before its name", vec![assign(indexed(), int(1))]),
        ("an assign-modify's value before its name", vec![modify(name("x"), x())]),
        ("an assign-modify's value before its index", vec![modify(part(vec![x()]), x())]),
        ("an assign-modify's index before its name", vec![modify(indexed(), int(1))]),
        ("an assign-modify's name as a use", vec![modify(name("x"), id("y")), use_of("x")]),
        (
            "a default, a return type, a def's name",
            vec![def("x", vec![param("p", vec![x()])], Some(x()), vec![])],
        ),
        ("a return type before a def's name", vec![def("x", vec![], Some(x()), vec![give(x())])]),
        ("a def's name before its parameters", vec![def("x", vec![param("x", vec![])], None, vec![])]),
        (
            "a def's parameters before its body",
            vec![def("f", vec![param("x", vec![])], None, vec![set("x", x())]), use_of("x")],
        ),
        ("a lambda's default before its argument", vec![say(lambda(vec![param("x", vec![x()])], id("y")))]),
        (
            "a lambda's argument before its body",
            vec![say(swapped(lambda(vec![param("x", vec![])], x()), 0, 1)), use_of("x")],
        ),
        ("a for's over before its name", vec![each("x", x(), vec![use_of("x")])]),
        ("a for's over before its index", vec![each_of(part(vec![x()]), x(), vec![pass()])]),
        ("a for's index before its name", vec![each_of(indexed(), id("xs"), vec![pass()])]),
        (
            "a for's name before its body",
            vec![swapped(each("x", id("xs"), vec![use_of("x")]), 0, 2), use_of("x")],
        ),
        (
            "the first round of a loop",
            vec![each("i", id("xs"), vec![use_of("x"), set("x", int(1)), use_of("x")])],
        ),
        ("role 1 before role 2", vec![swapped(sides, 1, 2)]),
        ("a condition before its body", vec![swapped(when(x(), vec![use_of("x")]), 0, 1)]),
        (
            "a condition before its sides",
            vec![swapped(either(x(), vec![use_of("x")], vec![use_of("x")]), 0, 2)],
        ),
        ("a load before a use", vec![load(&["x", "x"]), def("f", vec![], None, vec![set("x", x())])]),
    ]
}

fn comprehensions() -> Vec<Script> {
    let first = || for_clause(name("k"), id("xs"));
    let over_x = || for_clause(name("x"), x());
    let sets_x = || for_clause(name("x"), id("xs"));
    let indexed = || for_clause(several(vec![name("x"), part(vec![x()])]), id("xs"));
    vec![
        ("a comprehension's over, its name, its result", vec![say(list_comp(x(), vec![over_x()]))]),
        ("a comprehension's name before its result", vec![say(list_comp(x(), vec![sets_x()])), use_of("x")]),
        (
            "a dict comprehension's over before its name",
            vec![say(dict_comp(id("y"), id("y"), vec![over_x()]))],
        ),
        (
            "a comprehension's name before its key",
            vec![say(dict_comp(x(), id("y"), vec![sets_x()])), use_of("x")],
        ),
        (
            "a comprehension's key before its result",
            vec![say(swapped(dict_comp(x(), x(), vec![first()]), 0, 1))],
        ),
        ("a comprehension's index before its name", vec![say(list_comp(id("y"), vec![indexed()]))]),
        ("a later clause's over before its name", vec![say(list_comp(id("y"), vec![first(), over_x()]))]),
        (
            "a later clause's over before its index",
            vec![say(list_comp(id("y"), vec![first(), for_clause(part(vec![x()]), x())]))],
        ),
        ("a later clause's index before its name", vec![say(list_comp(id("y"), vec![first(), indexed()]))]),
    ]
}

/// The first use of a is no fault, the second is; they share a span.
fn warned_later() -> Made {
    let maybe = vec![when(id("c"), vec![set("a", int(1))]), use_of("a")];
    let script =
        vec![def("f", vec![param("a", vec![])], None, vec![use_of("a")]), def("g", vec![], None, maybe)];
    let uses = |n: &Node| n.kind == 20 && n.value == Some((0, b"a".to_vec()));
    together("another use than the one that is warned", script, uses)
}

/// Each code from 7 on, twice or more, all nodes on one span: only the nodes tell the records apart.
fn every_code() -> Made {
    let inner = def("e", vec![], None, vec![either(id("c"), vec![bare()], vec![bare()])]);
    let wants = || when(id("c"), vec![bare(), pass()]);
    let check = |right: &str| say(equal(call(id("type"), vec![id("v")]), id(right)));
    let script = vec![
        say(id("v")),
        def("d", vec![], None, vec![wants(), give(int(1)), say(int(2)), inner]),
        def("d", vec![], Some(id("T")), vec![wants(), wants()]),
        each("i", id("xs"), vec![either(id("c"), vec![go_on()], vec![go_on()])]),
        load(&["d", "l"]),
        load(&["l"]),
        check("int"),
        check("str"),
        dict_of(vec![int(1), float(1.0), int(1), id("k"), id("k")]),
        say(int(1)),
        say(tuple(vec![])),
        say(id("v")),
    ];
    together("every code of flow, incompatible and dubious", script, |_| true)
}
