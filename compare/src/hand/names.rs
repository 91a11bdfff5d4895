//! What is easily read otherwise, or forgotten, in the names rules.
use super::build::*;
use super::{made, Made};
use crate::tree::Node;

pub fn files() -> Vec<Made> {
    let mut out = loops();
    out.extend(aborts());
    out.extend(scopes());
    out.extend(sides());
    out
}

/// A use before the setting in loops that stand in one another.
fn loops() -> Vec<Made> {
    let mut out = Vec::new();
    for count in 1..=8 {
        let nest =
            |inner: Vec<Node>| (0..count).fold(list(inner), |x, _| list(vec![each("i", id("xs"), vec![x])]));
        out.push(made(
            &format!("{count} loops, use before set inside"),
            nest(vec![use_of("a"), set("a", int(1))]),
        ));
        let late = nest(vec![say(call(id("f"), vec![id("b")])), set("b", id("a")), set("a", id("b"))]);
        out.push(made(&format!("{count} loops, settings that reach the next round"), late));
    }
    for around in 0..=6 {
        let rounds = each("j", id("xs"), vec![use_of("a"), set("a", id("j"))]);
        let inner = def("d", vec![], None, vec![rounds, use_of("a")]);
        let script = (0..around).fold(inner, |x, _| each("k", id("xs"), vec![x]));
        out.push(made(
            &format!("a loop in a def in {around} loops: counted through the def"),
            list(vec![script]),
        ));
    }
    let clause = || for_clause(name("c"), id("xs"));
    let inside = (0..6).fold(id("a"), |x, _| list_comp(x, vec![clause()]));
    out.push(made(
        "comprehensions aren't counted as loops",
        list(vec![each("i", id("xs"), vec![say(inside), set("a", int(1))])]),
    ));
    out.push(made(
        "the target is set in each round",
        list(vec![each("x", id("x"), vec![use_of("x")]), use_of("x")]),
    ));
    out.push(made(
        "a target's index uses the name it sets",
        list(vec![each_of(several(vec![part(vec![id("x")]), name("x")]), id("xs"), vec![pass()])]),
    ));
    out
}

fn aborts() -> Vec<Made> {
    let fails = || call_of("fail", vec![]);
    let mut out = Vec::new();
    type Aborting = (&'static str, fn() -> Node);
    let kinds: [Aborting; 5] = [
        ("break", stop),
        ("continue", go_on),
        ("return", bare),
        ("fail", || call_of("fail", vec![])),
        ("pass", pass),
    ];
    for (left_name, left) in kinds {
        for (right_name, right) in kinds {
            let branch = either(id("c"), vec![set("x", int(1)), left()], vec![right()]);
            let body = vec![branch, use_of("x")];
            let inner = each("i", id("xs"), body);
            out.push(made(
                &format!("if-else in a loop in a def, sides end with {left_name} and {right_name}"),
                list(vec![def("d", vec![], None, vec![inner, use_of("x")])]),
            ));
        }
    }
    out.push(made(
        "fail inside an expression aborts nothing",
        list(vec![
            when(id("c"), vec![set("x", int(1)), say(tuple(vec![call(id("fail"), vec![])]))]),
            use_of("x"),
        ]),
    ));
    out.push(made(
        "fail at module level",
        list(vec![when(id("c"), vec![fails()]), set("x", int(1)), use_of("x")]),
    ));
    out
}

fn scopes() -> Vec<Made> {
    let in_x = |result: Node| list_comp(result, vec![for_clause(name("x"), id("x"))]);
    vec![
        made(
            "a comprehension's first over is outside",
            list(vec![set("y", in_x(id("x"))), set("x", int(1))]),
        ),
        made(
            "a later over is inside, its target after it",
            list(vec![say(list_comp(
                id("b"),
                vec![for_clause(name("a"), id("xs")), for_clause(name("b"), id("b")), if_clause(id("a"))],
            ))]),
        ),
        made(
            "a dict comprehension's key before its result",
            list(vec![say(dict_comp(
                id("k"),
                id("r"),
                vec![for_clause(several(vec![name("k"), name("_r")]), id("xs"))],
            ))]),
        ),
        made(
            "a lambda's default is outside, its argument unused",
            list(vec![set("f", lambda(vec![param("x", vec![id("x")]), param("_y", vec![])], id("z")))]),
        ),
        made(
            "a def uses a name that is set after it",
            list(vec![def("f", vec![], None, vec![give(id("late"))]), set("late", int(1)), use_of("f")]),
        ),
        made(
            "an unbound use of a nested def keeps a setting of the def",
            list(vec![def(
                "f",
                vec![param("a", vec![])],
                None,
                vec![def("g", vec![], None, vec![give(id("b"))]), set("b", id("a")), give(id("g"))],
            )]),
        ),
        made(
            "a def's name is set before its body, its type before its name",
            list(vec![def("f", vec![], Some(id("f")), vec![give(id("f"))])]),
        ),
        made(
            "assign-modify uses before it sets, its index twice",
            list(vec![
                modify(name("x"), id("x")),
                modify(part(vec![id("q"), id("x")]), int(1)),
                modify(several(vec![name("x"), name("y")]), id("y")),
            ]),
        ),
        made("an assign's type is visited first", list(vec![assign_typed(name("T"), id("T"), id("T"))])),
        made(
            "underscore names below module level and at it",
            list(vec![
                set("_a", int(1)),
                set("_a", int(2)),
                def("_f", vec![param("_p", vec![])], None, vec![set("_b", int(1)), set("c", int(2))]),
                load(&["_l", "m"]),
            ]),
        ),
        made(
            "an assign at module level that is still among its spans",
            list(vec![
                set("a", int(1)),
                when(id("c"), vec![set("a", int(2))]),
                either(id("c"), vec![set("b", int(1))], vec![set("b", int(2))]),
                set("d", int(1)),
                set("d", int(2)),
            ]),
        ),
        made(
            "only the module level is searched outward for a standing",
            list(vec![when(id("c"), vec![set("m", int(1))]), def("f", vec![], None, vec![give(id("m"))])]),
        ),
    ]
}

/// Children in another order than the lists', where that shows.
fn sides() -> Vec<Made> {
    let swapped = |mut x: Node, a: usize, b: usize| {
        x.children.swap(a, b);
        x
    };
    let branch = either(id("c"), vec![set("x", int(1)), give(int(1))], vec![use_of("x"), bare()]);
    let in_def = def("d", vec![], None, vec![swapped(branch, 1, 2), pass()]);
    let last = either(id("c"), vec![go_on()], vec![go_on()]);
    let value_first = swapped(set("x", id("y")), 0, 1);
    let comprehension = Node {
        children: vec![for_clause(name("x"), id("xs")), id("x").role(4), if_clause(id("y"))],
        ..Node::new(25, 0, vec![])
    };
    vec![
        made("role 2 before role 1 in a def", list(vec![in_def])),
        made(
            "role 2 before role 1, last in a loop",
            list(vec![each("i", id("xs"), vec![swapped(last, 1, 2)])]),
        ),
        made("an assign's value before its target", list(vec![value_first, use_of("x")])),
        made("a comprehension's result between its clauses", list(vec![say(comprehension)])),
        made(
            "sides of an equal in file order, right first",
            list(vec![say(swapped(equal(call(id("type"), vec![id("x")]), id("int")), 0, 1))]),
        ),
    ]
}
