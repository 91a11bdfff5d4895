//! What is easily read otherwise, or forgotten, in the flow rules.
use super::build::*;
use super::{made, Made};
use crate::tree::Node;

pub fn files() -> Vec<Made> {
    let one_side = |x: Node| either(id("c"), vec![x], vec![pass()]);
    let mut out = vec![
        made(
            "bare and full returns, the type the reason",
            list(vec![def("f", vec![], Some(id("int")), vec![when(id("c"), vec![bare()]), bare()])]),
        ),
        made(
            "the first full return is the reason",
            list(vec![def(
                "f",
                vec![],
                None,
                vec![when(id("c"), vec![bare()]), when(id("d"), vec![give(int(1))]), give(int(2))],
            )]),
        ),
        made(
            "returns of nested defs don't count",
            list(vec![def("f", vec![], None, vec![def("g", vec![], None, vec![give(int(1))]), bare()])]),
        ),
        made(
            "a def as a body",
            Node::new(12, 0, vec![name("f").role(6), def("g", vec![], None, vec![bare()]).role(1)]),
        ),
        made(
            "a call of None is a type",
            list(vec![def("f", vec![], Some(call(id("None"), vec![])), vec![])]),
        ),
        made(
            "ends surely: fail, both sides",
            list(vec![def(
                "f",
                vec![],
                None,
                vec![either(id("c"), vec![give(int(1))], vec![call_of("fail", vec![text("no")])])],
            )]),
        ),
        made(
            "ends not surely: one side, a for",
            list(vec![def(
                "f",
                vec![],
                None,
                vec![one_side(give(int(1))), each("i", id("xs"), vec![give(int(2))])],
            )]),
        ),
        made(
            "ends not surely: an empty list last",
            list(vec![def("f", vec![], None, vec![give(int(1)), list(vec![])])]),
        ),
        made(
            "unreachable once in each list",
            list(vec![
                each("i", id("xs"), vec![stop(), when(id("c"), vec![go_on(), pass()]), pass()]),
                list(vec![call_of("fail", vec![]), pass(), pass()]),
                use_of("x"),
            ]),
        ),
        made(
            "unreachable after a list and after both sides",
            list(vec![def(
                "f",
                vec![],
                None,
                vec![either(id("c"), vec![bare()], vec![list(vec![bare(), pass()])]), pass(), bare()],
            )]),
        ),
        made("a root that is a for isn't looked at", each("i", id("xs"), vec![go_on()])),
        made(
            "a root that is a def isn't looked at, its inside is",
            def("f", vec![], None, vec![each("i", id("xs"), vec![go_on()]), bare()]),
        ),
        made(
            "last goes through lists, if and if-else",
            list(vec![
                def(
                    "f",
                    vec![],
                    None,
                    vec![when(
                        id("c"),
                        vec![either(id("d"), vec![list(vec![bare()])], vec![pass(), bare()])],
                    )],
                ),
                each("i", id("xs"), vec![when(id("c"), vec![go_on()])]),
            ]),
        ),
        made(
            "a continue last in a def, a return last in a for",
            list(vec![def("f", vec![], None, vec![go_on()]), each("i", id("xs"), vec![bare()])]),
        ),
        made(
            "loads after strings, after others, in lists and below",
            list(vec![
                say(text("doc")),
                load(&["a"]),
                list(vec![load(&["b"]), say(bytes("doc"))]),
                load(&["c"]),
                when(id("c"), vec![load(&["d"])]),
                load(&[]),
            ]),
        ),
        made("a load under if before all else", list(vec![when(id("c"), vec![load(&["d"])])])),
    ];
    let effects = vec![
        int(1),
        float(1.5),
        bytes("b"),
        text("s"),
        ellipsis(),
        lambda(vec![], call(id("f"), vec![])),
        tuple(vec![]),
        tuple(vec![int(1), tuple(vec![ellipsis()])]),
        tuple(vec![int(1), text("s")]),
        dict(vec![int(1)]),
        conditional(int(1), int(2), lambda(vec![], id("x"))),
        conditional(int(1), int(2), id("x")),
        Node::new(33, 0, vec![]),
        Node::new(28, 0, vec![int(1)]),
        Node::new(29, 0, vec![]),
        Node::new(29, 0, vec![int(1).role(8), int(2).role(4)]),
        list_comp(int(1), vec![for_clause(name("x"), id("x"))]),
        equal(int(1), int(2)),
    ];
    out.push(made("effect of each kind of expression", list(effects.into_iter().map(say).collect())));
    out
}
