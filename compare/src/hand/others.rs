//! The same for incompatible and dubious, and for spans and globals.
use super::build::*;
use super::{made, Made};
use crate::tree::{Node, Tree};

pub fn files() -> Vec<Made> {
    let mut out = top();
    out.extend(types_and_keys());
    out.extend(spans_and_globals());
    out
}

pub fn top() -> Vec<Made> {
    let same = || set("x", id("x"));
    vec![
        made(
            "x = x under if and for",
            list(vec![load(&["x"]), when(id("c"), vec![same()]), each("i", id("xs"), vec![same()])]),
        ),
        made(
            "x = x with a type, then without",
            list(vec![load(&["x"]), assign_typed(name("x"), id("T"), id("x")), same()]),
        ),
        made("x = x, first defined by an assign", list(vec![set("x", int(1)), load(&["x"]), same()])),
        made(
            "a tuple target is not x = x",
            list(vec![load(&["x"]), assign(several(vec![name("x")]), id("x")), same()]),
        ),
        made(
            "x = x of two names, twice",
            list(vec![load(&["x", "y"]), same(), set("y", id("y")), same(), set("y", id("y"))]),
        ),
        made(
            "def, load, assign-modify and targets count",
            list(vec![
                def("f", vec![], None, vec![set("f", int(1)), load(&["f"])]),
                modify(name("f"), int(1)),
                load(&["f", "f"]),
                assign(
                    several(vec![name("f"), several(vec![name("g"), name("g")]), part(vec![id("f")])]),
                    id("z"),
                ),
                each("f", id("f"), vec![set("g", int(1))]),
            ]),
        ),
    ]
}

fn types_and_keys() -> Vec<Made> {
    let check = |arguments: Vec<Node>, right: Node| equal(call(id("type"), arguments), right);
    let names = ["bool", "tuple", "str", "list", "int", "dict", "Int"];
    let all = names.map(|n| say(check(vec![id("x")], id(n)))).to_vec();
    let odd = vec![
        say(check(vec![], id("int"))),
        say(check(vec![id("x"), id("y")], id("int"))),
        say(check(vec![id("x")], text("int"))),
        say(equal(id("int"), call(id("type"), vec![id("x")]))),
        say(not_equal(call(id("type"), vec![check(vec![id("y")], id("str"))]), id("int"))),
        set(
            "f",
            lambda(
                vec![param("p", vec![check(vec![id("x")], id("list"))])],
                check(vec![id("p")], id("bool")),
            ),
        ),
        assign(part(vec![check(vec![id("t")], id("tuple"))]), int(1)),
    ];
    let numbers = vec![
        int(0),
        float(0.0),
        int(2147483647),
        float(2147483647.0),
        int(2147483648),
        float(2147483648.0),
        float(2147483648.0),
        float(0.5),
        float(0.5),
        float(f64::INFINITY),
        float(f64::INFINITY),
        int(1 << 53),
        float(9007199254740992.0),
        int((1 << 53) - 1),
        float(9007199254740991.0),
        float(1e300),
        float(1e300),
        float(5e-324),
        float(5e-324),
    ];
    let forms = vec![
        text("a"),
        bytes("a"),
        id("a"),
        int(97),
        text("a"),
        bytes("a"),
        id("a"),
        text("a"),
        tuple(vec![]),
        tuple(vec![]),
        ellipsis(),
        ellipsis(),
    ];
    let reasons = vec![int(1), float(1.0), float(1.0), id("a"), int(1), int(1), float(0.0), int(0), id("a")];
    let nested = Node::new(
        29,
        0,
        vec![
            dict(vec![int(1), int(1)]).role(8),
            dict(vec![int(2), int(2)]).role(4),
            int(1).role(8),
            int(1).role(4),
            int(1).role(8),
            int(1).role(4),
        ],
    );
    vec![
        made("type checks, each name", list(all)),
        made("type checks that are none, and nested ones", list(odd)),
        made("keys: numbers in both forms around the bounds", list(vec![dict_of(numbers)])),
        made("keys: one spelling in each form", list(vec![dict_of(forms)])),
        made("keys: why two are equal goes by the previous one", list(vec![dict_of(reasons)])),
        made("keys: a dict before the dicts inside it", list(vec![say(nested)])),
        made(
            "identifiers as statements, below each statement",
            list(vec![
                say(id("a")),
                when(id("c"), vec![say(id("b"))]),
                def("f", vec![], None, vec![say(id("c"))]),
                say(tuple(vec![id("d")])),
            ]),
        ),
    ]
}

fn spans_and_globals() -> Vec<Made> {
    let all_at_once = |root: Node, globals: Option<Vec<&str>>| {
        let mut tree = Tree::new(root);
        tree.globals = globals.map(|g| g.iter().map(|n| n.as_bytes().to_vec()).collect());
        tree
    };
    let script = || {
        list(vec![
            use_of("a"),
            say(id("a")),
            set("a", id("b")),
            def("f", vec![param("a", vec![])], None, vec![set("a", id("zz"))]),
            use_of("c"),
        ])
    };
    let one_span = all_at_once(script(), None);
    let with_globals = spanned(all_at_once(script(), Some(vec!["use", "b", "zzz"])));
    let none = spanned(all_at_once(script(), Some(vec![])));
    let made = |how: &str, tree: Tree| Made { how: how.to_owned(), file: tree.bytes() };
    vec![
        made("all nodes on one span: each pair is warned once", one_span),
        made("globals given, some names among them", with_globals),
        made("globals given, none", none),
    ]
}
