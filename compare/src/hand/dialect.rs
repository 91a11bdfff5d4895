//! Versions 1 and 2 (02, §9): names that are exported again and again, what is nearly that, and refusals.
use super::build::*;
use super::refusals::damaged;
use super::{made, others, Made};
use crate::tree::Node;

pub fn files() -> Vec<Made> {
    let both = || exports().into_iter().chain(nearly());
    let limit = made("limit: x = x 340 times", list(exported(340)));
    let others = super::known().into_iter().chain(super::example()).chain(others::top()).chain([limit]);
    both().chain(others.chain(both()).map(in_version_2)).chain(refused()).collect()
}

/// The same bytes under version 2.
fn in_version_2(made: Made) -> Made {
    let mut file = made.file;
    file[3..5].copy_from_slice(&2u16.to_le_bytes());
    Made { how: format!("version 2: {}", made.how), file }
}

fn same(x: &str) -> Node {
    set(x, id(x))
}

/// load x, then x = x so often.
fn exported(times: usize) -> Vec<Node> {
    let mut out = vec![load(&["x"])];
    out.extend((0..times).map(|_| same("x")));
    out
}

/// load x, x = x, these, x = x.
fn between(mut these: Vec<Node>) -> Node {
    let mut out = exported(1);
    out.append(&mut these);
    out.push(same("x"));
    list(out)
}

fn exports() -> Vec<Made> {
    let typed = || assign_typed(name("x"), id("T"), id("x"));
    let value_first = || Node::new(6, 0, vec![id("x").role(4), name("x").role(5)]);
    let sides = either(id("c"), vec![same("x")], vec![same("x")]);
    let loops = each("i", id("is"), vec![each("j", id("js"), vec![same("x"), same("x")])]);
    let mut tables = vec![load(&["a", "b"]), load(&["b", "c"])];
    tables.extend(["a", "b", "c", "a", "b", "c"].map(same));
    vec![
        made("x = x three times", list(exported(3))),
        made("x = x on both sides and in loops", between(vec![sides, loops])),
        made("x = x in lists in lists", between(vec![list(vec![same("x"), list(vec![same("x")])])])),
        made("x = x with a type, three times", between(vec![typed(), typed()])),
        made("x = x, the value first", between(vec![value_first(), value_first()])),
        made("x = x of names in two loads", list(tables)),
        made("x = x after a load under an if", list(vec![when(id("c"), exported(1)), same("x"), same("x")])),
        made("x = x, a root that is a for", each("i", id("is"), exported(3))),
        made("x = x, a root that is an assign", same("x")),
    ]
}

fn nearly() -> Vec<Made> {
    let after = |first: Node| list(vec![first, load(&["x"]), same("x"), same("x")]);
    let two = several(vec![name("x"), name("y")]);
    vec![
        made("x = x before the load", after(same("x"))),
        made("x = x, first defined by a def", after(def("x", vec![], None, vec![pass()]))),
        made("x = x, first defined by an assign-modify", after(modify(name("x"), int(1)))),
        made("x = x, first defined among several", after(assign(two.clone(), id("x")))),
        made("x = x, no definition but itself", list(vec![same("x"), same("x"), same("x")])),
        made("x = x of a for's target and a def's parameter", {
            let inside = def("f", vec![param("x", vec![])], None, vec![same("x"), same("x")]);
            list(vec![each("x", id("xs"), vec![same("x"), same("x")]), inside])
        }),
        made("x = x, then a load again", between(vec![load(&["x", "x"]), same("x"), load(&["x"])])),
        made("x = x, then another assign", between(vec![set("x", int(1)), same("x")])),
        made("x = x in a def", between(vec![def("f", vec![], None, vec![same("x"), same("x")])])),
        made("x = x, then a def of x", between(vec![def("x", vec![], None, vec![same("x"), same("x")])])),
        made(
            "x = y, both loaded",
            list(vec![load(&["x", "y"]), set("x", id("y")), set("y", id("x")), same("x")]),
        ),
        made("x += x", between(vec![modify(name("x"), id("x")), modify(name("x"), id("x"))])),
        made(
            "several targets",
            between(vec![assign(two, id("x")), assign(several(vec![name("x")]), id("x"))]),
        ),
        made("an index of x", between(vec![assign(part(vec![id("x")]), id("x"))])),
        made(
            "x = (x,), x = x()",
            between(vec![set("x", tuple(vec![id("x")])), set("x", call(id("x"), vec![]))]),
        ),
        made("x = \"x\"", between(vec![set("x", text("x"))])),
        made("a for's target x", between(vec![each("x", id("x"), vec![same("x")])])),
    ]
}

/// Versions that there aren't, and each other refusal in version 2.
fn refused() -> Vec<Made> {
    let versions = [0, 3, 256, 257, 258, 512, 513, 514, 32770, 65535];
    let version = |v| damaged(&format!("version {v}"), &|f| f.version = v);
    let mut out: Vec<Made> = versions.map(version).into();
    out.extend([
        damaged("another mark and version 3: 1 first", &|f| (f.mark, f.version) = (*b"SLU", 3)),
        damaged("version 3 and no nodes: 2 first", &|f| (f.version, f.counts[0]) = (3, 0)),
    ]);
    let deep = (1..49).fold(pass(), |x, _| list(vec![x]));
    let second = [
        damaged("mark in small letters", &|f| f.mark = *b"slt"),
        damaged("no nodes in the head", &|f| f.counts[0] = 0),
        damaged("one value too many in the head", &|f| f.counts[1] += 1),
        damaged("values swapped", &|f| f.values.swap(0, 1)),
        damaged("last field", &|f| f.nodes[3].zero = 1),
        damaged("the root's role", &|f| f.nodes[0].role = 1),
        made("refusal: depth 49", deep),
        damaged("a global twice", &|f| (f.globals, f.counts[2]) = (vec![0, 0], 2)),
    ];
    out.extend(second.map(in_version_2));
    out
}
