//! Short words for nodes; roles are given by what stands around.
use crate::tree::{Node, Tree};

fn name_value(name: &str) -> (u8, Vec<u8>) {
    (0, name.as_bytes().to_vec())
}

/// Spans as a text would have them, no two equal.
pub fn spanned(mut tree: Tree) -> Tree {
    crate::make::text_spans(&mut tree.root);
    tree
}

pub fn id(name: &str) -> Node {
    Node::with(20, 0, name_value(name))
}

pub fn int(n: u128) -> Node {
    Node::with(21, 0, crate::make::integer(n))
}

/// An integer by its bytes.
pub fn magnitude(bytes: Vec<u8>) -> Node {
    Node::with(21, 0, (3, bytes))
}

pub fn float(x: f64) -> Node {
    Node::with(21, 0, crate::make::float(x))
}

pub fn text(s: &str) -> Node {
    Node::with(21, 0, (1, s.as_bytes().to_vec()))
}

pub fn bytes(s: &str) -> Node {
    Node::with(21, 0, (2, s.as_bytes().to_vec()))
}

pub fn name(name: &str) -> Node {
    Node::with(40, 0, name_value(name))
}

pub fn several(targets: Vec<Node>) -> Node {
    Node::new(41, 0, targets)
}

/// Index or dot.
pub fn part(of: Vec<Node>) -> Node {
    Node::new(42, 0, of)
}

pub fn call(function: Node, arguments: Vec<Node>) -> Node {
    let mut children = vec![function.role(7)];
    children.extend(arguments);
    Node::new(23, 0, children)
}

pub fn param(name: &str, exprs: Vec<Node>) -> Node {
    Node { children: exprs, ..Node::with(43, 0, name_value(name)) }
}

pub fn lambda(mut params: Vec<Node>, body: Node) -> Node {
    params.push(body.role(1));
    Node::new(24, 0, params)
}

pub fn for_clause(target: Node, over: Node) -> Node {
    Node::new(45, 0, vec![target.role(5), over.role(4)])
}

pub fn if_clause(condition: Node) -> Node {
    Node::new(46, 0, vec![condition.role(4)])
}

pub fn list_comp(result: Node, clauses: Vec<Node>) -> Node {
    let mut children = vec![result.role(4)];
    children.extend(clauses);
    Node::new(25, 0, children)
}

pub fn dict_comp(key: Node, result: Node, clauses: Vec<Node>) -> Node {
    let mut children = vec![key.role(8), result.role(4)];
    children.extend(clauses);
    Node::new(26, 0, children)
}

pub fn tuple(parts: Vec<Node>) -> Node {
    Node::new(27, 0, parts)
}

pub fn dict(keys: Vec<Node>) -> Node {
    Node::new(29, 0, keys.into_iter().flat_map(|k| [k.role(8), id("v").role(4)]).collect())
}

pub fn conditional(a: Node, b: Node, c: Node) -> Node {
    Node::new(30, 0, vec![a, b, c])
}

pub fn equal(left: Node, right: Node) -> Node {
    Node::new(31, 0, vec![left.role(1), right.role(2)])
}

pub fn not_equal(left: Node, right: Node) -> Node {
    Node { kind: 32, ..equal(left, right) }
}

pub fn ellipsis() -> Node {
    Node::new(22, 0, vec![])
}

pub fn say(x: Node) -> Node {
    Node::new(5, 0, vec![x.role(4)])
}

pub fn call_of(function: &str, arguments: Vec<Node>) -> Node {
    say(call(id(function), arguments))
}

/// A call that uses a name and sets none.
pub fn use_of(x: &str) -> Node {
    call_of("use", vec![id(x)])
}

/// A dict as a statement.
pub fn dict_of(keys: Vec<Node>) -> Node {
    say(dict(keys))
}

pub fn assign(target: Node, value: Node) -> Node {
    Node::new(6, 0, vec![target.role(5), value.role(4)])
}

pub fn assign_typed(target: Node, typed: Node, value: Node) -> Node {
    Node::new(6, 0, vec![target.role(5), typed.role(3), value.role(4)])
}

pub fn set(x: &str, value: Node) -> Node {
    assign(name(x), value)
}

pub fn modify(target: Node, value: Node) -> Node {
    Node::new(7, 0, vec![target.role(5), value.role(4)])
}

pub fn list(members: Vec<Node>) -> Node {
    Node::new(8, 0, members)
}

pub fn when(condition: Node, then: Vec<Node>) -> Node {
    Node::new(9, 0, vec![condition.role(4), list(then).role(1)])
}

pub fn either(condition: Node, then: Vec<Node>, otherwise: Vec<Node>) -> Node {
    Node::new(10, 0, vec![condition.role(4), list(then).role(1), list(otherwise).role(2)])
}

pub fn each_of(target: Node, over: Node, body: Vec<Node>) -> Node {
    Node::new(11, 0, vec![target.role(5), over.role(4), list(body).role(1)])
}

pub fn each(x: &str, over: Node, body: Vec<Node>) -> Node {
    each_of(name(x), over, body)
}

pub fn def(of: &str, params: Vec<Node>, typed: Option<Node>, body: Vec<Node>) -> Node {
    let mut children = vec![name(of).role(6)];
    children.extend(params);
    children.extend(typed.map(|t| t.role(3)));
    children.push(list(body).role(1));
    Node::new(12, 0, children)
}

pub fn load(names: &[&str]) -> Node {
    Node::new(13, 0, names.iter().map(|n| Node::with(47, 0, name_value(n))).collect())
}

pub fn stop() -> Node {
    Node::new(1, 0, vec![])
}

pub fn go_on() -> Node {
    Node::new(2, 0, vec![])
}

pub fn pass() -> Node {
    Node::new(3, 0, vec![])
}

pub fn bare() -> Node {
    Node::new(4, 0, vec![])
}

pub fn give(x: Node) -> Node {
    Node::new(4, 0, vec![x.role(4)])
}
