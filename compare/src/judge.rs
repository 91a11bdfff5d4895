//! Validity of a tree file: document 01's refusals 1 to 9 with their places, 2 as 02, §9
//! has it, written from these (and the readings taken of them) alone.
use crate::kinds::{self, Carries};

/// Why a file isn't valid.
pub struct Refusal {
    pub number: u32,
    pub place: usize,
    pub why: &'static str,
}

/// `None`: valid. Otherwise the number and the place.
pub fn judge(bytes: &[u8]) -> Option<(u32, usize)> {
    refusal(bytes).map(|r| (r.number, r.place))
}

struct Value<'a> {
    kind: u8,
    length: usize,
    bytes: &'a [u8],
}

struct Node {
    kind: u8,
    role: u8,
    size: usize,
    begin: u32,
    end: u32,
    value: u16,
    zero: u16,
}

struct File<'a> {
    nodes: Vec<Node>,
    values: Vec<Value<'a>>,
    globals: Vec<u16>,
    /// For each node the nearest node before that reaches over it.
    parents: Vec<Option<usize>>,
}

fn u16_at(b: &[u8], i: usize) -> u16 {
    u16::from_le_bytes([b[i], b[i + 1]])
}

fn u32_at(b: &[u8], i: usize) -> u32 {
    u32::from_le_bytes([b[i], b[i + 1], b[i + 2], b[i + 3]])
}

/// A fault, or none.
type Fault = Option<&'static str>;

fn fault(found: bool, why: &'static str) -> Fault {
    found.then_some(why)
}

/// The lowest place where a fault stands.
fn lowest(number: u32, count: usize, fault: impl Fn(usize) -> Fault) -> Option<Refusal> {
    (0..count).find_map(|place| fault(place).map(|why| Refusal { number, place, why }))
}

pub fn refusal(bytes: &[u8]) -> Option<Refusal> {
    let whole = |number, why| Some(Refusal { number, place: 0, why });
    if bytes.len() < 11 || &bytes[..3] != b"SLT" {
        return whole(1, "short or wrong mark");
    }
    if !matches!(u16_at(bytes, 3), 1 | 2) {
        return whole(2, "version");
    }
    let [nodes, values, globals] = [5, 7, 9].map(|i| usize::from(u16_at(bytes, i)));
    if nodes == 0 || nodes > 1024 || values > 512 || (globals > 512 && globals != 65535) {
        return whole(3, "counts");
    }
    let globals = if globals == 65535 { 0 } else { globals };
    let Some(file) = sections(bytes, nodes, values, globals) else {
        return whole(4, "sections");
    };
    file.verdict()
}

/// The three sections, if they fill the input exactly.
fn sections(bytes: &[u8], nodes: usize, values: usize, globals: usize) -> Option<File<'_>> {
    let mut rest = &bytes[11..];
    let mut take = |n: usize| {
        let part = rest.get(..n)?;
        rest = &rest[n..];
        Some(part)
    };
    let mut file = File { nodes: vec![], values: vec![], globals: vec![], parents: vec![] };
    for _ in 0..nodes {
        let b = take(16)?;
        file.nodes.push(Node {
            kind: b[0],
            role: b[1],
            size: u16_at(b, 2).into(),
            begin: u32_at(b, 4),
            end: u32_at(b, 8),
            value: u16_at(b, 12),
            zero: u16_at(b, 14),
        });
    }
    for _ in 0..values {
        let head = take(3)?;
        let length = usize::from(u16_at(head, 1));
        file.values.push(Value { kind: head[0], length, bytes: take(length)? });
    }
    for _ in 0..globals {
        file.globals.push(u16_at(take(2)?, 0));
    }
    let reaches = |p: usize, i: usize| p + file.nodes[p].size > i;
    file.parents = (0..nodes).map(|i| (0..i).rev().find(|p| reaches(*p, i))).collect();
    rest.is_empty().then_some(file)
}

impl Value<'_> {
    fn bad_form(&self) -> Fault {
        let long = fault(self.length > 255, "value too long");
        long.or_else(|| match self.kind {
            0 => fault(self.length == 0, "empty name"),
            1 | 2 => None,
            3 => fault(self.length > 64, "integer too long")
                .or(fault(self.bytes.first() == Some(&0), "leading zero byte")),
            4 => match <[u8; 8]>::try_from(self.bytes) {
                Err(_) => Some("length of a float"),
                Ok(b) => {
                    let float = f64::from_bits(u64::from_le_bytes(b));
                    fault(float.is_sign_negative(), "sign of a float").or(fault(float.is_nan(), "NaN"))
                }
            },
            _ => Some("kind of a value"),
        })
    }

    fn key(&self) -> (u8, usize, &[u8]) {
        (self.kind, self.length, self.bytes)
    }
}

impl File<'_> {
    fn verdict(&self) -> Option<Refusal> {
        let (n, v) = (self.nodes.len(), self.values.len());
        // Each later test may lean on those before it: sizes nest once 6 is done.
        lowest(5, v, |i| self.bad_value(i))
            .or_else(|| lowest(6, n, |i| self.bad_node(i)))
            .or_else(|| lowest(7, n, |i| self.bad_children(i)))
            .or_else(|| lowest(8, n, |i| fault(self.depth(i) > 48, "too deep")))
            .or_else(|| lowest(9, self.globals.len(), |i| self.bad_global(i)))
    }

    fn bad_value(&self, i: usize) -> Fault {
        let disordered = i > 0 && self.values[i - 1].key() >= self.values[i].key();
        self.values[i].bad_form().or(fault(disordered, "order of values"))
    }

    fn bad_node(&self, i: usize) -> Fault {
        let x = &self.nodes[i];
        let Some(kind) = kinds::of(x.kind) else { return Some("unknown kind") };
        fault(x.begin > x.end, "begin above end")
            .or(fault(x.zero != 0, "last field"))
            .or(fault(x.size == 0, "size 0"))
            .or(fault(i + x.size > self.bound(i), "size beyond its parent"))
            .or(self.bad_number(kind.carries, x.value))
    }

    /// Where a node has to end: with its parent, or with the file for node 0 and
    /// for every node outside node 0's part.
    fn bound(&self, i: usize) -> usize {
        if i == 0 || i >= self.nodes[0].size {
            return self.nodes.len();
        }
        self.parents[i].map_or(self.nodes.len(), |p| p + self.nodes[p].size)
    }

    fn bad_number(&self, carries: Carries, number: u16) -> Fault {
        if number == 65535 {
            return fault(carries != Carries::Nothing, "value missing");
        }
        let Some(value) = self.values.get(usize::from(number)) else {
            return Some("value number beyond the table");
        };
        match carries {
            Carries::Nothing => Some("value forbidden"),
            Carries::Name => fault(value.kind != 0, "no name"),
            Carries::Literal => fault(!(1..=4).contains(&value.kind), "no literal"),
        }
    }

    fn children(&self, i: usize) -> Vec<usize> {
        let (mut out, mut at) = (Vec::new(), i + 1);
        while at < i + self.nodes[i].size {
            out.push(at);
            at += self.nodes[at].size;
        }
        out
    }

    fn bad_root(&self) -> Fault {
        let root = &self.nodes[0];
        fault(!kinds::belongs(root.kind, kinds::Class::Statement), "root no statement")
            .or(fault(root.role != 0, "role of the root"))
            .or(fault(root.size != self.nodes.len(), "size of the root"))
    }

    fn bad_children(&self, i: usize) -> Fault {
        let root = if i == 0 { self.bad_root() } else { None };
        let slots = kinds::of(self.nodes[i].kind).expect("known since 6").slots;
        let children = self.children(i);
        let fits = |c: &usize, s: &kinds::Slot| {
            self.nodes[*c].role == s.role && kinds::belongs(self.nodes[*c].kind, s.class)
        };
        let strange = children.iter().any(|c| !slots.iter().any(|s| fits(c, s)));
        let count = |s: &kinds::Slot| children.iter().filter(|c| fits(c, s)).count();
        root.or(fault(strange, "strange child"))
            .or(fault(slots.iter().any(|s| count(s) < s.least), "child missing"))
            .or(fault(slots.iter().any(|s| count(s) > s.most), "child too many"))
            .or(fault(self.bad_order(i, &children), "order of children"))
    }

    /// A dict's pairs, key first; a comprehension's first clause is a for.
    fn bad_order(&self, i: usize, children: &[usize]) -> bool {
        let nodes = || children.iter().map(|c| &self.nodes[*c]);
        match self.nodes[i].kind {
            29 => {
                let roles: Vec<u8> = nodes().map(|x| x.role).collect();
                !roles.chunks(2).all(|pair| pair == [8, 4])
            }
            25 | 26 => nodes().map(|x| x.kind).find(|k| matches!(k, 45 | 46)) != Some(45),
            _ => false,
        }
    }

    fn depth(&self, i: usize) -> usize {
        let (mut depth, mut at) = (1, i);
        while let Some(p) = self.parents[at] {
            (depth, at) = (depth + 1, p);
        }
        depth
    }

    fn bad_global(&self, i: usize) -> Fault {
        let named = self.values.get(usize::from(self.globals[i])).is_some_and(|v| v.kind == 0);
        fault(!named, "global no name")
            .or(fault(i > 0 && self.globals[i - 1] >= self.globals[i], "order of globals"))
    }
}
