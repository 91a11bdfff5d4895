//! A tree as its shape: what the generator makes and the reducer cuts. Values
//! stand at their nodes; numbers are given out when the file is written.
use crate::file::{self, File, NONE};

/// Kind and bytes.
pub type Value = (u8, Vec<u8>);

#[derive(Clone, Debug, PartialEq, Eq)]
pub struct Node {
    pub kind: u8,
    pub role: u8,
    pub span: (u32, u32),
    pub value: Option<Value>,
    pub children: Vec<Node>,
}

#[derive(Clone, Debug, PartialEq, Eq)]
pub struct Tree {
    pub version: u16,
    pub root: Node,
    /// Values that no node carries.
    pub spare: Vec<Value>,
    /// Names, in any order; `None`: globals not given.
    pub globals: Option<Vec<Vec<u8>>>,
}

/// Document 01's order of values: kind, length, bytes.
fn order(v: &Value) -> (u8, usize, &[u8]) {
    (v.0, v.1.len(), &v.1)
}

impl Node {
    pub fn new(kind: u8, role: u8, children: Vec<Node>) -> Node {
        Node { kind, role, span: (0, 0), value: None, children }
    }

    pub fn with(kind: u8, role: u8, value: Value) -> Node {
        Node { value: Some(value), ..Node::new(kind, role, Vec::new()) }
    }

    /// The same node, standing elsewhere.
    pub fn role(mut self, role: u8) -> Node {
        self.role = role;
        self
    }

    pub fn size(&self) -> usize {
        1 + self.children.iter().map(Node::size).sum::<usize>()
    }

    pub fn depth(&self) -> usize {
        1 + self.children.iter().map(Node::depth).max().unwrap_or(0)
    }

    /// Every node in file order.
    pub fn each(&self, f: &mut impl FnMut(&Node)) {
        f(self);
        self.children.iter().for_each(|c| c.each(f));
    }

    pub fn each_mut(&mut self, f: &mut impl FnMut(&mut Node)) {
        f(self);
        self.children.iter_mut().for_each(|c| c.each_mut(f));
    }

    /// The node with a number in file order.
    pub fn at_mut(&mut self, number: usize) -> Option<&mut Node> {
        if number == 0 {
            return Some(self);
        }
        let mut left = number - 1;
        for c in &mut self.children {
            let size = c.size();
            if left < size {
                return c.at_mut(left);
            }
            left -= size;
        }
        None
    }
}

impl Tree {
    pub fn new(root: Node) -> Tree {
        Tree { version: 1, root, spare: Vec::new(), globals: None }
    }

    /// Every value of the file, in order.
    pub fn values(&self) -> Vec<Value> {
        let mut all = self.spare.clone();
        self.root.each(&mut |x| all.extend(x.value.clone()));
        all.extend(self.globals.iter().flatten().map(|n| (0, n.clone())));
        all.sort_by(|a, b| order(a).cmp(&order(b)));
        all.dedup();
        all
    }

    pub fn file(&self) -> File {
        let values = self.values();
        let number =
            |v: &Value| values.binary_search_by(|w| order(w).cmp(&order(v))).expect("a value") as u16;
        let mut nodes = Vec::new();
        self.root.each(&mut |x| {
            nodes.push(file::Node {
                kind: x.kind,
                role: x.role,
                size: x.size() as u16,
                begin: x.span.0,
                end: x.span.1,
                value: x.value.as_ref().map_or(NONE, number),
                zero: 0,
            })
        });
        let mut globals: Vec<u16> = self.globals.iter().flatten().map(|n| number(&(0, n.clone()))).collect();
        globals.sort();
        globals.dedup();
        let given = if self.globals.is_some() { 0 } else { NONE };
        let values =
            values.into_iter().map(|(kind, bytes)| file::Value { kind, length: bytes.len() as u16, bytes });
        let mut file = File {
            mark: *b"SLT",
            version: self.version,
            counts: [0, 0, given],
            nodes,
            values: values.collect(),
            globals,
        };
        file.recount();
        file
    }

    pub fn bytes(&self) -> Vec<u8> {
        self.file().bytes()
    }

    /// Of a valid file.
    pub fn read(bytes: &[u8]) -> Tree {
        let file = File::read(bytes).expect("a valid file");
        let value = |n: u16| {
            let v = &file.values[usize::from(n)];
            (v.kind, v.bytes.clone())
        };
        fn node(file: &File, at: usize, value: &impl Fn(u16) -> Value) -> Node {
            let x = &file.nodes[at];
            let mut children = Vec::new();
            let mut i = at + 1;
            while i < at + usize::from(x.size) {
                children.push(node(file, i, value));
                i += usize::from(file.nodes[i].size);
            }
            let value = (x.value != NONE).then(|| value(x.value));
            Node { kind: x.kind, role: x.role, span: (x.begin, x.end), value, children }
        }
        let root = node(&file, 0, &value);
        let spare = (0..file.counts[1]).map(value).collect();
        let globals = file.globals.iter().map(|g| value(*g).1).collect();
        let globals = (file.counts[2] != NONE).then_some(globals);
        Tree { version: file.version, root, spare, globals }
    }
}
