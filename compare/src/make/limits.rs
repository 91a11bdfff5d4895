//! Trees at the limits: 1,024 nodes, 512 values, 512 globals, depth 48, values of
//! 255 bytes, integers of 64, and shapes that fill what a program keeps.
use super::literals::integer;
use super::style::Style;
use super::{Maker, Room};
use crate::random::Random;
use crate::tree::{Node, Tree};

pub fn tree(style: Style, r: &mut Random) -> Tree {
    let mut maker = Maker { style, r };
    match maker.r.below(10) {
        0 | 1 => maker.most_nodes(),
        2 => maker.most_values(),
        3 => maker.most_globals(),
        4 | 5 => maker.deepest(48),
        6 => maker.longest_values(),
        7 => maker.one_load(),
        8 => maker.wide_dict(),
        _ => maker.many_standings(),
    }
}

/// Names of 255 bytes as far as there is room for values, and as globals where those are given.
pub fn lengthen(tree: &mut Tree) {
    let names = (tree.values().len()..512).map(|i| format!("{i:0255}").into_bytes());
    tree.spare.extend(names.clone().map(|name| (0, name)));
    tree.globals.iter_mut().for_each(|globals| globals.extend(names.clone()));
}

fn use_of(name: &[u8]) -> Node {
    Node::new(5, 0, vec![Node::with(20, 4, (0, name.to_vec()))])
}

fn numbered(i: usize) -> Vec<u8> {
    format!("n{i}").into_bytes()
}

impl Maker<'_> {
    fn room(&mut self, least: usize, most: usize) -> Room {
        Room { nodes: self.r.range(least, most), levels: 48, in_loop: false, in_def: false }
    }

    /// A list of exactly 1,024 nodes.
    fn filled(&mut self, mut root: Node) -> Node {
        let mut left = 1024 - root.size();
        while left > 0 {
            let more = if left > 1 && self.r.percent(60) {
                let name = self.name();
                use_of(&name)
            } else {
                Node::new(3, 0, vec![])
            };
            left -= more.size();
            root.children.push(more);
        }
        root
    }

    fn most_nodes(&mut self) -> Tree {
        let room = self.room(600, 1024);
        let made = self.list(room);
        let mut tree = Tree::new(self.filled(made));
        self.surroundings(&mut tree);
        tree
    }

    fn most_values(&mut self) -> Tree {
        let room = self.room(20, 200);
        let mut tree = Tree::new(self.list(room));
        self.surroundings(&mut tree);
        for i in 0.. {
            let have = tree.values().len();
            if have >= 512 {
                break;
            }
            tree.spare.push(if i % 2 == 0 { (0, numbered(i)) } else { integer(1000 + i as u128) });
        }
        tree
    }

    fn most_globals(&mut self) -> Tree {
        self.style.names = (0..512).map(numbered).collect();
        let most = self.r.range(1, 300);
        let uses = (0..most).map(|_| use_of(&self.name())).collect();
        let mut tree = Tree::new(Node::new(8, 0, uses));
        // One less now and then, or one that isn't among the names in use.
        let globals = self.style.names.split_off(self.r.below(2));
        tree.globals = Some(globals);
        tree
    }

    /// A chain of one node below another, the last at this depth.
    pub fn deepest(&mut self, depth: usize) -> Tree {
        let mut node = Node::with(20, 0, (0, self.name()));
        let stated = self.r.range(2, depth - 4);
        while node.depth() < stated {
            node = self.around_expression(node);
        }
        node = self.around_in_statement(node);
        while node.depth() + 1 < depth {
            node = self.around_statement(node);
        }
        let room = self.room(5, 30);
        let mut root = self.list(Room { levels: 4, ..room });
        let at = self.r.below(root.children.len() + 1);
        root.children.insert(at, node);
        while root.depth() < depth {
            root = Node::new(8, 0, vec![root]);
        }
        Tree::new(root)
    }

    fn small(&mut self) -> Node {
        Node::with(20, 0, (0, self.name()))
    }

    /// One level, two for what stands in a parameter, and so on; `deepest` stops in time.
    fn around_expression(&mut self, x: Node) -> Node {
        let other = self.small();
        let name = Node::with(40, 5, (0, self.name()));
        match self.r.below(12) {
            0 => Node::new(23, 0, vec![x.role(7)]),
            1 => Node::new(23, 0, vec![other.role(7), x]),
            2 => Node::new(24, 0, vec![x.role(1)]),
            3 => {
                let clause = Node::new(45, 0, vec![name, other.role(4)]);
                Node::new(25, 0, vec![x.role(4), clause])
            }
            4 => {
                let clause = Node::new(45, 0, vec![name, self.small().role(4)]);
                Node::new(26, 0, vec![x.role(8), other.role(4), clause])
            }
            5 => Node::new(27, 0, vec![other, x]),
            6 => Node::new(28, 0, vec![x]),
            7 => Node::new(29, 0, vec![x.role(8), other.role(4)]),
            8 => Node::new(29, 0, vec![other.role(8), x.role(4)]),
            9 => Node::new(30, 0, vec![x, other, self.small()]),
            10 => Node::new(31, 0, vec![other.role(1), x.role(2)]),
            _ => Node::new(33, 0, vec![x]),
        }
    }

    fn around_in_statement(&mut self, x: Node) -> Node {
        let name = Node::with(40, 5, (0, self.name()));
        match self.r.below(4) {
            0 => Node::new(4, 0, vec![x.role(4)]),
            1 => Node::new(6, 0, vec![name, x.role(4)]),
            2 => Node::new(7, 0, vec![name, x.role(4)]),
            _ => Node::new(5, 0, vec![x.role(4)]),
        }
    }

    fn around_statement(&mut self, x: Node) -> Node {
        let other = self.small().role(4);
        let name = Node::with(40, 5, (0, self.name()));
        let body = x.role(1);
        match self.r.below(7) {
            0 => Node::new(9, 0, vec![other, body]),
            1 => Node::new(10, 0, vec![other, body, Node::new(3, 2, vec![])]),
            2 => Node::new(10, 0, vec![other, Node::new(4, 1, vec![]), body.role(2)]),
            3 | 4 => Node::new(11, 0, vec![name, other, body]),
            5 => Node::new(12, 0, vec![name.role(6), body]),
            _ => Node::new(8, 0, vec![body.role(0), use_of(b"a")]),
        }
    }

    fn longest_values(&mut self) -> Tree {
        for fill in [b'a', b'_', 255] {
            self.style.names.push(vec![fill; 255]);
        }
        let room = self.room(10, 60);
        let mut root = self.list(room);
        let (ones, most) = (vec![255; 64], vec![1; 64]);
        let mut keys = vec![(1, vec![7; 255]), (2, vec![7; 255]), (3, ones.clone()), (3, most), (3, ones)];
        let repeated = self.r.pick(&keys).clone();
        keys.push(repeated);
        let pairs = keys.into_iter().flat_map(|k| [Node::with(21, 8, k), Node::new(22, 4, vec![])]).collect();
        root.children.push(Node::new(5, 0, vec![Node::new(29, 4, pairs)]));
        Tree::new(root)
    }

    /// One load of 1,023 names: the most records that are known.
    fn one_load(&mut self) -> Tree {
        let distinct = *self.r.pick(&[1, 1, 2, 500]);
        let names = (0..1023).map(|i| Node::with(47, 0, (0, numbered(i % distinct)))).collect();
        Tree::new(Node::new(13, 0, names))
    }

    fn wide_dict(&mut self) -> Tree {
        let distinct = *self.r.pick(&[1, 2, 100, 511]);
        let pairs = (0..511).flat_map(|i| {
            let key = integer((i % distinct) as u128);
            [Node::with(21, 8, key), Node::new(22, 4, vec![])]
        });
        let dict = Node::new(29, 4, pairs.collect());
        Tree::new(Node::new(5, 0, vec![dict]))
    }

    /// Many names set, then ifs in ifs with loops among them, and uses at the end.
    fn many_standings(&mut self) -> Tree {
        let names = self.r.range(100, 500);
        let set = (0..names).map(|i| Node::with(40, 0, (0, numbered(i)))).collect();
        let value = self.small().role(4);
        let assign = Node::new(6, 0, vec![Node::new(41, 5, set), value]);
        let mut inner = use_of(&numbered(0));
        while inner.depth() < 46 {
            let name = numbered(self.r.below(names + 20));
            inner = if self.r.percent(15) {
                Node::new(6, 0, vec![Node::with(40, 5, (0, name)), self.small().role(4)]).beside(inner)
            } else if self.r.percent(20) {
                Node::new(11, 0, vec![Node::with(40, 5, (0, name)), self.small().role(4), inner.role(1)])
            } else {
                Node::new(9, 0, vec![Node::with(20, 4, (0, name)), inner.role(1)])
            };
        }
        let mut root = Node::new(8, 0, vec![assign, inner]);
        let left = (1024 - root.size()) / 2;
        root.children.extend((0..left.min(names)).map(|i| use_of(&numbered(i))));
        Tree::new(root)
    }
}

impl Node {
    /// This statement, then that one.
    fn beside(self, next: Node) -> Node {
        Node::new(8, 0, vec![self, next])
    }
}
