//! Expressions and clauses.
use super::{Maker, Room};
use crate::tree::Node;

/// Nodes and levels that an expression of kinds 20 to 33 needs at least.
const NEEDS: [(usize, usize); 14] = [
    (1, 1),
    (1, 1),
    (1, 1),
    (2, 2),
    (2, 2),
    (5, 3),
    (6, 3),
    (1, 1),
    (1, 1),
    (1, 1),
    (4, 2),
    (3, 2),
    (3, 2),
    (1, 1),
];

const TYPES: [&str; 7] = ["bool", "tuple", "str", "list", "int", "dict", "bools"];

impl Maker<'_> {
    fn identifier(&mut self) -> Node {
        Node::with(20, 0, (0, self.name()))
    }

    pub fn told(&mut self, name: &str) -> Node {
        Node::with(20, 0, (0, name.as_bytes().to_vec()))
    }

    /// At most so many E0.
    pub fn expressions(&mut self, room: Room, most: usize) -> Vec<Node> {
        if room.levels < 2 {
            return vec![];
        }
        self.several(room.nodes - 1, most, |me, n| me.expression(room.below(n)))
    }

    /// An expression that is a statement.
    pub fn stated(&mut self, room: Room) -> Node {
        match self.r.below(20) {
            0..=2 => self.identifier(),
            3 => Node::with(21, 0, (1, b"doc".to_vec())),
            4..=6 if room.nodes > 1 && room.levels > 1 => {
                let called = self.told("fail").role(7);
                let mut children = vec![called];
                children.extend(self.expressions(Room { nodes: room.nodes - 1, ..room }, 2));
                Node::new(23, 0, children)
            }
            _ => self.expression(room),
        }
    }

    pub fn expression(&mut self, room: Room) -> Node {
        let mut weights = self.style.expressions;
        for (weight, (nodes, levels)) in weights.iter_mut().zip(NEEDS) {
            if room.nodes < nodes || room.levels < levels {
                *weight = 0;
            }
        }
        // With room to spare, rather something that has parts.
        if room.nodes > 3 {
            weights[..3].iter_mut().for_each(|w| *w = w.div_ceil(2));
        }
        let kind = 20 + self.r.weighted(&weights) as u8;
        self.expression_of(kind, room)
    }

    fn expression_of(&mut self, kind: u8, room: Room) -> Node {
        let n = room.nodes - 1;
        let children = match kind {
            20 => return self.identifier(),
            21 => return Node::with(21, 0, self.literal()),
            22 => vec![],
            23 => self.call(room),
            24 => {
                let n = self.shares(n, &[0, 1]);
                let mut out = self.parameters(room, n[0]);
                out.push(self.expression(room.below(n[1])).role(1));
                out
            }
            25 => {
                let n = self.shares(n, &[1, 3]);
                let mut out = vec![self.expression(room.below(n[0])).role(4)];
                out.extend(self.clauses(room, n[1]));
                out
            }
            26 => {
                let n = self.shares(n, &[1, 1, 3]);
                let key = self.key(room.below(n[0])).role(8);
                let mut out = vec![key, self.expression(room.below(n[1])).role(4)];
                out.extend(self.clauses(room, n[2]));
                out
            }
            29 => self.pairs(room),
            30 => {
                let n = self.shares(n, &[1, 1, 1]);
                n.iter().map(|n| self.expression(room.below(*n))).collect()
            }
            31 | 32 => self.compared(room),
            _ => {
                let most = self.r.range(0, 5);
                self.expressions(room, most)
            }
        };
        Node::new(kind, 0, children)
    }

    fn call(&mut self, room: Room) -> Vec<Node> {
        let n = self.shares(room.nodes - 1, &[1, 0]);
        let function = match self.r.below(20) {
            0 => self.told("fail"),
            1 => self.told("type"),
            2..=14 => self.identifier(),
            _ => self.expression(room.below(n[0])),
        };
        let most = self.r.range(0, 4);
        let mut out = vec![function.role(7)];
        out.extend(self.expressions(Room { nodes: n[1] + 1, ..room }, most));
        out
    }

    /// Sides of an equal: often a type check, or nearly one.
    fn compared(&mut self, room: Room) -> Vec<Node> {
        let n = self.shares(room.nodes - 1, &[1, 1]);
        let mut left = self.expression(room.below(n[0]));
        let mut right = self.expression(room.below(n[1]));
        if n[0] > 2 && room.levels > 2 && self.r.percent(65) {
            let arguments = [1, 1, 1, 1, 1, 0, 2][self.r.below(7)];
            let named = if self.r.percent(90) { "type" } else { "typ" };
            let mut parts = vec![self.told(named).role(7)];
            parts.extend(self.expressions(Room { nodes: n[0] - 1, ..room }.below(n[0] - 1), arguments));
            left = Node::new(23, 0, parts);
        }
        if self.r.percent(70) {
            let name = *self.r.pick(&TYPES);
            right = self.told(name);
        }
        if self.r.percent(8) {
            std::mem::swap(&mut left, &mut right);
        }
        vec![left.role(1), right.role(2)]
    }

    /// Mostly what the key rules look at.
    fn key(&mut self, room: Room) -> Node {
        match self.r.below(10) {
            0..=2 if !self.style.floats => self.identifier(),
            0..=7 => Node::with(21, 0, self.literal()),
            _ => self.expression(room),
        }
    }

    /// An earlier key once more, a number often in its other form.
    fn key_again(&mut self, pairs: &[Node]) -> Option<Node> {
        let earlier: Vec<&Node> = pairs.iter().filter(|x| x.role == 8 && x.value.is_some()).collect();
        let often = if self.style.floats { 60 } else { 30 };
        if earlier.is_empty() || !self.r.percent(often) {
            return None;
        }
        let mut again = (*self.r.pick(&earlier)).clone();
        if self.r.percent(60) {
            again.value = again.value.as_ref().map(|v| self.otherwise(v));
        }
        Some(again)
    }

    fn pairs(&mut self, room: Room) -> Vec<Node> {
        let (mut out, mut left) = (Vec::new(), room.nodes - 1);
        while left >= 2 && room.levels > 1 && self.r.percent(85) {
            let share = self.r.range(2, left.min(10));
            let n = self.shares(share, &[1, 1]);
            let key = self.key_again(&out).unwrap_or_else(|| self.key(room.below(n[0])));
            let pair = [key.role(8), self.expression(room.below(n[1])).role(4)];
            left -= pair.iter().map(Node::size).sum::<usize>();
            out.extend(pair);
        }
        out
    }

    /// At least three nodes of room: a for clause first, then any.
    fn clauses(&mut self, room: Room, nodes: usize) -> Vec<Node> {
        let first = if self.r.percent(50) { nodes } else { self.r.range(3, nodes) };
        let mut out = vec![self.for_clause(room.below(first))];
        let left = nodes - out[0].size();
        let more = self.several(left, 3, |me, n| {
            if n >= 3 && me.r.percent(55) {
                me.for_clause(room.below(n))
            } else if n >= 2 {
                Node::new(46, 0, vec![me.expression(room.below(n).below(n - 1)).role(4)])
            } else {
                Node::new(46, 0, vec![])
            }
        });
        // One node is too little for a clause.
        out.extend(more.into_iter().filter(|c| !c.children.is_empty()));
        out
    }

    fn for_clause(&mut self, room: Room) -> Node {
        let n = self.shares(room.nodes - 1, &[1, 1]);
        let target = self.target(room.below(n[0])).role(5);
        Node::new(45, 0, vec![target, self.expression(room.below(n[1])).role(4)])
    }
}
