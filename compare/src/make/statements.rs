//! Statements, targets and parameters.
use super::{Maker, Room};
use crate::tree::Node;

/// Nodes and levels that a statement of kinds 1 to 13 needs at least.
const NEEDS: [(usize, usize); 13] =
    [(1, 1), (1, 1), (1, 1), (1, 1), (2, 2), (3, 2), (3, 2), (1, 1), (3, 2), (4, 2), (4, 2), (3, 2), (1, 1)];

impl Maker<'_> {
    /// The tree's root: mostly a list, now and then one statement alone.
    pub fn root(&mut self, room: Room) -> Node {
        if self.style.nest > 0 {
            let nodes = room.nodes.max(130);
            return self.tower(self.style.nest, Room { nodes, levels: 48, ..room });
        }
        if self.r.percent(92) {
            self.exporting(room)
        } else {
            self.statement(room)
        }
    }

    pub fn list(&mut self, room: Room) -> Node {
        if room.levels < 2 {
            return Node::new(8, 0, vec![]);
        }
        let mut members =
            self.several(room.nodes - 1, usize::MAX, |me, nodes| me.statement(room.below(nodes)));
        // A list that ends early is a small tree: mostly fill it up.
        while self.r.percent(75) {
            let left = room.nodes - 1 - members.iter().map(Node::size).sum::<usize>();
            if left == 0 {
                break;
            }
            members.push(self.statement(room.below(left)));
        }
        Node::new(8, 0, members)
    }

    /// Loops in one another, now and then a def, an if or a statement between.
    fn tower(&mut self, count: usize, room: Room) -> Node {
        if count == 0 || room.nodes < 16 || room.levels < 8 {
            return self.list(room);
        }
        let around = self.r.below(room.nodes.min(60) / 4);
        let inner = room.nodes - around - 4;
        let below = Room { in_loop: true, ..room.below(inner).below(inner) };
        let body = self.tower(count - 1, below).role(1);
        let target = self.target(room.below(1).below(1)).role(5);
        let over = self.expression(room.below(1).below(1)).role(4);
        let looped = match self.r.below(8) {
            0 => Node::new(12, 0, vec![self.def_name(), body]),
            1 => Node::new(9, 0, vec![over, body]),
            _ => Node::new(11, 0, vec![target, over, body]),
        };
        let mut members = vec![looped];
        if around > 1 {
            let more = self.statement(room.below(around));
            let at = self.r.below(2);
            members.insert(at, more);
        }
        Node::new(8, 0, members)
    }

    fn body(&mut self, room: Room, role: u8) -> Node {
        let node = match self.r.below(20) {
            0..=2 if room.nodes >= 12 && room.levels >= 6 => self.ended(room),
            0..=13 => self.list(room),
            _ => self.statement(room),
        };
        node.role(role)
    }

    /// A body that ends with sides: what is last, and what ends surely, hangs on them.
    fn ended(&mut self, room: Room) -> Node {
        let before = self.statement(room.below(room.nodes - 11));
        let inner = room.below(3).below(3);
        let one = Node::new(8, 1, vec![self.ending(inner.below(2))]);
        let other = Node::new(8, 2, vec![self.ending(inner.below(2))]);
        let condition = self.expression(inner.below(1)).role(4);
        let sides = if self.r.percent(75) { vec![condition, one, other] } else { vec![condition, one] };
        Node::new(8, 0, vec![before, Node::new(if sides.len() == 3 { 10 } else { 9 }, 0, sides)])
    }

    fn ending(&mut self, room: Room) -> Node {
        let kind = match (room.in_def, room.in_loop, self.r.below(8)) {
            (true, _, 0..=2) => 4,
            (_, true, 3) => 1,
            (_, true, 4 | 5) => 2,
            (true, _, 3 | 4) | (_, _, 6) => {
                let called = self.told("fail").role(7);
                return Node::new(5, 0, vec![Node::new(23, 4, vec![called])]);
            }
            _ => 3,
        };
        self.statement_of(kind, room)
    }

    pub fn statement(&mut self, room: Room) -> Node {
        if self.exports(room) {
            return self.export(room);
        }
        let mut weights = self.style.statements;
        for (weight, (nodes, levels)) in weights.iter_mut().zip(NEEDS) {
            if room.nodes < nodes || room.levels < levels {
                *weight = 0;
            }
        }
        if !self.style.loose {
            let fits = [room.in_loop, room.in_loop, true, room.in_def];
            (0..4).filter(|i| !fits[*i]).for_each(|i| weights[i] = 0);
            weights[12] *= usize::from(!room.in_def && !room.in_loop);
        }
        weights[2] += usize::from(weights.iter().all(|w| *w == 0));
        let kind = 1 + self.r.weighted(&weights) as u8;
        self.statement_of(kind, room)
    }

    fn statement_of(&mut self, kind: u8, room: Room) -> Node {
        let n = room.nodes - 1;
        let children = match kind {
            1..=3 => vec![],
            4 if n == 0 || room.levels < 2 || self.r.percent(35) => vec![],
            4 => vec![self.expression(room.below(n)).role(4)],
            5 => vec![self.stated(room.below(n)).role(4)],
            6 => self.assign(room),
            7 => {
                let n = self.shares(n, &[1, 1]);
                vec![self.target(room.below(n[0])).role(5), self.expression(room.below(n[1])).role(4)]
            }
            8 => return self.list(room),
            9 => {
                let n = self.shares(n, &[1, 1]);
                vec![self.condition(room.below(n[0])), self.body(room.below(n[1]), 1)]
            }
            10 => {
                let n = self.shares(n, &[1, 1, 1]);
                let sides = [self.body(room.below(n[1]), 1), self.body(room.below(n[2]), 2)];
                let [left, right] = sides;
                vec![self.condition(room.below(n[0])), left, right]
            }
            11 => {
                let n = self.shares(n, &[1, 1, 1]);
                let inside = Room { in_loop: true, ..room.below(n[2]) };
                vec![
                    self.target(room.below(n[0])).role(5),
                    self.expression(room.below(n[1])).role(4),
                    self.body(inside, 1),
                ]
            }
            12 => self.def(room),
            _ => self.loaded(room),
        };
        Node::new(kind, 0, children)
    }

    /// Conditions are short: what matters is on the sides.
    fn condition(&mut self, room: Room) -> Node {
        let nodes = if self.r.percent(80) { 1 } else { room.nodes };
        self.expression(Room { nodes, ..room }).role(4)
    }

    fn assign(&mut self, room: Room) -> Vec<Node> {
        if self.r.percent(12) {
            return self.same(room);
        }
        let typed = usize::from(room.nodes > 3 && self.r.percent(25));
        let n = self.shares(room.nodes - 1, &[1, typed, 1]);
        let mut out = vec![self.target(room.below(n[0])).role(5)];
        if typed == 1 {
            out.push(self.expression(room.below(n[1])).role(3));
        }
        out.push(self.expression(room.below(n[2])).role(4));
        out
    }

    /// x = x, now and then with a type.
    pub fn same(&mut self, room: Room) -> Vec<Node> {
        let name = self.name();
        let mut out = vec![Node::with(40, 5, (0, name.clone())), Node::with(20, 4, (0, name))];
        if room.nodes > 3 && self.r.percent(25) {
            out.insert(1, self.expression(room.below(1)).role(3));
        }
        out
    }

    fn def_name(&mut self) -> Node {
        Node::with(40, 6, (0, self.name()))
    }

    fn def(&mut self, room: Room) -> Vec<Node> {
        // Nodes for the return type, then for the parameters; the body has the rest.
        let most = (room.nodes - 3).min(7);
        let typed = if self.r.percent(35) { self.r.below(most + 1) } else { 0 };
        let given = (room.nodes - 3 - typed).min(self.r.below(20));
        let left = room.nodes - 2 - given - typed;
        let mut out = vec![self.def_name()];
        out.extend(self.parameters(room, given));
        if typed > 0 {
            let name = if self.r.percent(40) { b"None".to_vec() } else { self.name() };
            let plain = Node::with(20, 3, (0, name));
            out.push(if self.r.percent(60) { plain } else { self.expression(room.below(typed)).role(3) });
        }
        // A def in a loop: its break would have no loop of its own.
        let inside = Room { in_def: true, in_loop: false, ..room.below(left) };
        out.push(self.body(inside, 1));
        out
    }

    /// Parameters of a def or lambda, with types and defaults.
    pub fn parameters(&mut self, room: Room, nodes: usize) -> Vec<Node> {
        self.several(nodes, 6, |me, nodes| {
            let deep = room.levels > 2;
            let inner = if deep { me.r.below(nodes.min(12)) } else { 0 };
            let exprs = me.several(inner, 2, |me, n| me.expression(room.below(n).below(n)));
            if me.r.percent(85) {
                let name = me.name();
                Node { children: exprs, ..Node::with(43, 0, (0, name)) }
            } else {
                Node::new(44, 0, exprs)
            }
        })
    }

    pub fn loaded(&mut self, room: Room) -> Vec<Node> {
        let most = if room.levels < 2 { 0 } else { room.nodes - 1 };
        let most = most.min(self.r.range(0, 4));
        (0..most).map(|_| Node::with(47, 0, (0, self.name()))).collect()
    }

    pub fn target(&mut self, room: Room) -> Node {
        match self.r.below(10) {
            0 | 1 if room.levels > 1 => {
                let most = self.r.range(0, 4);
                let parts = self.several(room.nodes - 1, most, |me, n| me.target(room.below(n)));
                Node::new(41, 0, parts)
            }
            2 | 3 if room.levels > 1 => {
                let most = self.r.range(0, 3);
                Node::new(42, 0, self.expressions(room, most))
            }
            _ => Node::with(40, 0, (0, self.name())),
        }
    }
}
