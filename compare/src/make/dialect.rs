//! Loaded names that are exported again and again (02, §9), and what is nearly that.
use super::{Maker, Room};
use crate::random::Random;
use crate::tree::Node;

/// Nodes and levels of x = x, and those that every statement made here keeps to.
const LEAST: (usize, usize) = (3, 2);
const MOST: (usize, usize) = (5, 3);

/// Mostly the second; the first shows what it has of the same.
pub fn version(r: &mut Random) -> u16 {
    if r.percent(70) {
        2
    } else {
        1
    }
}

impl Room {
    fn holds(self, (nodes, levels): (usize, usize)) -> bool {
        self.nodes >= nodes && self.levels >= levels
    }
}

impl Maker<'_> {
    /// A list, before exports one that begins with a load.
    pub fn exporting(&mut self, room: Room) -> Node {
        if !self.style.dialect || room.nodes < 2 * MOST.0 {
            return self.list(room);
        }
        let load = self.load(room);
        let mut list = self.list(Room { nodes: room.nodes - load.size(), ..room });
        list.children.insert(0, load);
        list
    }

    /// Whether a statement is to be one of this file's.
    pub fn exports(&mut self, room: Room) -> bool {
        let share = if room.in_def { 20 } else { 70 };
        self.style.dialect && room.holds(LEAST) && self.r.percent(share)
    }

    pub fn export(&mut self, room: Room) -> Node {
        match self.r.below(if room.holds(MOST) { 20 } else { 1 }) {
            0..=11 => Node::new(6, 0, self.same(room)),
            12..=14 => self.load(room),
            _ => self.nearly(),
        }
    }

    fn load(&mut self, room: Room) -> Node {
        Node::new(13, 0, self.loaded(Room { nodes: MOST.0, ..room }))
    }

    /// What is not x = x, and what defines x otherwise than by a load.
    fn nearly(&mut self) -> Node {
        let [x, y] = [self.name(), self.name()].map(|name| (0, name));
        let (target, value) = (Node::with(40, 5, x.clone()), Node::with(20, 4, x));
        let several = |targets| Node::new(41, 5, targets);
        let (kind, children) = match self.r.below(8) {
            0 => (6, vec![target, Node::with(20, 4, y)]),
            1 => (6, vec![target, Node::new(27, 4, vec![value.role(0)])]),
            2 => (6, vec![target, Node::new(22, 4, vec![])]),
            3 => (6, vec![several(vec![target.role(0)]), value]),
            4 => (6, vec![several(vec![target.role(0), Node::with(40, 0, y)]), value]),
            5 => (6, vec![Node::new(42, 5, vec![value.clone().role(0)]), value]),
            6 => (7, vec![target, value]),
            _ => (12, vec![target.role(6), Node::new(3, 1, vec![])]),
        };
        Node::new(kind, 0, children)
    }
}
