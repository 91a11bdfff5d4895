//! The generator: seed and index in, a tree file out.
mod dialect;
mod expressions;
mod limits;
mod literals;
mod numbers;
mod order;
mod spans;
mod statements;
mod style;

use crate::random::Random;
use crate::tree::{Node, Tree};
pub use literals::{float, integer};
use style::Style;

/// What the command line asks for; with an index it decides one file.
#[derive(Clone, Copy, Default)]
pub struct Plan {
    pub seed: u64,
    /// Children in any order that document 01 allows, else in its lists' order.
    pub any_order: bool,
    pub damage: bool,
    /// With values up to the limits, which most trees have no use for.
    pub long: bool,
    /// Nodes that hold names stand on one another's spans.
    pub shared: bool,
    /// Keys are mostly whole floats of every size and their integers.
    pub floats: bool,
    /// Of either version, with loaded names that are exported again and again.
    pub dialect: bool,
}

impl Plan {
    pub const FLAGS: [&'static str; 6] =
        ["--any-order", "--damage", "--long", "--shared", "--floats", "--dialect"];

    pub fn new(seed: u64, has: impl Fn(&str) -> bool) -> Plan {
        let [any_order, damage, long, shared, floats, dialect] = Plan::FLAGS.map(has);
        Plan { seed, any_order, damage, long, shared, floats, dialect }
    }

    /// As it stands in recorded.txt, to be given to `compare make`.
    pub fn words(&self, index: u64) -> String {
        let asked = [self.any_order, self.damage, self.long, self.shared, self.floats, self.dialect];
        let flags = Plan::FLAGS.iter().zip(asked).filter(|f| f.1).map(|f| format!(" {}", f.0));
        format!("--seed {} --from {index} --count 1{}", self.seed, flags.collect::<String>())
    }

    pub fn file(&self, index: u64) -> Vec<u8> {
        let mut r = Random::new(self.seed, index);
        if self.damage {
            let (tree, deep) = (self.tree(&mut r), r.percent(12));
            return if deep {
                crate::damage::too_deep(tree.version, &mut r)
            } else {
                crate::damage::damaged(&tree, &mut r)
            };
        }
        self.tree(&mut r).bytes()
    }

    fn style(&self, r: &mut Random) -> Style {
        let style = if self.floats { Style::floats(r) } else { Style::any(r) };
        if self.dialect {
            style.dialect(r)
        } else {
            style
        }
    }

    fn tree(&self, r: &mut Random) -> Tree {
        let mut tree = if r.percent(2) { limits::tree(self.style(r), r) } else { free(self.style(r), r) };
        if self.any_order {
            order::shuffle(&mut tree.root, r);
        }
        spans::give(&mut tree.root, r);
        if self.shared {
            spans::share(&mut tree.root, r);
        }
        if self.long {
            limits::lengthen(&mut tree);
        }
        if self.dialect {
            tree.version = dialect::version(r);
        }
        tree
    }
}

/// Each node around its children, no two with one span.
pub fn text_spans(root: &mut Node) {
    spans::text(root, &mut 0);
}

/// How much a part may take, and where it stands.
#[derive(Clone, Copy)]
pub struct Room {
    /// Nodes, the part's own root included.
    pub nodes: usize,
    /// Levels, its own included.
    pub levels: usize,
    pub in_loop: bool,
    pub in_def: bool,
}

impl Room {
    /// The room of a child.
    fn below(self, nodes: usize) -> Room {
        Room { nodes, levels: self.levels - 1, ..self }
    }
}

/// Makes parts of one tree in one style.
pub struct Maker<'r> {
    pub r: &'r mut Random,
    pub style: Style,
}

impl Maker<'_> {
    fn name(&mut self) -> Vec<u8> {
        let n = self.style.names.len();
        // The lesser of two: early names come up more often.
        let at = self.r.below(n).min(self.r.below(n));
        self.style.names[at].clone()
    }

    /// A random share of the nodes for each part, none below its least.
    fn shares(&mut self, nodes: usize, least: &[usize]) -> Vec<usize> {
        let extra = nodes - least.iter().sum::<usize>();
        let weights: Vec<usize> = least.iter().map(|_| 1 + self.r.below(6) * self.r.below(6)).collect();
        let total: usize = weights.iter().sum();
        least.iter().zip(weights).map(|(l, w)| l + extra * w / total).collect()
    }

    /// Parts of at least one node that together take at most these nodes.
    fn several(
        &mut self,
        nodes: usize,
        most: usize,
        mut part: impl FnMut(&mut Self, usize) -> Node,
    ) -> Vec<Node> {
        let (mut out, mut left) = (Vec::new(), nodes);
        while left > 0 && out.len() < most && self.r.percent(90) {
            let share = if self.r.percent(70) { left.min(12) } else { left };
            let share = self.r.range(1, share);
            let made = part(self, share);
            left -= made.size();
            out.push(made);
        }
        out
    }
}

/// A tree whose last node stands at this depth, over the limit or not.
pub fn deep_tree(r: &mut Random, depth: usize) -> Tree {
    let mut tree = Maker { style: Style::any(r), r }.deepest(depth);
    spans::give(&mut tree.root, r);
    tree
}

/// A tree with no bound in mind but the general ones.
fn free(style: Style, r: &mut Random) -> Tree {
    let nodes = match r.below(50) {
        0..=16 => r.range(1, 12),
        17..=34 => r.range(12, 40),
        35..=45 => r.range(40, 120),
        46..=48 => r.range(120, 500),
        _ => r.range(500, 1024),
    };
    // A load and some exports at least.
    let nodes = if style.dialect { nodes.max(r.range(8, 60)) } else { nodes };
    let levels = if r.percent(80) { r.range(3, 20) } else { 48 };
    let mut maker = Maker { r, style };
    let room = Room { nodes, levels, in_loop: false, in_def: false };
    let root = maker.root(room);
    let mut tree = Tree::new(root);
    maker.surroundings(&mut tree);
    tree
}
