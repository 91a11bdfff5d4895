//! Children in any order that document 01 allows.
use crate::random::Random;
use crate::tree::Node;

pub fn shuffle(node: &mut Node, r: &mut Random) {
    // Not every node, so that both orders meet in one tree.
    if node.kind != 29 && r.percent(70) {
        let mut clauses: Vec<Node> = Vec::new();
        node.children.iter().filter(|c| matches!(c.kind, 45 | 46)).for_each(|c| clauses.push(c.clone()));
        r.shuffle(&mut node.children);
        // Clauses keep their order among themselves.
        let places = node.children.iter_mut().filter(|c| matches!(c.kind, 45 | 46));
        places.zip(clauses).for_each(|(place, clause)| *place = clause);
    }
    node.children.iter_mut().for_each(|c| shuffle(c, r));
}
