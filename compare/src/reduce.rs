//! Cuts a valid tree down while a test still holds of it.
use crate::against::measure;
use crate::judge::judge;
use crate::tree::{Node, Tree};

/// Says of each file whether the fault still shows.
type Test<'a> = dyn FnMut(&[Vec<u8>]) -> Result<Vec<bool>, String> + 'a;

pub fn reduced(
    file: Vec<u8>,
    mut shows: impl FnMut(&[Vec<u8>]) -> Result<Vec<bool>, String>,
) -> Result<Vec<u8>, String> {
    let mut best = file;
    while let Some(smaller) = step(&best, &mut shows)? {
        best = smaller;
    }
    Ok(best)
}

/// The smallest of the cuts that still shows the fault.
fn step(file: &[u8], shows: &mut Test) -> Result<Option<Vec<u8>>, String> {
    if judge(file).is_some() {
        return Ok(None);
    }
    let mut all: Vec<Vec<u8>> = cuts(&Tree::read(file)).iter().map(Tree::bytes).collect();
    all.retain(|f| measure(f) < measure(file) && judge(f).is_none());
    all.sort_by_key(|f| measure(f));
    all.dedup();
    for part in all.chunks(64) {
        if let Some(at) = shows(part)?.iter().position(|s| *s) {
            return Ok(Some(part[at].clone()));
        }
    }
    Ok(None)
}

/// Trees with one thing less; not all of them valid.
fn cuts(tree: &Tree) -> Vec<Tree> {
    let mut out = vec![Tree { spare: vec![], ..tree.clone() }, Tree { globals: None, ..tree.clone() }];
    for number in 0..tree.root.size() {
        let mut copy = tree.clone();
        let children = copy.root.at_mut(number).expect("a node").children.len();
        for child in 0..children {
            let mut less = copy.clone();
            less.root.at_mut(number).expect("a node").children.remove(child);
            out.push(less);
            // The node gives its place to the child.
            let mut lifted = copy.clone();
            let place = lifted.root.at_mut(number).expect("a node");
            let role = place.role;
            let inner: Node = place.children.remove(child).role(role);
            *place = inner;
            out.push(lifted);
        }
        // A dict's pair goes as a whole.
        for pair in (0..children.saturating_sub(1)).step_by(2) {
            let mut less = copy.clone();
            less.root.at_mut(number).expect("a node").children.drain(pair..pair + 2);
            out.push(less);
        }
    }
    out
}
