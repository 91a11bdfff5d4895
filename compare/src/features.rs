//! What a file shows, as numbers to be collected: the recorded list is chosen so
//! that together its files show as much as possible.
use crate::file::File;
use crate::judge::refusal;
use crate::rules::{self, Mode};
use crate::tree::{Node, Tree};
use originals::Record;
use std::collections::{BTreeMap, BTreeSet};
use std::hash::{DefaultHasher, Hash, Hasher};

/// A feature, how much it counts, and how many files are to show it.
pub type Features = BTreeMap<u64, (u32, u32)>;

/// A case of the names rules may be met and not be seen in the list: several files.
const CASE: (u32, u32) = (8, 4);
/// A free x = x isn't seen in the list either.
const FREE: (u32, u32) = (24, 3);

fn add(out: &mut Features, weight: u32, feature: impl Hash) {
    put(out, (weight, 1), feature);
}

fn put(out: &mut Features, wanted: (u32, u32), feature: impl Hash) {
    let mut hasher = DefaultHasher::new();
    feature.hash(&mut hasher);
    out.insert(hasher.finish(), wanted);
}

/// A construct that others stand in: kind, and the role of the child towards them.
type Place = (u8, u8);

fn is_construct(kind: u8) -> bool {
    matches!(kind, 8..=12 | 24..=26 | 29 | 30 | 42..=46)
}

struct Collector<'a> {
    out: &'a mut Features,
    codes: BTreeMap<(u32, u32), BTreeSet<u32>>,
    /// For each name its last place and kind of mention.
    last: BTreeMap<Vec<u8>, (u8, Place)>,
}

impl Collector<'_> {
    fn node(&mut self, x: &Node, around: &[Place]) {
        let near = |n: usize| around.iter().rev().take(n).copied().collect::<Vec<Place>>();
        for code in self.codes.get(&x.span).cloned().unwrap_or_default() {
            add(self.out, 6, ("code in", code, near(1)));
            add(self.out, 2, ("code in two", code, near(2)));
        }
        if let Some((0, name)) = &x.value {
            let here = (x.kind, near(1).first().copied().unwrap_or((0, 0)));
            if let Some(before) = self.last.insert(name.clone(), here) {
                add(self.out, 1, ("name", before, here));
            }
        }
        if x.kind == 29 {
            self.keys(x);
        }
        if x.kind == 10 {
            let ends: BTreeMap<u8, u8> = x.children.iter().map(|c| (c.role, ending(c))).collect();
            add(self.out, 3, ("sides", ends.get(&1), ends.get(&2)));
        }
        for child in &x.children {
            add(self.out, 32, ("edge", x.kind, child.role, child.kind));
            let mut inner = around.to_vec();
            if is_construct(x.kind) {
                inner.push((x.kind, child.role));
                add(self.out, 2, ("nest", inner.iter().rev().take(3).collect::<Vec<_>>()));
            }
            self.node(child, &inner);
        }
    }

    fn keys(&mut self, dict: &Node) {
        let keys: Vec<&Node> = dict.children.iter().filter(|c| c.role == 8).collect();
        for pair in keys.windows(2) {
            let form = |x: &Node| (x.kind, x.value.as_ref().map(|v| v.0));
            add(self.out, 1, ("keys", form(pair[0]), form(pair[1]), pair[0].value == pair[1].value));
        }
    }
}

/// How a statement ends: the kind of its last, lists looked through.
fn ending(x: &Node) -> u8 {
    match (x.kind, x.children.last()) {
        (8, Some(last)) => ending(last),
        (5, Some(call)) if call.kind == 23 && is_fail(call) => 99,
        (kind, _) => kind,
    }
}

fn is_fail(call: &Node) -> bool {
    call.children.iter().any(|c| c.role == 7 && c.value.as_ref().is_some_and(|v| v.1 == b"fail"))
}

fn loops(x: &Node) -> usize {
    x.children.iter().map(loops).max().unwrap_or(0) + usize::from(x.kind == 11)
}

/// By version: where x = x is free, how often it was before, whether it has a type; and what is warned of such names.
fn exports(bytes: &[u8], all: &[Record], out: &mut Features) {
    let (file, freed) = (File::read(bytes).expect("a valid file"), rules::freed(bytes));
    let size = |i: usize| usize::from(file.nodes[i].size);
    let around = |i: usize| (0..i).rev().find(|p| p + size(*p) > i).map(|p| file.nodes[p].kind);
    for (before, i) in freed.values().flat_map(|nodes| nodes.iter().enumerate()) {
        put(out, FREE, ("free", file.version, before.min(4), around(*i), size(*i) > 3));
    }
    for r in all.iter().filter(|r| r[0] == 15) {
        let times = freed.get(&(r[3] as u16)).map_or(0, Vec::len);
        let [first, later] = [r[9], r[8]].map(|i| around(i as usize));
        add(out, 8, ("duplicate", file.version, first, later, times.min(3)));
    }
}

pub fn features(file: &[u8]) -> Features {
    let mut out = Features::new();
    if let Some(r) = refusal(file) {
        let place = match r.place {
            0..=4 => r.place,
            5..=9 => 5,
            10..=19 => 10,
            _ => 20,
        };
        add(&mut out, 12, ("why", r.number, r.why));
        add(&mut out, 8, ("refused", r.number, place));
        let node = file.get(11 + 16 * r.place..).and_then(|b| b.first());
        if matches!(r.number, 6 | 7) {
            add(&mut out, 4, ("node", r.number, r.why, node));
        }
        return out;
    }
    let tree = Tree::read(file);
    let all = rules::records(file, Mode::Ordinary).concat();
    let mut codes: BTreeMap<(u32, u32), BTreeSet<u32>> = BTreeMap::new();
    for r in &all {
        codes.entry((r[1], r[2])).or_default().insert(r[0]);
    }
    let kinds: BTreeSet<u32> = all.iter().map(|r| r[0]).collect();
    for a in &kinds {
        add(&mut out, 8, ("code", a, tree.globals.is_some()));
        kinds.iter().filter(|b| b > &a).for_each(|b| add(&mut out, 6, ("codes", a, b)));
    }
    add(&mut out, 60, ("loops", loops(&tree.root).min(9)));
    out.extend(rules::cases(file).into_iter().map(|case| (case, CASE)));
    for met in rules::met(file).into_iter().filter(|m| m.kinds.len() > 1) {
        add(&mut out, 8, ("met", met.code, met.kinds[0], met.kinds[met.at], met.at > 0));
    }
    exports(file, &all, &mut out);
    Collector { out: &mut out, codes, last: BTreeMap::new() }.node(&tree.root, &[]);
    out
}
