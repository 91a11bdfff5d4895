//! What a heap of files shows: codes, kinds, roles, places of kinds, refusals.
use crate::judge::judge;
use crate::kinds::{self, KINDS};
use crate::listing::records;
use crate::rules::{self, Met, Mode};
use crate::tree::{Node, Tree};
use std::collections::{BTreeMap, BTreeSet};
use std::fmt::Write;

/// A kind below a kind in a role.
pub type Edge = (u8, u8, u8);

/// Every edge that a valid tree can have.
pub fn edges() -> BTreeSet<Edge> {
    let mut out = BTreeSet::new();
    for parent in &KINDS {
        for slot in parent.slots {
            let fits = KINDS.iter().filter(|k| kinds::belongs(k.kind, slot.class));
            out.extend(fits.map(|child| (parent.kind, slot.role, child.kind)));
        }
    }
    out
}

pub fn edges_of(node: &Node, out: &mut BTreeSet<Edge>) {
    for child in &node.children {
        out.insert((node.kind, child.role, child.kind));
        edges_of(child, out);
    }
}

/// The most for statements that stand in one another.
fn loops(node: &Node) -> usize {
    node.children.iter().map(loops).max().unwrap_or(0) + usize::from(node.kind == 11)
}

/// Times that x = x is free: once as in version 1, then more.
const TIMES: [usize; 6] = [1, 2, 3, 5, 10, 100];

/// Bits of whole numbers: any, more than an i32 has, than 01's bound of 2^53, than a word, all of 64 bytes.
const BITS: [usize; 5] = [0, 32, 54, 65, 512];

#[derive(Default)]
pub struct Coverage {
    files: usize,
    valid: usize,
    panics: usize,
    versions: BTreeMap<u16, usize>,
    /// By version: trees with a record of code 15.
    duplicates: BTreeMap<u16, usize>,
    /// By times: trees of version 2 where some x = x is free so often or more.
    freed: BTreeMap<usize, usize>,
    /// How often it is free there a second time or more.
    free_again: usize,
    codes: BTreeMap<u32, usize>,
    reasons: BTreeMap<u32, usize>,
    /// By bits: trees with a number of so many or more that strict keys hold equal in its two forms.
    two_forms: BTreeMap<usize, usize>,
    kinds: BTreeMap<u8, usize>,
    roles: BTreeMap<u8, usize>,
    refusals: BTreeMap<u32, usize>,
    places: BTreeMap<u32, BTreeSet<usize>>,
    edges: BTreeSet<Edge>,
    loops: BTreeMap<usize, usize>,
    limits: BTreeMap<&'static str, usize>,
    shared: usize,
    /// By code: trees with a record of it that has another node than the file's first of its span and name.
    later: BTreeMap<u32, usize>,
}

impl Coverage {
    pub fn add(&mut self, bytes: &[u8]) {
        self.files += 1;
        if let Some((number, place)) = judge(bytes) {
            *self.refusals.entry(number).or_default() += 1;
            self.places.entry(number).or_default().insert(place);
            return;
        }
        self.valid += 1;
        let tree = Tree::read(bytes);
        let (mut kinds, mut roles) = (BTreeSet::new(), BTreeSet::new());
        tree.root.each(&mut |x| {
            kinds.insert(x.kind);
            roles.insert(x.role);
        });
        kinds.into_iter().for_each(|k| *self.kinds.entry(k).or_default() += 1);
        roles.into_iter().for_each(|k| *self.roles.entry(k).or_default() += 1);
        edges_of(&tree.root, &mut self.edges);
        *self.loops.entry(loops(&tree.root)).or_default() += 1;
        self.limits(&tree);
        self.panics += usize::from(records(bytes).is_none());
        let all = rules::records(bytes, Mode::Ordinary).concat();
        let codes: BTreeSet<u32> = all.iter().map(|r| r[0]).collect();
        *self.versions.entry(tree.version).or_default() += 1;
        *self.duplicates.entry(tree.version).or_default() += usize::from(codes.contains(&15));
        codes.into_iter().for_each(|c| *self.codes.entry(c).or_default() += 1);
        let reasons: BTreeSet<u32> = all.iter().filter(|r| r[0] == 16).map(|r| r[6]).collect();
        reasons.into_iter().for_each(|c| *self.reasons.entry(c).or_default() += 1);
        let most = rules::in_two_forms(bytes).into_iter().max();
        let reached = BITS.into_iter().filter(|bits| most >= Some(*bits));
        reached.for_each(|c| *self.two_forms.entry(c).or_default() += 1);
        self.nodes(&rules::met(bytes));
        if tree.version == 2 {
            self.exports(rules::freed(bytes).values().map(Vec::len).collect());
        }
    }

    /// Of each loaded name how often x = x is free.
    fn exports(&mut self, freed: Vec<usize>) {
        self.free_again += freed.iter().map(|times| times - 1).sum::<usize>();
        let most = freed.into_iter().max();
        let reached = TIMES.into_iter().filter(|times| most >= Some(*times));
        reached.for_each(|c| *self.freed.entry(c).or_default() += 1);
    }

    fn nodes(&mut self, met: &[Met]) {
        self.shared += usize::from(met.iter().any(|m| m.kinds.len() > 1));
        let later: BTreeSet<u32> = met.iter().filter(|m| m.at > 0).map(|m| m.code).collect();
        later.into_iter().for_each(|c| *self.later.entry(c).or_default() += 1);
    }

    fn limits(&mut self, tree: &Tree) {
        let values = tree.values();
        let longest = |kind| values.iter().filter(|v| v.0 == kind).map(|v| v.1.len()).max().unwrap_or(0);
        let globals = tree.globals.as_ref().map_or(0, Vec::len);
        let facts = [
            ("1,024 nodes", tree.root.size() == 1024),
            ("512 values", values.len() == 512),
            ("512 globals", globals == 512),
            ("globals given", tree.globals.is_some()),
            ("depth 48", tree.root.depth() == 48),
            ("a name of 255 bytes", longest(0) == 255),
            ("a string of 255 bytes", longest(1) == 255),
            ("an integer of 64 bytes", longest(3) == 64),
        ];
        facts.iter().filter(|f| f.1).for_each(|f| *self.limits.entry(f.0).or_default() += 1);
    }

    pub fn report(&self) -> String {
        let mut out = String::new();
        let mut line = |name: &str, text: String| writeln!(out, "{name}: {text}").unwrap();
        line("files", format!("{} ({} valid, the Rust panicked on {})", self.files, self.valid, self.panics));
        line("trees by version", counted((1..=2).map(|c| (c, self.versions.get(&c)))));
        line("trees with code 15 by version", counted((1..=2).map(|c| (c, self.duplicates.get(&c)))));
        let freed = counted(TIMES.into_iter().map(|c| (c, self.freed.get(&c))));
        line("trees of version 2 where x = x is free so often or more", freed);
        line("how often it is free there a second time or more", self.free_again.to_string());
        line("trees by code", counted((1..=17).map(|c| (c, self.codes.get(&c)))));
        line("trees by reason of equal keys", counted((1..=2).map(|c| (c, self.reasons.get(&c)))));
        let two_forms = counted(BITS.into_iter().map(|c| (c, self.two_forms.get(&c))));
        line("trees where strict keys have a number in two forms, of so many bits or more", two_forms);
        line("trees with a names record that several nodes fit", self.shared.to_string());
        let later = counted((1..=6).map(|c| (c, self.later.get(&c))));
        line("trees where it has not the file's first of them, by code", later);
        line("trees by kind", counted(KINDS.iter().map(|k| (k.kind, self.kinds.get(&k.kind)))));
        line("trees by role", counted((0..=8).map(|c| (c, self.roles.get(&c)))));
        line("files by refusal", counted((1..=9).map(|c| (c, self.refusals.get(&c)))));
        let places = (5..=9).map(|c| (c, self.places.get(&c).and_then(|p| p.last())));
        line("highest place by refusal", counted(places));
        line("trees by loops in one another", counted((0..=12).map(|c| (c, self.loops.get(&c)))));
        for (name, count) in &self.limits {
            line(name, count.to_string());
        }
        let all = edges();
        let missing: Vec<&Edge> = all.difference(&self.edges).collect();
        let some = missing.iter().take(20).map(|(k, r, c)| format!(" {k}/{r}/{c}")).collect::<String>();
        let (seen, known) = (all.len() - missing.len(), all.len());
        line("kind below kind in a role", format!("{seen} of {known}, missing{some}"));
        out
    }
}

fn counted<'a, K: std::fmt::Display>(all: impl Iterator<Item = (K, Option<&'a usize>)>) -> String {
    all.map(|(k, n)| format!("{k}:{}", n.unwrap_or(&0))).collect::<Vec<_>>().join(" ")
}
