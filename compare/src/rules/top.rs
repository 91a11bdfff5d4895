//! Incompatible (002): type checks, and what the top level assigns twice.
use super::view::{View, NO_SPAN};
use originals::Record;
use std::collections::{BTreeMap, HashMap};

const TYPES: [&[u8]; 5] = [b"bool", b"tuple", b"str", b"list", b"int"];

pub fn list(view: &View) -> Vec<Record> {
    let mut out = Vec::new();
    view.expressions(0).into_iter().for_each(|x| type_check(view, x, &mut out));
    out.extend(Top::walked(view).out);
    out
}

/// The statements x = x that are free, by the number of their name.
pub fn freed(view: &View) -> BTreeMap<u16, Vec<usize>> {
    Top::walked(view).freed
}

fn type_check(view: &View, i: usize, out: &mut Vec<Record>) {
    if matches!(view.kind(i), 31 | 32) {
        let (left, right) = (view.one(i, 1), view.one(i, 2));
        let called = view.kind(left) == 23
            && view.is_identifier(view.one(left, 7), b"type")
            && view.with_role(left, 0).len() == 1;
        if called && TYPES.iter().any(|t| view.is_identifier(right, t)) {
            out.push(view.record(14, i, view.value(right), None, NO_SPAN));
        }
    }
    view.expressions(i).into_iter().for_each(|x| type_check(view, x, out));
}

/// How often x = x is free where the first definition of x is a load: once, in version 2 each time (02, §9).
enum Allowance {
    Once,
    EachTime,
}

impl Allowance {
    fn of(version: u16) -> Allowance {
        match version {
            1 => Allowance::Once,
            _ => Allowance::EachTime,
        }
    }

    /// Whether one more is free after so many.
    fn covers(&self, before: usize) -> bool {
        match self {
            Allowance::Once => before == 0,
            Allowance::EachTime => true,
        }
    }
}

struct Top<'a> {
    view: &'a View,
    allowance: Allowance,
    /// The node by which a name was first defined, and whether that is a load's.
    first: HashMap<u16, (usize, bool)>,
    /// The statements x = x that have been let pass, by name.
    freed: BTreeMap<u16, Vec<usize>>,
    out: Vec<Record>,
}

impl Top<'_> {
    fn walked(view: &View) -> Top<'_> {
        let allowance = Allowance::of(view.version());
        let mut top = Top { view, allowance, first: HashMap::new(), freed: BTreeMap::new(), out: Vec::new() };
        top.statement(0);
        top
    }

    fn define(&mut self, i: usize, load: bool) {
        let name = self.view.value(i);
        match self.first.get(&name) {
            Some((first, _)) => self.out.push(self.view.record(15, i, name, Some(*first), NO_SPAN)),
            None => {
                self.first.insert(name, (i, load));
            }
        }
    }

    /// The name x of x = x, where x was first defined by a load.
    fn exported(&self, i: usize) -> Option<u16> {
        let (target, value) = (self.view.one(i, 5), self.view.one(i, 4));
        let name = self.view.value(target);
        let same = self.view.kind(target) == 40
            && self.view.kind(value) == 20
            && self.view.value(value) == name
            && self.first.get(&name).is_some_and(|f| f.1);
        same.then_some(name)
    }

    fn is_free(&mut self, i: usize) -> bool {
        let Some(name) = self.exported(i) else { return false };
        let before = self.freed.entry(name).or_default();
        let free = self.allowance.covers(before.len());
        before.extend(free.then_some(i));
        free
    }

    fn statement(&mut self, i: usize) {
        let view = self.view;
        match view.kind(i) {
            6 if self.is_free(i) => {}
            6 | 7 => view.target_names(view.one(i, 5)).into_iter().for_each(|x| self.define(x, false)),
            12 => self.define(view.one(i, 6), false),
            13 => view.children(i).into_iter().for_each(|x| self.define(x, true)),
            _ => view.statements(i).into_iter().for_each(|x| self.statement(x)),
        }
    }
}
