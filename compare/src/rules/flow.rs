//! Flow (001): five walks.
use super::view::{View, NO_SPAN};
use crate::file::NONE;
use originals::Record;

pub fn list(view: &View) -> Vec<Record> {
    let mut out = Vec::new();
    returns(view, 0, &mut out);
    reachable(view, 0, &mut out);
    view.statements(0).into_iter().for_each(|x| redundant(view, x, &mut out));
    loads(view, &mut out);
    effect(view, 0, &mut out);
    out
}

fn plain(code: u32, view: &View, i: usize) -> Record {
    view.record(code, i, NONE, None, NO_SPAN)
}

/// Returns outside nested defs.
fn returns_in(view: &View, i: usize) -> Vec<usize> {
    match view.kind(i) {
        4 => vec![i],
        12 => vec![],
        _ => view.statements(i).into_iter().flat_map(|x| returns_in(view, x)).collect(),
    }
}

fn ends_surely(view: &View, i: usize) -> bool {
    match view.kind(i) {
        4 => true,
        8 => view.children(i).last().is_some_and(|x| ends_surely(view, *x)),
        10 => [1, 2].iter().all(|role| ends_surely(view, view.one(i, *role))),
        _ => view.is_fail(i),
    }
}

fn returns(view: &View, i: usize, out: &mut Vec<Record>) {
    if view.kind(i) == 12 {
        let body = view.one(i, 1);
        let all = returns_in(view, body);
        let typed = view.only(i, 3).filter(|t| !view.is_identifier(*t, b"None"));
        let first = || all.iter().copied().find(|r| view.only(*r, 4).is_some());
        if let Some(reason) = typed.or_else(first) {
            let name = view.value(view.one(i, 6));
            if !ends_surely(view, body) {
                out.push(view.record(8, i, name, Some(reason), NO_SPAN));
            }
            let bare = all.iter().filter(|r| view.only(**r, 4).is_none());
            out.extend(bare.map(|r| view.record(7, *r, name, Some(i), view.span(reason))));
        }
    }
    view.statements(i).into_iter().for_each(|x| returns(view, x, out));
}

/// Whether the statement aborts.
fn reachable(view: &View, i: usize, out: &mut Vec<Record>) -> bool {
    match view.kind(i) {
        1 | 2 | 4 => true,
        5 => view.is_fail(i),
        8 => {
            let members = view.children(i);
            let aborting = members.iter().position(|x| reachable(view, *x, out));
            if let Some(next) = aborting.and_then(|at| members.get(at + 1)) {
                out.push(plain(9, view, *next));
            }
            aborting.is_some()
        }
        10 => {
            let sides = [1, 2].map(|role| reachable(view, view.one(i, role), out));
            sides == [true, true]
        }
        _ => {
            view.statements(i).into_iter().for_each(|x| {
                reachable(view, x, out);
            });
            false
        }
    }
}

/// Kind 4 or 2 last in a def's or a for's body.
fn last(view: &View, i: usize, wanted: u8, out: &mut Vec<Record>) {
    match view.kind(i) {
        4 if wanted == 4 && view.only(i, 4).is_none() => out.push(plain(10, view, i)),
        2 if wanted == 2 => out.push(plain(11, view, i)),
        8 => view.children(i).last().into_iter().for_each(|x| last(view, *x, wanted, out)),
        9 => last(view, view.one(i, 1), wanted, out),
        10 => [1, 2].iter().for_each(|role| last(view, view.one(i, *role), wanted, out)),
        _ => {}
    }
}

fn redundant(view: &View, i: usize, out: &mut Vec<Record>) {
    match view.kind(i) {
        11 => last(view, view.one(i, 1), 2, out),
        12 => last(view, view.one(i, 1), 4, out),
        _ => {}
    }
    view.statements(i).into_iter().for_each(|x| redundant(view, x, out));
}

fn flattened(view: &View, i: usize) -> Vec<usize> {
    match view.kind(i) {
        8 => view.children(i).into_iter().flat_map(|x| flattened(view, x)).collect(),
        _ => vec![i],
    }
}

fn is_string(view: &View, i: usize) -> bool {
    view.kind(i) == 21 && view.table(view.value(i)).0 == 1
}

fn loads(view: &View, out: &mut Vec<Record>) {
    let mut over = false;
    for x in flattened(view, 0) {
        match view.kind(x) {
            13 if over => out.push(plain(12, view, x)),
            13 => {}
            5 if is_string(view, view.one(x, 4)) => {}
            _ => over = true,
        }
    }
}

fn has_effect(view: &View, i: usize) -> bool {
    match view.kind(i) {
        21 => is_string(view, i),
        22 | 24 => false,
        27..=30 => view.children(i).into_iter().any(|x| has_effect(view, x)),
        _ => true,
    }
}

fn effect(view: &View, i: usize, out: &mut Vec<Record>) {
    if view.kind(i) == 5 && !has_effect(view, view.one(i, 4)) {
        out.push(plain(13, view, view.one(i, 4)));
    }
    view.statements(i).into_iter().for_each(|x| effect(view, x, out));
}
