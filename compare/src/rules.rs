//! Document 01's rules as 01 words them, and the only opinion here on strict keys, on
//! why two keys are equal (02, §11), on the node that a names record has (02, §4) and on code 15
//! in version 2 (02, §9). Its author had read the Rust, so it is a second wording and not a blind one.
mod flow;
mod keys;
mod names;
mod top;
mod view;

pub use keys::Mode;
use originals::Record;
use std::collections::{BTreeMap, BTreeSet};
use view::View;

/// The records of the four passes over a valid file.
pub fn records(bytes: &[u8], mode: Mode) -> [Vec<Record>; 4] {
    let view = View::new(bytes);
    [names::list(&view), flow::list(&view), top::list(&view), keys::list(&view, mode)]
}

/// A record of names: its code, the kinds of the nodes that have its span and name, in file order,
/// and which of them it has.
pub struct Met {
    pub code: u32,
    pub kinds: Vec<u8>,
    pub at: usize,
}

/// Which nodes the names records of a valid file have.
pub fn met(bytes: &[u8]) -> Vec<Met> {
    let view = View::new(bytes);
    let one = |r: &Record| {
        let alike = view.alike(r[8] as usize);
        let at = alike.iter().position(|i| *i == r[8] as usize).expect("a node like itself");
        Met { code: r[0], kinds: alike.into_iter().map(|i| view.kind(i)).collect(), at }
    };
    names::list(&view).iter().map(one).collect()
}

/// The bits of each number that strict keys hold equal in its two forms, in a valid file.
pub fn in_two_forms(bytes: &[u8]) -> Vec<usize> {
    keys::in_two_forms(&View::new(bytes))
}

/// The statements x = x that are free in a valid file, by the number of their name.
pub fn freed(bytes: &[u8]) -> BTreeMap<u16, Vec<usize>> {
    top::freed(&View::new(bytes))
}

/// Which cases of the names rules a valid file comes to, as numbers.
pub fn cases(bytes: &[u8]) -> BTreeSet<u64> {
    names::cases(&View::new(bytes))
}
