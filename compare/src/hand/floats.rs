//! Whole floats of every size beside integers: those of their value, and the nearest where there is none (02, §2).
use super::build::*;
use super::{made, Made};
use crate::tree::Node;

pub fn files() -> Vec<Made> {
    let mut out = whole();
    out.extend(without_integer());
    out
}

fn keys(how: &str, keys: Vec<Node>) -> Made {
    made(&format!("keys: {how}"), list(vec![dict_of(keys)]))
}

/// An integer of 64 bytes that begins so, all others the same but for the last.
fn long(first: &[u8], rest: u8, last: u8) -> Node {
    let mut bytes = first.to_vec();
    bytes.resize(63, rest);
    bytes.push(last);
    magnitude(bytes)
}

/// The integer before and after the float, and those one off between them.
fn beside(how: &str, [below, at, above]: [Node; 3], x: f64) -> Made {
    keys(how, vec![at.clone(), float(x), below, above, at])
}

fn whole() -> Vec<Made> {
    let around = |n: u128| [int(n - 1), int(n), int(n + 1)];
    let held = 2f64.powi(53);
    let edge = [255, 255, 255, 255, 255, 255];
    let most = |end: u8, rest: u8, last: u8| long(&[&edge[..], &[end]].concat(), rest, last);
    vec![
        keys("0 and 0.0", vec![int(0), float(0.0), int(1), int(0)]),
        beside("2^53 - 1 in both forms", around((1 << 53) - 1), held - 1.0),
        beside("2^53 in both forms", around(1 << 53), held),
        beside("2^53 + 2 in both forms", around((1 << 53) + 2), held + 2.0),
        beside("2^63 in both forms", around(1 << 63), 2f64.powi(63)),
        beside("2^64 in both forms", around(1 << 64), 2f64.powi(64)),
        beside(
            "2^511 in both forms",
            [long(&[127], 255, 255), long(&[128], 0, 0), long(&[128], 0, 1)],
            2f64.powi(511),
        ),
        beside(
            "2^512 - 2^459 in both forms",
            [most(247, 255, 255), most(248, 0, 0), most(248, 0, 1)],
            2f64.powi(512) - 2f64.powi(459),
        ),
    ]
}

/// The float twice, and integers between: the nearest, or the largest that a file can hold and 2^511.
fn without_integer() -> Vec<Made> {
    let twice = |how: &str, x: f64, [a, b]: [Node; 2]| keys(how, vec![float(x), a, b, float(x)]);
    let largest = || [long(&[], 255, 255), long(&[128], 0, 0)];
    let half = 4503599627370495;
    vec![
        twice("2^512, larger than any integer", 2f64.powi(512), largest()),
        twice("2^1023, larger than any integer", 2f64.powi(1023), largest()),
        twice("the largest finite float", f64::MAX, largest()),
        twice("an infinity", f64::INFINITY, largest()),
        twice("a subnormal", 5e-324, [int(0), int(1)]),
        twice("0.5", 0.5, [int(0), int(1)]),
        twice("4503599627370495.5", half as f64 + 0.5, [int(half), int(half + 1)]),
    ]
}
