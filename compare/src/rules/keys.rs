//! Dubious (003): equal keys, and identifiers as statements.
use super::view::{Span, View, NO_SPAN};
use originals::Record;
use std::collections::HashMap;

/// Which whole numbers are the same number in either form.
#[derive(Clone, Copy)]
pub enum Mode {
    Ordinary,
    Strict,
}

/// Why two keys are equal (02, §11): the first word of the third span, the second being 0.
const SAME_FORM: Span = (1, 0);
const SAME_NUMBER: Span = (2, 0);

/// What equal keys have in common.
#[derive(PartialEq, Eq, Hash)]
enum Key {
    /// A magnitude, as an integer's value has it: high byte first, no leading zero byte.
    Whole(Vec<u8>),
    Value(u16),
}

impl Mode {
    /// Whether the whole number of this magnitude is one key in either form.
    fn joins(self, magnitude: &[u8]) -> bool {
        match self {
            // A whole i32.
            Mode::Ordinary => bits(magnitude) <= 31,
            // "Every finite whole float equals its integer, however large" (02, §2).
            Mode::Strict => true,
        }
    }

    fn key(self, view: &View, i: usize) -> Option<Key> {
        if !matches!(view.kind(i), 20 | 21) {
            return None;
        }
        let same = magnitude(view, view.value(i)).filter(|m| self.joins(m)).map(Key::Whole);
        Some(same.unwrap_or(Key::Value(view.value(i))))
    }
}

/// The magnitude of a value that is a whole number.
fn magnitude(view: &View, value: u16) -> Option<Vec<u8>> {
    match view.table(value) {
        (3, bytes) => Some(bytes.to_vec()),
        (4, bytes) => whole(f64::from_bits(u64::from_le_bytes(bytes.try_into().expect("eight bytes")))),
        _ => None,
    }
}

fn bits(magnitude: &[u8]) -> usize {
    magnitude.first().map_or(0, |high| 8 * magnitude.len() - high.leading_zeros() as usize)
}

/// The magnitude of a finite whole float, from its last byte on. Each step is exact: a remainder always is, and
/// a float without its last bits, divided by a power of two, is a float.
fn whole(float: f64) -> Option<Vec<u8>> {
    if float.is_infinite() || float.fract() != 0.0 {
        return None;
    }
    let (mut left, mut bytes) = (float, Vec::new());
    while left > 0.0 {
        let last = left % 256.0;
        bytes.push(last as u8);
        left = (left - last) / 256.0;
    }
    bytes.reverse();
    Some(bytes)
}

pub fn list(view: &View, mode: Mode) -> Vec<Record> {
    let mut out = Vec::new();
    view.expressions(0).into_iter().for_each(|x| keys(view, mode, x, &mut out));
    identifiers(view, 0, &mut out);
    out
}

/// The bits of each number that strict keys hold equal in its two forms.
pub fn in_two_forms(view: &View) -> Vec<usize> {
    let found = list(view, Mode::Strict);
    let forms = found.iter().filter(|r| r[0] == 16 && (r[6], r[7]) == SAME_NUMBER);
    forms.map(|r| bits(&magnitude(view, r[3] as u16).expect("a whole number"))).collect()
}

/// Of two equal keys: one kind and the same bytes are one form, else they are an integer and a float.
fn reason(view: &View, before: usize, later: usize) -> Span {
    let form = |i| view.table(view.value(i));
    if form(before) == form(later) {
        SAME_FORM
    } else {
        SAME_NUMBER
    }
}

fn keys(view: &View, mode: Mode, i: usize, out: &mut Vec<Record>) {
    if view.kind(i) == 29 {
        let mut previous = HashMap::new();
        for later in view.with_role(i, 8) {
            let Some(key) = mode.key(view, later) else { continue };
            if let Some(before) = previous.insert(key, later) {
                let third = reason(view, before, later);
                out.push(view.record(16, before, view.value(later), Some(later), third));
            }
        }
    }
    view.expressions(i).into_iter().for_each(|x| keys(view, mode, x, out));
}

fn identifiers(view: &View, i: usize, out: &mut Vec<Record>) {
    if view.kind(i) == 5 {
        let x = view.one(i, 4);
        if view.kind(x) == 20 {
            out.push(view.record(17, x, view.value(x), None, NO_SPAN));
        }
    }
    view.statements(i).into_iter().for_each(|x| identifiers(view, x, out));
}
