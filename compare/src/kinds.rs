//! Document 01's table of kinds: classes, names, and which children stand where.

#[derive(Clone, Copy, PartialEq, Eq, Debug, Hash, PartialOrd, Ord)]
pub enum Class {
    Statement,
    Expression,
    Target,
    Parameter,
    Clause,
    /// Kind 40 alone, as a def's name.
    DefName,
    /// Kind 47.
    Loaded,
}

use Class::*;

/// How often children of one class and role may stand below a node.
#[derive(Clone, Copy)]
pub struct Slot {
    pub class: Class,
    pub role: u8,
    pub least: usize,
    pub most: usize,
}

const ANY: usize = usize::MAX;

const fn slot(class: Class, role: u8, least: usize, most: usize) -> Slot {
    Slot { class, role, least, most }
}

/// What value a node of a kind carries.
#[derive(Clone, Copy, PartialEq, Eq)]
pub enum Carries {
    Nothing,
    Name,
    Literal,
}

pub struct Kind {
    pub kind: u8,
    pub name: &'static str,
    pub carries: Carries,
    /// In the order of document 01's list, which is taken for the exporter's.
    pub slots: &'static [Slot],
}

const fn kind(kind: u8, name: &'static str, slots: &'static [Slot]) -> Kind {
    Kind { kind, name, carries: Carries::Nothing, slots }
}

const fn named(kind: u8, name: &'static str, slots: &'static [Slot]) -> Kind {
    Kind { kind, name, carries: Carries::Name, slots }
}

const TARGET: Slot = slot(Target, 5, 1, 1);
const VALUE: Slot = slot(Expression, 4, 1, 1);
const TYPE: Slot = slot(Expression, 3, 0, 1);
const BODY: Slot = slot(Statement, 1, 1, 1);
const PARAMETERS: Slot = slot(Parameter, 0, 0, ANY);
const CLAUSES: Slot = slot(Clause, 0, 1, ANY);
const EXPRESSIONS: Slot = slot(Expression, 0, 0, ANY);

pub const KINDS: [Kind; 35] = [
    kind(1, "break", &[]),
    kind(2, "continue", &[]),
    kind(3, "pass", &[]),
    kind(4, "return", &[slot(Expression, 4, 0, 1)]),
    kind(5, "expression", &[VALUE]),
    kind(6, "assign", &[TARGET, TYPE, VALUE]),
    kind(7, "assign-modify", &[TARGET, VALUE]),
    kind(8, "statements", &[slot(Statement, 0, 0, ANY)]),
    kind(9, "if", &[VALUE, BODY]),
    kind(10, "if-else", &[VALUE, BODY, slot(Statement, 2, 1, 1)]),
    kind(11, "for", &[TARGET, VALUE, BODY]),
    kind(12, "def", &[slot(DefName, 6, 1, 1), PARAMETERS, TYPE, BODY]),
    kind(13, "load", &[slot(Loaded, 0, 0, ANY)]),
    named(20, "identifier", &[]),
    Kind { kind: 21, name: "literal", carries: Carries::Literal, slots: &[] },
    kind(22, "ellipsis", &[]),
    kind(23, "call", &[slot(Expression, 7, 1, 1), EXPRESSIONS]),
    kind(24, "lambda", &[PARAMETERS, slot(Expression, 1, 1, 1)]),
    kind(25, "list-comprehension", &[VALUE, CLAUSES]),
    kind(26, "dict-comprehension", &[slot(Expression, 8, 1, 1), VALUE, CLAUSES]),
    kind(27, "tuple", &[EXPRESSIONS]),
    kind(28, "list", &[EXPRESSIONS]),
    kind(29, "dict", &[slot(Expression, 8, 0, ANY), slot(Expression, 4, 0, ANY)]),
    kind(30, "conditional", &[slot(Expression, 0, 3, 3)]),
    kind(31, "equal", &[slot(Expression, 1, 1, 1), slot(Expression, 2, 1, 1)]),
    kind(32, "not-equal", &[slot(Expression, 1, 1, 1), slot(Expression, 2, 1, 1)]),
    kind(33, "other", &[EXPRESSIONS]),
    named(40, "name", &[]),
    kind(41, "several", &[slot(Target, 0, 0, ANY)]),
    kind(42, "index-or-dot", &[EXPRESSIONS]),
    named(43, "named-parameter", &[EXPRESSIONS]),
    kind(44, "unnamed-parameter", &[EXPRESSIONS]),
    kind(45, "for-clause", &[TARGET, VALUE]),
    kind(46, "if-clause", &[VALUE]),
    named(47, "loaded-name", &[]),
];

pub fn of(kind: u8) -> Option<&'static Kind> {
    KINDS.iter().find(|k| k.kind == kind)
}

/// Whether a node of this kind may stand where a child of this class is wanted.
pub fn belongs(kind: u8, class: Class) -> bool {
    match class {
        Statement => (1..=13).contains(&kind),
        Expression => (20..=33).contains(&kind),
        Target => (40..=42).contains(&kind),
        Parameter => (43..=44).contains(&kind),
        Clause => (45..=46).contains(&kind),
        DefName => kind == 40,
        Loaded => kind == 47,
    }
}
