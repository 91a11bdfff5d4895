//! What a tree is mostly made of.
use super::Maker;
use crate::random::Random;
use crate::tree::Tree;

pub struct Style {
    /// For kinds 1 to 13.
    pub statements: [usize; 13],
    /// For kinds 20 to 33.
    pub expressions: [usize; 14],
    pub names: Vec<Vec<u8>>,
    /// Break, continue, return and load also where a parser wouldn't take them.
    pub loose: bool,
    /// Loops that stand in one another around the rest.
    pub nest: usize,
    /// Literals are mostly numbers, of every size.
    pub floats: bool,
    /// Statements mostly load names and assign them to themselves.
    pub dialect: bool,
}

const MIXED: [usize; 13] = [2, 2, 2, 4, 14, 14, 6, 2, 8, 8, 6, 6, 2];
const LOOPS: [usize; 13] = [5, 5, 1, 2, 10, 12, 5, 1, 6, 6, 14, 4, 0];
const BRANCHES: [usize; 13] = [4, 3, 2, 6, 9, 14, 4, 2, 14, 18, 4, 2, 0];
const DEFS: [usize; 13] = [1, 1, 1, 14, 10, 6, 2, 2, 8, 9, 3, 18, 0];
const TOP: [usize; 13] = [0, 0, 1, 1, 6, 22, 9, 3, 5, 4, 4, 6, 14];
const EXPORTS: [usize; 13] = [1, 1, 1, 1, 4, 8, 4, 5, 14, 14, 12, 5, 4];
const FLAT: [usize; 13] = [0, 0, 1, 2, 40, 14, 6, 1, 2, 2, 2, 3, 1];

const PLAIN: [usize; 14] = [24, 8, 1, 8, 3, 3, 2, 3, 3, 3, 3, 1, 1, 4];
const NAMES: [usize; 14] = [40, 2, 0, 5, 2, 2, 1, 1, 1, 1, 1, 0, 0, 3];
const SCOPES: [usize; 14] = [20, 3, 1, 6, 16, 16, 14, 3, 3, 4, 3, 1, 1, 5];
const KEYS: [usize; 14] = [8, 10, 1, 3, 1, 1, 4, 3, 4, 40, 3, 1, 1, 2];
const TYPES: [usize; 14] = [10, 4, 1, 8, 3, 2, 2, 2, 3, 3, 3, 22, 22, 3];
const EFFECT: [usize; 14] = [6, 14, 8, 2, 8, 1, 1, 14, 14, 14, 14, 1, 1, 2];

fn names(r: &mut Random) -> Vec<Vec<u8>> {
    const PLAIN: [&str; 12] = ["a", "b", "x", "_u", "i", "f", "xs", "_", "c", "g", "y", "_v"];
    const TOLD: [&str; 8] = ["fail", "type", "None", "bool", "tuple", "str", "list", "int"];
    let many = if r.percent(75) { r.range(2, 6) } else { r.range(6, 12) };
    let mut out: Vec<Vec<u8>> = PLAIN[..many].iter().map(|s| s.as_bytes().to_vec()).collect();
    if r.percent(35) {
        r.shuffle(&mut out);
    }
    if r.percent(25) {
        out.push(r.pick(&TOLD).as_bytes().to_vec());
    }
    if r.percent(6) {
        // A name is any bytes: no text, a line's end, beginnings that nearly match.
        let odd: [&[u8]; 8] = [&[0], &[255, 254], b"a ", b"fail\n", b"fai", b"failx", b"_\xff", b"none"];
        out.push(r.pick(&odd).to_vec());
    }
    if r.percent(8) {
        // So many that most stand once.
        out.extend((0..r.range(10, 60)).map(|i| format!("n{i}").into_bytes()));
    }
    out
}

impl Style {
    pub fn any(r: &mut Random) -> Style {
        let (statements, expressions) = match r.below(14) {
            0 => (MIXED, SCOPES),
            1 | 2 => (LOOPS, NAMES),
            3 | 4 => (BRANCHES, NAMES),
            5 => (BRANCHES, PLAIN),
            6 | 7 => (DEFS, PLAIN),
            8 => (TOP, NAMES),
            9 => (FLAT, KEYS),
            10 => (FLAT, TYPES),
            11 => (FLAT, EFFECT),
            12 => (FLAT, SCOPES),
            _ => (MIXED, PLAIN),
        };
        let nest = if r.percent(6) { r.range(4, 9) } else { 0 };
        let (names, loose) = (names(r), r.percent(30));
        Style { statements, expressions, names, loose, nest, floats: false, dialect: false }
    }

    /// Mostly dicts, their keys mostly numbers.
    pub fn floats(r: &mut Random) -> Style {
        let style = Style { floats: true, ..Style::any(r) };
        if r.percent(20) {
            return style;
        }
        Style { statements: FLAT, expressions: KEYS, nest: 0, ..style }
    }

    /// With exports, mostly few names and much that statements stand under.
    pub fn dialect(self, r: &mut Random) -> Style {
        let mut style = Style { dialect: true, ..self };
        if r.percent(75) {
            style.names.truncate(4);
            style.statements = EXPORTS;
        }
        style
    }
}

impl Maker<'_> {
    /// Globals and values that no node carries.
    pub fn surroundings(&mut self, tree: &mut Tree) {
        if self.r.percent(50) {
            let share = *self.r.pick(&[0, 30, 60, 100]);
            let mut globals: Vec<Vec<u8>> = Vec::new();
            for name in &self.style.names {
                if self.r.percent(share) {
                    globals.push(name.clone());
                }
            }
            if self.r.percent(20) {
                globals.push(b"elsewhere".to_vec());
            }
            tree.globals = Some(globals);
        }
        if self.r.percent(15) {
            for _ in 0..self.r.range(1, 6) {
                let value = if self.r.percent(50) { (0, self.name()) } else { self.literal() };
                tree.spare.push(value);
            }
        }
    }
}
