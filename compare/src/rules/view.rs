//! A valid file as the rules look at it: nodes by number.
use crate::file::{File, NONE};
use originals::Record;

pub struct View {
    file: File,
    /// Value numbers; `None`: globals not given.
    pub globals: Option<Vec<u16>>,
}

pub type Span = (u32, u32);

pub const NO_SPAN: Span = (0, 0);

pub fn is_statement(kind: u8) -> bool {
    kind <= 13
}

pub fn is_expression(kind: u8) -> bool {
    (20..=33).contains(&kind)
}

impl View {
    pub fn new(bytes: &[u8]) -> View {
        let file = File::read(bytes).expect("a valid file");
        let globals = (file.counts[2] != NONE).then(|| file.globals.clone());
        View { file, globals }
    }

    pub fn version(&self) -> u16 {
        self.file.version
    }

    /// A record at a node, its second span another node's: 01's eight numbers, then both nodes (02, §4).
    pub fn record(&self, code: u32, at: usize, value: u16, second: Option<usize>, third: Span) -> Record {
        let ((begin, end), (begin2, end2)) = (self.span(at), second.map_or(NO_SPAN, |i| self.span(i)));
        let second = second.map_or(NONE.into(), |i| i as u32);
        [code, begin, end, value.into(), begin2, end2, third.0, third.1, at as u32, second]
    }

    pub fn kind(&self, i: usize) -> u8 {
        self.file.nodes[i].kind
    }

    pub fn span(&self, i: usize) -> Span {
        (self.file.nodes[i].begin, self.file.nodes[i].end)
    }

    pub fn value(&self, i: usize) -> u16 {
        self.file.nodes[i].value
    }

    /// Kind and bytes of a value.
    pub fn table(&self, value: u16) -> (u8, &[u8]) {
        let v = &self.file.values[usize::from(value)];
        (v.kind, &v.bytes)
    }

    pub fn children(&self, i: usize) -> Vec<usize> {
        let (mut out, mut at) = (Vec::new(), i + 1);
        while at < i + usize::from(self.file.nodes[i].size) {
            out.push(at);
            at += usize::from(self.file.nodes[at].size);
        }
        out
    }

    /// Children with a role, in file order.
    pub fn with_role(&self, i: usize, role: u8) -> Vec<usize> {
        self.children(i).into_iter().filter(|c| self.file.nodes[*c].role == role).collect()
    }

    pub fn only(&self, i: usize, role: u8) -> Option<usize> {
        self.with_role(i, role).first().copied()
    }

    pub fn one(&self, i: usize, role: u8) -> usize {
        self.only(i, role).expect("a valid file")
    }

    /// The nearest below that are wanted, passing through all others.
    fn nearest(&self, i: usize, wanted: fn(u8) -> bool) -> Vec<usize> {
        let below = |c: usize| if wanted(self.kind(c)) { vec![c] } else { self.nearest(c, wanted) };
        self.children(i).into_iter().flat_map(below).collect()
    }

    pub fn expressions(&self, i: usize) -> Vec<usize> {
        self.nearest(i, is_expression)
    }

    /// Statements stand below statements only.
    pub fn statements(&self, i: usize) -> Vec<usize> {
        self.children(i).into_iter().filter(|c| is_statement(self.kind(*c))).collect()
    }

    /// The names of a target, itself one or not.
    pub fn target_names(&self, i: usize) -> Vec<usize> {
        match self.kind(i) {
            40 => vec![i],
            41 => self.children(i).into_iter().flat_map(|c| self.target_names(c)).collect(),
            _ => vec![],
        }
    }

    pub fn is_identifier(&self, i: usize, name: &[u8]) -> bool {
        self.kind(i) == 20 && self.table(self.value(i)).1 == name
    }

    /// The nodes that share span and name with one that has a name, itself among them.
    pub fn alike(&self, i: usize) -> Vec<usize> {
        let named = |x: &usize| matches!(self.kind(*x), 20 | 40 | 43 | 47);
        let same = |x: &usize| (self.span(*x), self.value(*x)) == (self.span(i), self.value(i));
        (0..self.file.nodes.len()).filter(named).filter(same).collect()
    }

    /// A statement that is a call of the identifier fail.
    pub fn is_fail(&self, i: usize) -> bool {
        self.kind(i) == 5 && {
            let x = self.one(i, 4);
            self.kind(x) == 23 && self.is_identifier(self.one(x, 7), b"fail")
        }
    }
}
