//! A tree file, taken to be valid, into the stand-in tree.
use crate::codemap::{Span, Spanned};
use crate::lexer::TokenInt;
use crate::syntax::ast::*;
use num_bigint::{BigInt, Sign};
use std::collections::{HashMap, HashSet};

struct Node {
    kind: u8,
    role: u8,
    size: usize,
    span: Span,
    value: u16,
}

pub struct Tree {
    nodes: Vec<Node>,
    values: Vec<(u8, Vec<u8>)>,
    pub globals: Option<HashSet<String>>,
    names: HashMap<String, u16>,
}

/// A name's or a string's bytes as a Rust String: printable ASCII as it is, any
/// other byte a private character, so that nothing is lost, trimmed or merged.
fn text(bytes: &[u8]) -> String {
    bytes
        .iter()
        .map(|b| match b {
            0x21..=0x7e => *b as char,
            _ => char::from_u32(0xe000 + u32::from(*b)).unwrap(),
        })
        .collect()
}

struct Reader<'a>(&'a [u8]);

impl<'a> Reader<'a> {
    fn take(&mut self, n: usize) -> &'a [u8] {
        let (a, b) = self.0.split_at(n);
        self.0 = b;
        a
    }
    fn u8(&mut self) -> u8 {
        self.take(1)[0]
    }
    fn u16(&mut self) -> u16 {
        u16::from_le_bytes(self.take(2).try_into().unwrap())
    }
    fn u32(&mut self) -> u32 {
        u32::from_le_bytes(self.take(4).try_into().unwrap())
    }
}

impl Tree {
    pub fn read(bytes: &[u8]) -> Tree {
        let mut r = Reader(bytes);
        // Both versions have one layout; the Rust has no dialects.
        assert!(r.take(3) == b"SLT" && matches!(r.u16(), 1 | 2));
        let (n, v, g) = (r.u16(), r.u16(), r.u16());
        let nodes = (0..n)
            .map(|at| {
                let (kind, role, size) = (r.u8(), r.u8(), r.u16() as usize);
                let (begin, end, value) = (r.u32(), r.u32(), r.u16());
                assert!(r.u16() == 0);
                let span = Span { begin, end, at: at.into() };
                Node { kind, role, size, span, value }
            })
            .collect();
        let values: Vec<(u8, Vec<u8>)> = (0..v)
            .map(|_| {
                let (kind, len) = (r.u8(), r.u16());
                (kind, r.take(len.into()).to_vec())
            })
            .collect();
        let globals = (g != 65535).then(|| (0..g).map(|_| text(&values[r.u16() as usize].1)).collect());
        assert!(r.0.is_empty());
        let mut names = HashMap::new();
        for (i, (kind, bytes)) in values.iter().enumerate() {
            if *kind == 0 {
                assert!(names.insert(text(bytes), i as u16).is_none());
            }
        }
        Tree { nodes, values, globals, names }
    }

    pub fn root(&self) -> AstStmt {
        assert!(self.nodes[0].size == self.nodes.len());
        self.stmt(0)
    }

    /// The value number of a name.
    pub fn name_number(&self, name: &str) -> u16 {
        self.names[name]
    }

    /// The value number of a node.
    pub fn value_number(&self, at: usize) -> u16 {
        self.nodes[at].value
    }

    /// The right side of an equal or a not equal.
    pub fn right(&self, at: usize) -> usize {
        self.one(at, E, 2)
    }

    fn children(&self, at: usize) -> Vec<usize> {
        let (mut out, mut i) = (Vec::new(), at + 1);
        while i < at + self.nodes[at].size {
            out.push(i);
            i += self.nodes[i].size;
        }
        assert!(i == at + self.nodes[at].size);
        out
    }

    fn all(&self, at: usize, class: Class, role: u8) -> Vec<usize> {
        let wanted = |i: &usize| class.contains(&self.nodes[*i].kind) && self.nodes[*i].role == role;
        self.children(at).into_iter().filter(wanted).collect()
    }

    fn most_one(&self, at: usize, class: Class, role: u8) -> Option<usize> {
        let all = self.all(at, class, role);
        assert!(all.len() <= 1);
        all.first().copied()
    }

    fn one(&self, at: usize, class: Class, role: u8) -> usize {
        self.most_one(at, class, role).expect("a child")
    }

    fn spanned<T>(&self, at: usize, node: T) -> Spanned<T> {
        Spanned { span: self.nodes[at].span, node }
    }

    fn name(&self, at: usize) -> String {
        let (kind, bytes) = &self.values[self.nodes[at].value as usize];
        assert!(*kind == 0);
        text(bytes)
    }

    fn assign_ident(&self, at: usize) -> AstAssignIdent {
        self.spanned(at, AssignIdent { ident: self.name(at) })
    }

    fn literal(&self, at: usize) -> AstLiteral {
        let (kind, bytes) = &self.values[self.nodes[at].value as usize];
        match kind {
            1 => AstLiteral::String(self.spanned(at, text(bytes))),
            2 => AstLiteral::Bytes(self.spanned(at, bytes.clone())),
            3 => {
                let big = BigInt::from_bytes_be(Sign::Plus, bytes);
                let token = match big.to_u128().map(i32::try_from) {
                    Some(Ok(i)) => TokenInt::I32(i),
                    _ => TokenInt::BigInt(big),
                };
                AstLiteral::Int(self.spanned(at, token))
            }
            4 => {
                let bits = u64::from_le_bytes(bytes.as_slice().try_into().unwrap());
                AstLiteral::Float(self.spanned(at, f64::from_bits(bits)))
            }
            _ => panic!("a literal's value"),
        }
    }

    fn exprs(&self, at: usize) -> Vec<AstExpr> {
        self.all(at, E, 0).into_iter().map(|i| self.expr(i)).collect()
    }

    fn expr_at(&self, at: usize, role: u8) -> AstExpr {
        self.expr(self.one(at, E, role))
    }

    fn stmt_at(&self, at: usize, role: u8) -> AstStmt {
        self.stmt(self.one(at, S, role))
    }

    fn target_at(&self, at: usize) -> AstAssignTarget {
        self.target(self.one(at, T, 5))
    }

    fn typ_at(&self, at: usize) -> Option<AstTypeExpr> {
        self.most_one(at, E, 3).map(|i| self.spanned(i, TypeExpr { expr: self.expr(i) }))
    }

    fn params(&self, at: usize) -> Vec<AstParameter> {
        let param = |i: usize| match self.nodes[i].kind {
            43 => self.spanned(i, Parameter::Named(self.assign_ident(i), self.exprs(i))),
            _ => self.spanned(i, Parameter::Unnamed(self.exprs(i))),
        };
        self.all(at, P, 0).into_iter().map(param).collect()
    }

    fn clauses(&self, at: usize) -> (Box<ForClause>, Vec<Clause>) {
        let clause = |i: usize| match self.nodes[i].kind {
            45 => Clause::For(ForClause { var: self.target_at(i), over: self.expr_at(i, 4) }),
            _ => Clause::If(self.expr_at(i, 4)),
        };
        let mut all = self.all(at, C, 0).into_iter().map(clause);
        match all.next() {
            Some(Clause::For(x)) => (Box::new(x), all.collect()),
            _ => panic!("the first clause is a for"),
        }
    }

    fn target(&self, at: usize) -> AstAssignTarget {
        let node = match self.nodes[at].kind {
            40 => AssignTarget::Identifier(self.assign_ident(at)),
            41 => AssignTarget::Tuple(self.all(at, T, 0).into_iter().map(|i| self.target(i)).collect()),
            _ => AssignTarget::Other(self.exprs(at)),
        };
        self.spanned(at, node)
    }

    fn expr(&self, at: usize) -> AstExpr {
        let node = match self.nodes[at].kind {
            20 => Expr::Identifier(self.spanned(at, Ident { ident: self.name(at) })),
            21 => Expr::Literal(self.literal(at)),
            22 => Expr::Literal(AstLiteral::Ellipsis),
            23 => Expr::Call(Box::new(self.expr_at(at, 7)), CallArgs { args: self.exprs(at) }),
            24 => Expr::Lambda(LambdaP { params: self.params(at), body: Box::new(self.expr_at(at, 1)) }),
            25 => {
                let (first, rest) = self.clauses(at);
                Expr::ListComprehension(Box::new(self.expr_at(at, 4)), first, rest)
            }
            26 => {
                let (first, rest) = self.clauses(at);
                let pair = Box::new((self.expr_at(at, 8), self.expr_at(at, 4)));
                Expr::DictComprehension(pair, first, rest)
            }
            27 => Expr::Tuple(self.exprs(at)),
            28 => Expr::List(self.exprs(at)),
            29 => {
                let (keys, values) = (self.all(at, E, 8), self.all(at, E, 4));
                assert!(keys.len() == values.len());
                let pairs = keys.into_iter().zip(values);
                Expr::Dict(pairs.map(|(k, v)| (self.expr(k), self.expr(v))).collect())
            }
            30 => {
                let [a, b, c]: [AstExpr; 3] = self.exprs(at).try_into().ok().expect("three");
                Expr::If(Box::new((a, b, c)))
            }
            k @ (31 | 32) => Expr::Op(
                Box::new(self.expr_at(at, 1)),
                if k == 31 { BinOp::Equal } else { BinOp::NotEqual },
                Box::new(self.expr_at(at, 2)),
            ),
            33 => Expr::Other(self.exprs(at)),
            k => panic!("expression kind {k}"),
        };
        self.spanned(at, node)
    }

    fn stmt(&self, at: usize) -> AstStmt {
        let node = match self.nodes[at].kind {
            1 => Stmt::Break,
            2 => Stmt::Continue,
            3 => Stmt::Pass,
            4 => Stmt::Return(self.most_one(at, E, 4).map(|i| self.expr(i))),
            5 => Stmt::Expression(self.expr_at(at, 4)),
            6 => Stmt::Assign(AssignP {
                lhs: self.target_at(at),
                ty: self.typ_at(at),
                rhs: self.expr_at(at, 4),
            }),
            7 => Stmt::AssignModify(self.target_at(at), AssignOp, Box::new(self.expr_at(at, 4))),
            8 => Stmt::Statements(self.all(at, S, 0).into_iter().map(|i| self.stmt(i)).collect()),
            9 => Stmt::If(self.expr_at(at, 4), Box::new(self.stmt_at(at, 1))),
            10 => {
                let sides = Box::new((self.stmt_at(at, 1), self.stmt_at(at, 2)));
                Stmt::IfElse(self.expr_at(at, 4), sides)
            }
            11 => Stmt::For(ForP {
                var: self.target_at(at),
                over: self.expr_at(at, 4),
                body: Box::new(self.stmt_at(at, 1)),
            }),
            12 => Stmt::Def(DefP {
                name: self.assign_ident(self.one(at, T, 6)),
                params: self.params(at),
                return_type: self.typ_at(at).map(Box::new),
                body: Box::new(self.stmt_at(at, 1)),
                payload: (),
            }),
            13 => {
                let arg = |i| LoadArgP { local: self.assign_ident(i), their: () };
                Stmt::Load(LoadP { args: self.all(at, LOADED, 0).into_iter().map(arg).collect() })
            }
            k => panic!("statement kind {k}"),
        };
        self.spanned(at, node)
    }
}

type Class = std::ops::RangeInclusive<u8>;
const S: Class = 1..=13;
const E: Class = 20..=33;
const T: Class = 40..=42;
const P: Class = 43..=44;
const C: Class = 45..=46;
const LOADED: Class = 47..=47;
