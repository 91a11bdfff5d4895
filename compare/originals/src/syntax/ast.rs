//! The tree's types. What an original never looks at is left out.
use crate::codemap::Spanned;
use crate::lexer::TokenInt;
use std::fmt;
use std::fmt::Display;

pub type AstStmt = Spanned<Stmt>;
pub type AstExpr = Spanned<Expr>;
pub type AstTypeExpr = Spanned<TypeExpr>;
pub type AstAssignTarget = Spanned<AssignTarget>;
pub type AstAssignIdent = Spanned<AssignIdent>;
pub type AstIdent = Spanned<Ident>;
pub type AstParameter = Spanned<Parameter>;

pub struct Ident {
    pub ident: String,
}

pub struct AssignIdent {
    pub ident: String,
}

pub struct TypeExpr {
    pub expr: AstExpr,
}

pub enum AstLiteral {
    Int(Spanned<TokenInt>),
    Float(Spanned<f64>),
    String(Spanned<String>),
    Bytes(Spanned<Vec<u8>>),
    Ellipsis,
}

#[derive(Clone, Copy, PartialEq, Eq)]
pub enum BinOp {
    Equal,
    NotEqual,
}

pub struct CallArgs {
    pub args: Vec<AstExpr>,
}

pub struct LambdaP {
    pub params: Vec<AstParameter>,
    pub body: Box<AstExpr>,
}

pub struct ForClause {
    pub var: AstAssignTarget,
    pub over: AstExpr,
}

pub enum Clause {
    For(ForClause),
    If(AstExpr),
}

pub enum Expr {
    Identifier(AstIdent),
    Literal(AstLiteral),
    Call(Box<AstExpr>, CallArgs),
    Lambda(LambdaP),
    ListComprehension(Box<AstExpr>, Box<ForClause>, Vec<Clause>),
    DictComprehension(Box<(AstExpr, AstExpr)>, Box<ForClause>, Vec<Clause>),
    Tuple(Vec<AstExpr>),
    List(Vec<AstExpr>),
    Dict(Vec<(AstExpr, AstExpr)>),
    If(Box<(AstExpr, AstExpr, AstExpr)>),
    Op(Box<AstExpr>, BinOp, Box<AstExpr>),
    /// Dot, index, slice, not, minus, other operators, f-strings.
    Other(Vec<AstExpr>),
}

pub enum AssignTarget {
    Identifier(AstAssignIdent),
    Tuple(Vec<AstAssignTarget>),
    /// Index or dot.
    Other(Vec<AstExpr>),
}

/// In the crate six forms of parameter; their types and defaults are `E0` here.
pub enum Parameter {
    Named(AstAssignIdent, Vec<AstExpr>),
    Unnamed(Vec<AstExpr>),
}

pub struct AssignP {
    pub lhs: AstAssignTarget,
    pub ty: Option<AstTypeExpr>,
    pub rhs: AstExpr,
}

/// `+=` and the like: the tree file doesn't keep which.
pub struct AssignOp;

pub struct ForP {
    pub var: AstAssignTarget,
    pub over: AstExpr,
    pub body: Box<AstStmt>,
}

pub struct DefP {
    pub name: AstAssignIdent,
    pub params: Vec<AstParameter>,
    pub return_type: Option<Box<AstTypeExpr>>,
    pub body: Box<AstStmt>,
    pub payload: (),
}

pub struct LoadArgP {
    pub local: AstAssignIdent,
    pub their: (),
}

pub struct LoadP {
    pub args: Vec<LoadArgP>,
}

pub enum Stmt {
    Break,
    Continue,
    Pass,
    Return(Option<AstExpr>),
    Expression(AstExpr),
    Assign(AssignP),
    AssignModify(AstAssignTarget, AssignOp, Box<AstExpr>),
    Statements(Vec<AstStmt>),
    If(AstExpr, Box<AstStmt>),
    IfElse(AstExpr, Box<(AstStmt, AstStmt)>),
    For(ForP),
    Def(DefP),
    Load(LoadP),
}

// What is printed only has to lead back to the node.

impl Display for AstExpr {
    fn fmt(&self, f: &mut fmt::Formatter<'_>) -> fmt::Result {
        write!(f, "#{}", self.span.at)
    }
}

impl Display for Expr {
    fn fmt(&self, f: &mut fmt::Formatter<'_>) -> fmt::Result {
        f.write_str("_")
    }
}

impl Display for Stmt {
    fn fmt(&self, f: &mut fmt::Formatter<'_>) -> fmt::Result {
        f.write_str("_")
    }
}

impl Display for BinOp {
    fn fmt(&self, f: &mut fmt::Formatter<'_>) -> fmt::Result {
        f.write_str(match self {
            BinOp::Equal => " == ",
            BinOp::NotEqual => " != ",
        })
    }
}
