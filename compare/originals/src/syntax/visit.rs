//! The generic visits of document 01: gather the nearest nodes of the wanted
//! class, whatever field they stand in, then go through them in file order.
use super::ast::*;
use crate::codemap::Spanned;

fn go<'a, T>(mut all: Vec<&'a Spanned<T>>, f: impl FnMut(&'a Spanned<T>)) {
    all.sort_by_key(|x| x.span.at);
    all.into_iter().for_each(f)
}

impl Parameter {
    pub fn ident(&self) -> Option<&AstAssignIdent> {
        match self {
            Parameter::Named(x, _) => Some(x),
            Parameter::Unnamed(_) => None,
        }
    }

    fn exprs<'a>(&'a self, out: &mut Vec<&'a AstExpr>) {
        match self {
            Parameter::Named(_, xs) | Parameter::Unnamed(xs) => out.extend(xs),
        }
    }

    pub fn visit_expr<'a>(&'a self, f: impl FnMut(&'a AstExpr)) {
        let mut out = Vec::new();
        self.exprs(&mut out);
        go(out, f)
    }
}

impl AssignTarget {
    fn exprs<'a>(&'a self, out: &mut Vec<&'a AstExpr>) {
        match self {
            AssignTarget::Identifier(_) => {}
            AssignTarget::Tuple(xs) => xs.iter().for_each(|x| x.exprs(out)),
            AssignTarget::Other(xs) => out.extend(xs),
        }
    }

    fn names<'a>(&'a self, out: &mut Vec<&'a AstAssignIdent>) {
        match self {
            AssignTarget::Identifier(x) => out.push(x),
            AssignTarget::Tuple(xs) => xs.iter().for_each(|x| x.names(out)),
            AssignTarget::Other(_) => {}
        }
    }

    pub fn visit_expr<'a>(&'a self, f: impl FnMut(&'a AstExpr)) {
        let mut out = Vec::new();
        self.exprs(&mut out);
        go(out, f)
    }

    pub fn visit_lvalue<'a>(&'a self, f: impl FnMut(&'a AstAssignIdent)) {
        let mut out = Vec::new();
        self.names(&mut out);
        go(out, f)
    }
}

impl ForClause {
    fn exprs<'a>(&'a self, out: &mut Vec<&'a AstExpr>) {
        self.var.exprs(out);
        out.push(&self.over);
    }
}

impl Expr {
    fn exprs<'a>(&'a self, out: &mut Vec<&'a AstExpr>) {
        fn clauses<'a>(a: &'a ForClause, b: &'a [Clause], out: &mut Vec<&'a AstExpr>) {
            a.exprs(out);
            for x in b {
                match x {
                    Clause::For(x) => x.exprs(out),
                    Clause::If(x) => out.push(x),
                }
            }
        }
        match self {
            Expr::Identifier(_) | Expr::Literal(_) => {}
            Expr::Call(x, args) => {
                out.push(x);
                out.extend(&args.args);
            }
            Expr::Lambda(x) => {
                x.params.iter().for_each(|p| p.exprs(out));
                out.push(&x.body);
            }
            Expr::ListComprehension(x, a, b) => {
                out.push(x);
                clauses(a, b, out);
            }
            Expr::DictComprehension(x, a, b) => {
                out.push(&x.0);
                out.push(&x.1);
                clauses(a, b, out);
            }
            Expr::Tuple(xs) | Expr::List(xs) | Expr::Other(xs) => out.extend(xs),
            Expr::Dict(xs) => xs.iter().for_each(|(k, v)| out.extend([k, v])),
            Expr::If(x) => out.extend([&x.0, &x.1, &x.2]),
            Expr::Op(x, _, y) => out.extend([&**x, &**y]),
        }
    }

    pub fn visit_expr<'a>(&'a self, f: impl FnMut(&'a AstExpr)) {
        let mut out = Vec::new();
        self.exprs(&mut out);
        go(out, f)
    }
}

impl Stmt {
    fn stmts<'a>(&'a self, out: &mut Vec<&'a AstStmt>) {
        match self {
            Stmt::Break | Stmt::Continue | Stmt::Pass | Stmt::Return(_) => {}
            Stmt::Expression(_) | Stmt::Assign(_) | Stmt::AssignModify(..) => {}
            Stmt::Load(_) => {}
            Stmt::Statements(xs) => out.extend(xs),
            Stmt::If(_, x) => out.push(x),
            Stmt::IfElse(_, x) => out.extend([&x.0, &x.1]),
            Stmt::For(x) => out.push(&x.body),
            Stmt::Def(x) => out.push(&x.body),
        }
    }

    /// Not only this statement's own expressions: also those of the
    /// statements inside it.
    fn exprs<'a>(&'a self, out: &mut Vec<&'a AstExpr>) {
        match self {
            Stmt::Break | Stmt::Continue | Stmt::Pass | Stmt::Load(_) => {}
            Stmt::Statements(_) => {}
            Stmt::Return(x) => out.extend(x),
            Stmt::Expression(x) | Stmt::If(x, _) | Stmt::IfElse(x, _) => out.push(x),
            Stmt::Assign(x) => {
                x.lhs.exprs(out);
                out.extend(x.ty.as_ref().map(|t| &t.expr));
                out.push(&x.rhs);
            }
            Stmt::AssignModify(x, _, y) => {
                x.exprs(out);
                out.push(y);
            }
            Stmt::For(x) => {
                x.var.exprs(out);
                out.push(&x.over);
            }
            Stmt::Def(x) => {
                x.params.iter().for_each(|p| p.exprs(out));
                out.extend(x.return_type.as_ref().map(|t| &t.expr));
            }
        }
        let mut below = Vec::new();
        self.stmts(&mut below);
        below.into_iter().for_each(|x| x.exprs(out));
    }

    pub fn visit_stmt<'a>(&'a self, f: impl FnMut(&'a AstStmt)) {
        let mut out = Vec::new();
        self.stmts(&mut out);
        go(out, f)
    }

    pub fn visit_expr<'a>(&'a self, f: impl FnMut(&'a AstExpr)) {
        let mut out = Vec::new();
        self.exprs(&mut out);
        go(out, f)
    }
}
