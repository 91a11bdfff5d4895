//! A module: its one statement. There is no text behind it.
use super::ast;
use crate::codemap::CodeMap;

pub struct AstModule {
    pub root: ast::AstStmt,
}

pub trait AstModuleFields {
    fn codemap(&self) -> &CodeMap;
    fn statement(&self) -> &ast::AstStmt;
}

impl AstModuleFields for AstModule {
    fn codemap(&self) -> &CodeMap {
        &CodeMap
    }
    fn statement(&self) -> &ast::AstStmt {
        &self.root
    }
}
