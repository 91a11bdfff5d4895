//! Stand-in for starlark_syntax::syntax: the tree's types as the originals take
//! them apart (ast.rs), and the visitors, all in file order (visit.rs).
pub mod ast;
pub mod module;
mod visit;

pub use module::AstModule;
