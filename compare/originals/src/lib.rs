//! The four lints of starlark 0.14.2, compiled unchanged over stand-ins for what
//! they import, and run over tree files of document 01.
#![allow(dead_code, unused_imports, unused_qualifications)]

// The crates that the originals name. Several lead to this crate itself, where
// what they ask for stands under the same path.
extern crate derives as derive_more;
extern crate derives as dupe;
extern crate derives as serde;
extern crate derives as thiserror;
extern crate self as anyhow;
extern crate self as maplit;
extern crate self as num_bigint;
extern crate self as num_traits;
extern crate self as once_cell;
extern crate self as starlark_syntax;

mod analysis;
mod bigint;
mod codemap;
mod collections;
mod error;
mod lexer;
mod macros;
mod report;
mod sync;
mod syntax;
mod tree;
mod typing;
mod values;

pub use bigint::*;
pub use error::{Error, Result};
pub use report::{count, records, Record};
