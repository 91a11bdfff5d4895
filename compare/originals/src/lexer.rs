//! Stand-in for starlark_syntax::lexer: an integer literal.

#[derive(Clone, Debug)]
pub enum TokenInt {
    I32(i32),
    BigInt(num_bigint::BigInt),
}

impl TokenInt {
    pub fn from_str_radix(_: &str, _: u32) -> crate::Result<TokenInt> {
        unimplemented!("literals come as bytes")
    }
}
