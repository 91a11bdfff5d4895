//! Stand-in for starlark::typing: only named.

pub struct Ty;

impl Ty {
    pub fn int() -> Ty {
        Ty
    }
}
