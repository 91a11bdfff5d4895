//! Stand-in for starlark::collections: only named.

pub struct StarlarkHashValue;

impl StarlarkHashValue {
    pub fn hash_64(_: u64) -> StarlarkHashValue {
        StarlarkHashValue
    }
}
