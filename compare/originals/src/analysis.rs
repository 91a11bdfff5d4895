//! The originals themselves, from cargo's output folder (see build.rs).
pub use types::EvalSeverity;

pub(crate) mod types {
    include!(concat!(env!("OUT_DIR"), "/types.rs"));
}
pub(crate) mod names {
    include!(concat!(env!("OUT_DIR"), "/names.rs"));
}
pub(crate) mod flow {
    include!(concat!(env!("OUT_DIR"), "/flow.rs"));
}
pub(crate) mod incompatible {
    include!(concat!(env!("OUT_DIR"), "/incompatible.rs"));
}
pub(crate) mod dubious {
    include!(concat!(env!("OUT_DIR"), "/dubious.rs"));
}
