//! Stand-ins for the macros of maplit and anyhow; exported, they stand at the root.

#[macro_export]
macro_rules! hashset {
    ($($x:expr),*) => {{
        let mut out = ::std::collections::HashSet::new();
        $(out.insert($x);)*
        out
    }};
}

#[macro_export]
macro_rules! hashmap {
    ($($k:expr => $v:expr),*) => {{
        let mut out = ::std::collections::HashMap::new();
        $(out.insert($k, $v);)*
        out
    }};
}

#[macro_export]
macro_rules! anyhow {
    ($x:expr) => {
        $crate::Error($x.to_owned())
    };
}
