//! Links the original files, unedited, from $LINT_RUST (default: ../shared/docs/src
//! beside the repository) into OUT_DIR, where src/analysis.rs and src/values.rs
//! include them. Nothing of their text is kept in this project.
use std::path::{Path, PathBuf};
use std::{env, fs};

/// Name in OUT_DIR, path inside the crate starlark 0.14.2, length in bytes and
/// FNV-1a of the file as published (a wrong or edited file stops the build).
const FILES: [(&str, &str, u64, u64); 7] = [
    ("names.rs", "src/analysis/names.rs", 19470, 0x290b823c6feb2a8e),
    ("flow.rs", "src/analysis/flow.rs", 11524, 0x5d89e8383445b6f9),
    ("incompatible.rs", "src/analysis/incompatible.rs", 7231, 0x407c282ee6d7a50f),
    ("dubious.rs", "src/analysis/dubious.rs", 5308, 0x9246d8708c45de92),
    ("types.rs", "src/analysis/types.rs", 6280, 0xb7815b8133a9a4e1),
    ("int_or_big.rs", "src/values/types/int/int_or_big.rs", 19386, 0x9816730a2068bdcb),
    ("value.rs", "src/values/types/num/value.rs", 6777, 0x4054e3b8673ad2b7),
];

fn fnv(bytes: &[u8]) -> u64 {
    bytes.iter().fold(0xcbf29ce484222325, |h, b| (h ^ u64::from(*b)).wrapping_mul(0x100000001b3))
}

/// INDEX.md flattens a path with `--`; a checkout has it as it is.
fn find(dir: &Path, path: &str) -> PathBuf {
    let flat = path.replace('/', "--");
    let tries = [format!("src--{flat}.txt"), format!("{flat}.txt"), format!("{path}.txt"), path.to_owned()];
    tries
        .iter()
        .map(|t| dir.join(t))
        .find(|p| p.is_file())
        .unwrap_or_else(|| panic!("{path} is not in {} (tried {tries:?})", dir.display()))
}

fn main() {
    println!("cargo:rerun-if-env-changed=LINT_RUST");
    println!("cargo:rerun-if-env-changed=LINT_RUST_ANY");
    println!("cargo:rerun-if-changed=build.rs");
    let here = PathBuf::from(env::var_os("CARGO_MANIFEST_DIR").unwrap());
    let dir = env::var_os("LINT_RUST").map_or(here.join("../../../shared/docs/src"), PathBuf::from);
    let dir = fs::canonicalize(&dir)
        .unwrap_or_else(|e| panic!("{}: {e}; set LINT_RUST to the folder with the Rust", dir.display()));
    let out = PathBuf::from(env::var_os("OUT_DIR").unwrap());
    for (name, path, len, sum) in FILES {
        let from = find(&dir, path);
        println!("cargo:rerun-if-changed={}", from.display());
        let text = fs::read(&from).unwrap();
        if env::var_os("LINT_RUST_ANY").is_none() {
            assert!(
                text.len() as u64 == len && fnv(&text) == sum,
                "{path}: {} bytes, sum {:#018x}; wanted {len}, {sum:#018x} (LINT_RUST_ANY=1 lets it pass)",
                text.len(),
                fnv(&text)
            );
        }
        let to = out.join(name);
        let _ = fs::remove_file(&to);
        #[cfg(unix)]
        std::os::unix::fs::symlink(&from, &to).unwrap();
        #[cfg(not(unix))]
        fs::copy(&from, &to).unwrap();
    }
}
