//! Stand-in for anyhow's and starlark's own error: never made, only named.
use crate::codemap::FileSpan;

pub struct Error(pub(crate) String);
pub type Result<T, E = Error> = std::result::Result<T, E>;

impl<E: std::error::Error> From<E> for Error {
    fn from(x: E) -> Error {
        Error(x.to_string())
    }
}

impl std::fmt::Display for Error {
    fn fmt(&self, f: &mut std::fmt::Formatter<'_>) -> std::fmt::Result {
        f.write_str(&self.0)
    }
}

impl Error {
    pub(crate) fn span(&self) -> Option<&FileSpan> {
        None
    }
    pub(crate) fn without_diagnostic(&self) -> &str {
        &self.0
    }
}
