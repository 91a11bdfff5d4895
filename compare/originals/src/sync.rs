//! Stand-in for once_cell::sync.

pub struct Lazy<T>(std::sync::LazyLock<T>);

impl<T> Lazy<T> {
    pub const fn new(f: fn() -> T) -> Lazy<T> {
        Lazy(std::sync::LazyLock::new(f))
    }
    pub fn force(this: &Lazy<T>) -> &T {
        std::sync::LazyLock::force(&this.0)
    }
}
