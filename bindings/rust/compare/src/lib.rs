//! What the programs `answers` and `speed` share: the calls of `chinese-number` and of
//! `chinese-number-proved` side by side, and random numbers and texts.

pub mod calls;
pub mod random;

/// Ends a program that was built with debug assertions, because those of `chinese-number` fail at 角
/// and 分.
pub fn require_release() {
    if cfg!(debug_assertions) {
        eprintln!("build with --release");
        std::process::exit(2);
    }
}
