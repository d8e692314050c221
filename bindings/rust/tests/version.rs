//! The linked library has the version of the crate.

use chinese_number as _;

unsafe extern "C" {
    fn chinese_number_version() -> u32;
}

#[test]
fn of_the_library_and_of_the_crate() {
    let parts = [
        env!("CARGO_PKG_VERSION_MAJOR"),
        env!("CARGO_PKG_VERSION_MINOR"),
        env!("CARGO_PKG_VERSION_PATCH"),
    ];
    let [major, minor, patch] = parts.map(|part| part.parse::<u32>().unwrap());
    // SAFETY: the declaration is that of the header.
    let version = unsafe { chinese_number_version() };
    assert_eq!(version, major * 1_000_000 + minor * 1_000 + patch);
}
