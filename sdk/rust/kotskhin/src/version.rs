//! Which library this is.
use kotskhin_sys::kit_version;

/// What `kit_version` tells more of a library that was made without its proofs.
const NOT_PROVED: u32 = 1 << 31;

/// The version of the library, which also says where it was made without its proofs: `0.1.0, not proved`.
#[must_use]
pub fn version() -> String {
    // SAFETY: it takes nothing.
    let told = unsafe { kit_version() };
    let number = told & !NOT_PROVED;
    let numbers = format!("{}.{}.{}", number >> 16, number >> 8 & 255, number & 255);
    if told & NOT_PROVED == 0 {
        numbers
    } else {
        numbers + ", not proved"
    }
}
