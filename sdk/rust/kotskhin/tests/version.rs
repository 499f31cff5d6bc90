//! Which library this is.

/// `KOTSKHIN_VERSION` has what tests/sdk/quick.py wants of the library that is linked.
#[test]
fn the_version_tells_whether_the_library_is_proved() {
    let told = kotskhin::version();
    let wanted = std::env::var("KOTSKHIN_VERSION").unwrap_or_else(|_| told.clone());
    assert!(
        told == wanted && told.starts_with(env!("CARGO_PKG_VERSION")),
        "{told:?} is not {wanted:?}"
    );
}
