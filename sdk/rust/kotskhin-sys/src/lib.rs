//! The functions of libkotskhin.a, its kinds of handles, and the codes that it answers.
//!
//! `declared.rs` is made of the exports of `crates/kit_c` by `sdk/declarations.py`. What a caller must keep, and the page of each function,
//! stand in `sdk/c/kotskhin.h`. Use the crate `kotskhin`, whose types keep it.
#![no_std]

/// What all handles are: one thing, or nothing. Its fields are the library's.
#[repr(C)]
#[allow(dead_code)]
pub struct Handle {
    full: bool,
    at: *mut u8,
}

/// A kind of handles.
///
/// # Safety
///
/// It is a [`Handle`] and nothing beside, and `EMPTY` has nothing.
pub unsafe trait Kind {
    const EMPTY: Self;

    /// Whether it has something.
    fn is_full(&self) -> bool;
}

macro_rules! kind {
    ($(#[$page:meta])* $kind:ident) => {
        $(#[$page])*
        #[repr(C)]
        pub struct $kind {
            handle: $crate::Handle,
        }

        // SAFETY: its one field is a handle, and of no bytes but 0 that has nothing.
        unsafe impl $crate::Kind for $kind {
            const EMPTY: $kind = $kind {
                handle: $crate::Handle {
                    full: false,
                    at: core::ptr::null_mut(),
                },
            };

            fn is_full(&self) -> bool {
                self.handle.full
            }
        }

        const _: () = assert!(size_of::<$kind>() == 16);
    };
}

#[rustfmt::skip]
mod declared;

pub use declared::*;
