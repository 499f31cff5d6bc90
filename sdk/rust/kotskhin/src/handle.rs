//! One owner for each handle.
use kotskhin_sys::{Kind, kit_free};
use std::fmt;
use std::marker::PhantomData;
use std::ptr;

/// A handle with one owner: it is neither `Copy` nor `Clone`, and is given back when it is dropped.
///
/// A call of the library has each of its handles for itself while it runs. So what changes takes a `&mut`, and what only reads is lent: the
/// call has a copy of the handle's bytes, and any number of threads may read at once.
pub(crate) struct Handle<K: Kind>(K);

// SAFETY: `crates/kit_c` proves `Send` of what a handle can have (`held_goes_to_another_thread`).
unsafe impl<K: Kind> Send for Handle<K> {}

// SAFETY: no call writes to a handle that is behind a `&`, since it has a copy of its bytes (`Lent`). What the handle has it looks at by a
// `&` of its own, and kit_c's contracts say that it is as it was (`kept`); tests/sdk looks for races of such calls.
unsafe impl<K: Kind> Sync for Handle<K> {}

impl<K: Kind> Handle<K> {
    pub const fn empty() -> Handle<K> {
        Handle(K::EMPTY)
    }

    /// Whether it has nothing.
    pub fn is_empty(&self) -> bool {
        !self.0.is_full()
    }

    /// For a call that may change what the handle has.
    #[inline]
    pub fn change(&mut self) -> *mut K {
        &mut self.0
    }

    /// For a call that only reads what the handle has.
    #[inline]
    pub fn read(&self) -> Lent<'_, K> {
        // SAFETY: a handle is bytes, and what it has is given up by `Handle` alone.
        Lent(unsafe { ptr::read(&self.0) }, PhantomData)
    }
}

impl<K: Kind> fmt::Debug for Handle<K> {
    fn fmt(&self, f: &mut fmt::Formatter<'_>) -> fmt::Result {
        f.write_str(if self.is_empty() { "empty" } else { "full" })
    }
}

impl<K: Kind> Drop for Handle<K> {
    fn drop(&mut self) {
        // SAFETY: this is the only owner, no call has the handle, and each kind is a handle.
        unsafe { kit_free(self.change().cast()) }
    }
}

/// A handle for one call that only reads: as long as it lasts nothing changes what the handle has.
pub(crate) struct Lent<'a, K: Kind>(K, PhantomData<&'a Handle<K>>);

impl<K: Kind> Lent<'_, K> {
    #[inline]
    pub fn at(&mut self) -> *mut K {
        &mut self.0
    }
}
