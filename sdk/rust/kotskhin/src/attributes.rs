//! Attribute sets.
use crate::error::{Error, check, check_at};
use crate::export::copy_by;
use crate::handle::{Handle, Lent};
use kotskhin_sys::{
    self as sys, kit_attributes_key, kit_attributes_len, kit_attributes_make, kit_attributes_text,
    kit_attributes_value, kit_pairs_add_text, kit_pairs_add_truth, kit_pairs_add_whole,
};
use std::sync::{Mutex, MutexGuard, PoisonError};

/// The value of an attribute.
#[derive(Clone, Copy, Debug, PartialEq, Eq)]
pub enum AttributeValue<'a> {
    Text(&'a str),
    Whole(i64),
    Truth(bool),
}

impl<'a> From<&'a str> for AttributeValue<'a> {
    fn from(text: &'a str) -> Self {
        AttributeValue::Text(text)
    }
}

impl<'a> From<&'a String> for AttributeValue<'a> {
    fn from(text: &'a String) -> Self {
        AttributeValue::Text(text)
    }
}

impl From<i64> for AttributeValue<'_> {
    fn from(number: i64) -> Self {
        AttributeValue::Whole(number)
    }
}

impl From<bool> for AttributeValue<'_> {
    fn from(truth: bool) -> Self {
        AttributeValue::Truth(truth)
    }
}

/// The value of an attribute that is read.
#[derive(Clone, Debug, PartialEq, Eq)]
pub enum OwnedValue {
    Text(String),
    Whole(i64),
    Truth(bool),
}

impl<'a> From<&'a OwnedValue> for AttributeValue<'a> {
    fn from(value: &'a OwnedValue) -> Self {
        match value {
            OwnedValue::Text(text) => AttributeValue::Text(text),
            OwnedValue::Whole(number) => AttributeValue::Whole(*number),
            OwnedValue::Truth(truth) => AttributeValue::Truth(*truth),
        }
    }
}

/// The pairs of a set, in the order of their keys.
pub(crate) fn read_pairs(
    set: &Handle<sys::Attributes>,
) -> Result<Vec<(String, OwnedValue)>, Error> {
    let mut count = 0;
    // SAFETY: the set is lent.
    check(unsafe { kit_attributes_len(set.read().at(), &mut count) })?;
    (0..count).map(|number| read_pair(set, number)).collect()
}

fn read_pair(set: &Handle<sys::Attributes>, number: usize) -> Result<(String, OwnedValue), Error> {
    // SAFETY: the set is lent, here and below, and the room is a slice's.
    let key = copy_by(|room, len| unsafe {
        kit_attributes_key(set.read().at(), number, room.as_mut_ptr(), room.len(), len)
    })?;
    let (mut kind, mut whole) = (0, 0);
    check(unsafe { kit_attributes_value(set.read().at(), number, &mut kind, &mut whole) })?;
    let value = match kind {
        1 => OwnedValue::Whole(whole),
        2 => OwnedValue::Truth(whole == 1),
        _ => {
            let text = copy_by(|room, len| unsafe {
                kit_attributes_text(set.read().at(), number, room.as_mut_ptr(), room.len(), len)
            })?;
            OwnedValue::Text(String::from_utf8_lossy(&text).into_owned())
        }
    };
    Ok((String::from_utf8_lossy(&key).into_owned(), value))
}

/// Pairs, in the order in which they come.
pub(crate) fn make_pairs<'a, V: Into<AttributeValue<'a>>>(
    pairs: impl IntoIterator<Item = (impl AsRef<str>, V)>,
) -> Result<Handle<sys::Pairs>, Error> {
    let mut handle = Handle::empty();
    for (key, value) in pairs {
        let key = key.as_ref();
        let at = handle.change();
        // SAFETY: the handle is ours alone, and each text is a slice's pointer and length.
        check(unsafe {
            match value.into() {
                AttributeValue::Text(text) => {
                    kit_pairs_add_text(at, key.as_ptr(), key.len(), text.as_ptr(), text.len())
                }
                AttributeValue::Whole(number) => {
                    kit_pairs_add_whole(at, key.as_ptr(), key.len(), number)
                }
                AttributeValue::Truth(truth) => {
                    kit_pairs_add_truth(at, key.as_ptr(), key.len(), truth)
                }
            }
        })?;
    }
    Ok(handle)
}

fn make_set(pairs: &Handle<sys::Pairs>) -> Result<Handle<sys::Attributes>, Error> {
    let (mut set, mut place) = (Handle::empty(), 0);
    // SAFETY: the set is ours alone, and the pairs are lent.
    let code = unsafe { kit_attributes_make(set.change(), pairs.read().at(), &mut place) };
    check_at(code, place)?;
    Ok(set)
}

/// A set of attributes: of a key that is given twice the later value stays. Make it once, and record with it often, from any thread.
#[derive(Debug)]
pub struct Attributes {
    set: Handle<sys::Attributes>,
    pairs: Handle<sys::Pairs>,
    /// An equal set for calls that have theirs for themselves, once there was one.
    copy: Mutex<Handle<sys::Attributes>>,
}

impl Attributes {
    /// Of pairs, or of what a map has. Refused: `EmptyKey`, `NoMemory`.
    pub fn new<'a, V: Into<AttributeValue<'a>>>(
        pairs: impl IntoIterator<Item = (impl AsRef<str>, V)>,
    ) -> Result<Attributes, Error> {
        let pairs = make_pairs(pairs)?;
        Ok(Attributes {
            set: make_set(&pairs)?,
            pairs,
            copy: Mutex::new(Handle::empty()),
        })
    }

    /// The set without attributes.
    pub fn none() -> Result<Attributes, Error> {
        Attributes::new([("", ""); 0])
    }

    /// Its pairs, in the order of their keys: each key once. Refused: `NoMemory`.
    pub fn pairs(&self) -> Result<Vec<(String, OwnedValue)>, Error> {
        read_pairs(&self.set)
    }

    /// For a call that only reads the set.
    #[inline]
    pub(crate) fn read(&self) -> Lent<'_, sys::Attributes> {
        self.set.read()
    }

    /// For a call that has its set for itself: to hold it is one.
    pub(crate) fn lock_copy(&self) -> Result<MutexGuard<'_, Handle<sys::Attributes>>, Error> {
        let mut copy = self.copy.lock().unwrap_or_else(PoisonError::into_inner);
        if copy.is_empty() {
            *copy = make_set(&self.pairs)?;
        }
        Ok(copy)
    }
}
