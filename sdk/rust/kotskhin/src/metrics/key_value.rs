//! Attributes, as a recording has them.
use crate::attributes::AttributeValue;
use std::borrow::Cow;
use std::fmt;
use std::ptr;

/// Whether texts are equal. One text in two places of a program most often is one piece of memory, which is not read then.
#[inline]
fn is_same(one: &str, other: &str) -> bool {
    one.len() == other.len() && (one.as_ptr() == other.as_ptr() || one == other)
}

/// The key of an attribute.
#[derive(Clone, Eq, PartialOrd, Ord, Hash)]
#[expect(
    clippy::derived_hash_with_manual_eq,
    reason = "equal texts are those that derived equality has"
)]
pub struct Key(Cow<'static, str>);

impl PartialEq for Key {
    #[inline]
    fn eq(&self, other: &Key) -> bool {
        is_same(&self.0, &other.0)
    }
}

impl Key {
    pub fn new(key: impl Into<Key>) -> Key {
        key.into()
    }

    pub const fn from_static_str(key: &'static str) -> Key {
        Key(Cow::Borrowed(key))
    }

    pub fn as_str(&self) -> &str {
        &self.0
    }
}

impl From<&'static str> for Key {
    fn from(key: &'static str) -> Key {
        Key::from_static_str(key)
    }
}

impl From<String> for Key {
    fn from(key: String) -> Key {
        Key(Cow::Owned(key))
    }
}

impl fmt::Debug for Key {
    fn fmt(&self, f: &mut fmt::Formatter<'_>) -> fmt::Result {
        self.0.fmt(f)
    }
}

/// The value of an attribute.
#[derive(Clone, Debug, Eq, Hash)]
#[expect(
    clippy::derived_hash_with_manual_eq,
    reason = "equal texts are those that derived equality has"
)]
#[non_exhaustive]
pub enum Value {
    Bool(bool),
    I64(i64),
    String(Cow<'static, str>),
}

impl PartialEq for Value {
    #[inline]
    fn eq(&self, other: &Value) -> bool {
        match (self, other) {
            (Value::Bool(one), Value::Bool(other)) => one == other,
            (Value::I64(one), Value::I64(other)) => one == other,
            (Value::String(one), Value::String(other)) => is_same(one, other),
            _ => false,
        }
    }
}

impl From<bool> for Value {
    fn from(truth: bool) -> Value {
        Value::Bool(truth)
    }
}

impl From<i64> for Value {
    fn from(number: i64) -> Value {
        Value::I64(number)
    }
}

impl From<&'static str> for Value {
    fn from(text: &'static str) -> Value {
        Value::String(Cow::Borrowed(text))
    }
}

impl From<String> for Value {
    fn from(text: String) -> Value {
        Value::String(Cow::Owned(text))
    }
}

/// An attribute: a key and its value. Of a key that is given twice the later value counts.
#[derive(Clone, Debug, PartialEq, Eq, Hash)]
pub struct KeyValue {
    pub key: Key,
    pub value: Value,
}

impl KeyValue {
    pub fn new(key: impl Into<Key>, value: impl Into<Value>) -> KeyValue {
        KeyValue {
            key: key.into(),
            value: value.into(),
        }
    }

    /// Whether its texts are of the program itself, and stay where they are as long as that runs.
    pub(super) fn stays(&self) -> bool {
        !matches!(self.key.0, Cow::Owned(_)) && !matches!(self.value, Value::String(Cow::Owned(_)))
    }

    /// Where its value is, where that is a text; else the value.
    #[inline]
    pub(super) fn word(&self) -> u64 {
        match &self.value {
            Value::String(text) => text.as_ptr() as u64,
            Value::I64(number) => *number as u64,
            Value::Bool(truth) => u64::from(*truth),
        }
    }

    /// Whether the other one has its texts in the very places of this one. Where those of this one stay, it then has its content, too.
    #[inline]
    pub(super) fn is_in_place_of(&self, other: &KeyValue) -> bool {
        let is_value = match (&self.value, &other.value) {
            (Value::String(one), Value::String(other)) => ptr::eq::<str>(&**one, &**other),
            (Value::I64(one), Value::I64(other)) => one == other,
            (Value::Bool(one), Value::Bool(other)) => one == other,
            _ => false,
        };
        is_value && ptr::eq::<str>(&*self.key.0, &*other.key.0)
    }

    /// As sets of the kit have it.
    pub(super) fn pair(&self) -> (&str, AttributeValue<'_>) {
        let value = match &self.value {
            Value::Bool(truth) => AttributeValue::Truth(*truth),
            Value::I64(number) => AttributeValue::Whole(*number),
            Value::String(text) => AttributeValue::Text(text),
        };
        (self.key.as_str(), value)
    }
}
