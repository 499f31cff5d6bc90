//! Asks of gateways.
use crate::attributes::{AttributeValue, make_pairs};
use crate::error::{Error, check};
use crate::handle::Handle;
use crate::streams::Streams;
use kotskhin_sys::{
    self as sys, kit_ask_gauge, kit_ask_histogram, kit_ask_keep, kit_ask_only, kit_ask_service,
    kit_ask_stream, kit_ask_sum, kit_keys_add,
};

/// What is asked of a gateway: a stream, and which of its points. Without more, all of them, a row for each attribute set.
#[derive(Debug)]
pub struct Ask(pub(crate) Handle<sys::Ask>);

impl Ask {
    /// Of the sum of a counter, which is monotonic, or of an up-down counter, which is not.
    pub fn sum(scope: &str, name: &str, unit: &str, monotonic: bool) -> Result<Ask, Error> {
        let mut ask = Handle::empty();
        // SAFETY: the handle is ours alone, and each text is a slice's pointer and length.
        check(unsafe {
            kit_ask_sum(
                ask.change(),
                scope.as_ptr(),
                scope.len(),
                name.as_ptr(),
                name.len(),
                unit.as_ptr(),
                unit.len(),
                monotonic,
            )
        })?;
        Ok(Ask(ask))
    }

    /// Of a gauge.
    pub fn gauge(scope: &str, name: &str, unit: &str) -> Result<Ask, Error> {
        let mut ask = Handle::empty();
        // SAFETY: as above.
        check(unsafe {
            kit_ask_gauge(
                ask.change(),
                scope.as_ptr(),
                scope.len(),
                name.as_ptr(),
                name.len(),
                unit.as_ptr(),
                unit.len(),
            )
        })?;
        Ok(Ask(ask))
    }

    /// Of a histogram of these bounds.
    pub fn histogram(scope: &str, name: &str, unit: &str, bounds: &[i64]) -> Result<Ask, Error> {
        let mut ask = Handle::empty();
        // SAFETY: as above; the bounds are a slice's pointer and length.
        check(unsafe {
            kit_ask_histogram(
                ask.change(),
                scope.as_ptr(),
                scope.len(),
                name.as_ptr(),
                name.len(),
                unit.as_ptr(),
                unit.len(),
                bounds.as_ptr(),
                bounds.len(),
            )
        })?;
        Ok(Ask(ask))
    }

    /// Of a stream by its number, as it stands. Refused: `NoItem`, `NoMemory`.
    pub fn stream(streams: &Streams, number: usize) -> Result<Ask, Error> {
        let mut ask = Handle::empty();
        // SAFETY: the ask is ours alone, and the streams are lent.
        check(unsafe { kit_ask_stream(ask.change(), streams.0.read().at(), number) })?;
        Ok(Ask(ask))
    }

    /// From now on of one service's writers.
    pub fn service(&mut self, service: &str) -> Result<(), Error> {
        // SAFETY: the handle is ours alone, and the text is a slice's pointer and length.
        check(unsafe { kit_ask_service(self.0.change(), service.as_ptr(), service.len()) })
    }

    /// From now on of the points that have each of these pairs.
    pub fn only<'a, V: Into<AttributeValue<'a>>>(
        &mut self,
        pairs: impl IntoIterator<Item = (impl AsRef<str>, V)>,
    ) -> Result<(), Error> {
        let mut pairs = make_pairs(pairs)?;
        // SAFETY: both handles are ours alone, and they are two.
        check(unsafe { kit_ask_only(self.0.change(), pairs.change()) })
    }

    /// From now on rows are told apart by these keys alone.
    pub fn keep<'a>(&mut self, keys: impl IntoIterator<Item = &'a str>) -> Result<(), Error> {
        let mut list = Handle::empty();
        for key in keys {
            // SAFETY: the handle is ours alone, and the text is a slice's pointer and length.
            check(unsafe { kit_keys_add(list.change(), key.as_ptr(), key.len()) })?;
        }
        // SAFETY: both handles are ours alone, and they are two.
        check(unsafe { kit_ask_keep(self.0.change(), list.change()) })
    }
}
