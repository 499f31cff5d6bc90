//! Streams: what can be asked for.
use crate::error::{Error, check};
use crate::export::copy_by;
use crate::handle::Handle;
use kotskhin_sys::{
    self as sys, kit_streams_bounds, kit_streams_len, kit_streams_shape, kit_streams_text,
};

/// What the points of a stream are.
#[derive(Clone, Debug, PartialEq, Eq)]
#[non_exhaustive]
pub enum Shape {
    /// Sums, which only rise where they are monotonic.
    Sum {
        monotonic: bool,
    },
    Gauge,
    /// Histograms of these bounds.
    Histogram {
        bounds: Vec<i64>,
    },
}

/// A stream, by all that an ask wants.
#[derive(Clone, Debug, PartialEq, Eq)]
pub struct Stream {
    pub scope: String,
    pub name: String,
    pub unit: String,
    pub shape: Shape,
}

/// The streams of a plan, whose numbers are those that [`Error::Overflow`] tells, or of a gateway.
#[derive(Debug)]
pub struct Streams(pub(crate) Handle<sys::Streams>);

impl Streams {
    /// How many there are.
    pub fn count(&self) -> Result<usize, Error> {
        let mut count = 0;
        // SAFETY: the streams are lent.
        check(unsafe { kit_streams_len(self.0.read().at(), &mut count) })?;
        Ok(count)
    }

    /// All of them, in the order of their numbers. Refused: `NoMemory`.
    pub fn all(&self) -> Result<Vec<Stream>, Error> {
        (0..self.count()?)
            .map(|number| self.stream(number))
            .collect()
    }

    /// The stream of a number, from 0. Refused: `NoItem`.
    pub fn stream(&self, number: usize) -> Result<Stream, Error> {
        let (mut shape, mut bounds) = (0, 0);
        // SAFETY: the streams are lent.
        check(unsafe { kit_streams_shape(self.0.read().at(), number, &mut shape, &mut bounds) })?;
        Ok(Stream {
            scope: self.read_text(number, 0)?,
            name: self.read_text(number, 1)?,
            unit: self.read_text(number, 2)?,
            shape: match shape {
                0 => Shape::Sum { monotonic: true },
                1 => Shape::Sum { monotonic: false },
                2 => Shape::Gauge,
                _ => Shape::Histogram {
                    bounds: self.read_bounds(number, bounds)?,
                },
            },
        })
    }

    fn read_text(&self, number: usize, part: u8) -> Result<String, Error> {
        // SAFETY: the streams are lent, and the room is a slice's.
        let bytes = copy_by(|room, len| unsafe {
            kit_streams_text(
                self.0.read().at(),
                number,
                part,
                room.as_mut_ptr(),
                room.len(),
                len,
            )
        })?;
        Ok(String::from_utf8_lossy(&bytes).into_owned())
    }

    fn read_bounds(&self, number: usize, count: usize) -> Result<Vec<i64>, Error> {
        let (mut bounds, mut len) = (vec![0; count], 0);
        // SAFETY: the streams are lent, and the room is the vector's.
        check(unsafe {
            kit_streams_bounds(
                self.0.read().at(),
                number,
                bounds.as_mut_ptr(),
                count,
                &mut len,
            )
        })?;
        Ok(bounds)
    }
}
