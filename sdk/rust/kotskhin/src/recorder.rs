//! Recorders: threads note recordings each by itself, and a writer takes them in.
use crate::attributes::Attributes;
use crate::error::{Error, check};
use crate::handle::Handle;
use crate::writer::HeldNumber;
use kotskhin_sys::{
    self as sys, kit_recorder_clear, kit_recorder_len, kit_recorder_measure,
    kit_recorder_measure_held, kit_recorder_new,
};

/// What became of recordings that a writer took in from the front of a recorder. Where memory is wanting it stops: that recording and
/// those behind it stay in the recorder.
#[derive(Clone, Copy, Debug, PartialEq, Eq)]
pub struct Taken {
    /// How many were recorded.
    pub recorded: usize,
    /// How many were refused, each by itself.
    pub refused: usize,
    /// Of these the first: its place among those that were taken in, from 0, and why it was refused.
    pub first: Option<(usize, Error)>,
}

impl From<sys::Taken> for Taken {
    fn from(taken: sys::Taken) -> Taken {
        let first = || {
            let why = Error::from_code(taken.code, taken.place, 0);
            (taken.first, why)
        };
        Taken {
            recorded: taken.recorded,
            refused: taken.refused,
            first: (taken.code != sys::OK).then(first),
        }
    }
}

/// A thread's own log of recordings, up to a capacity: it meets no other thread, and [`Writer::take_in`] or [`Seat::take_in`] records
/// what it has. It is of no plan: an instrument that is not there, or a value below 0 of a counter, is refused once it is taken in.
///
/// What one recorder has is taken in in the order in which it was noted, and of several recorders in the order in which they are taken in,
/// whenever it was noted: so the last value of a gauge is that of the recorder that was taken in last. Where threads set one gauge in
/// turn, record it by the writer itself, as the layers above do.
///
/// One that is dropped loses what it has.
///
/// [`Writer::take_in`]: crate::Writer::take_in
/// [`Seat::take_in`]: crate::Seat::take_in
#[derive(Debug)]
pub struct Recorder(pub(crate) Handle<sys::Recorder>);

impl Recorder {
    /// An empty log for so many recordings, 16 bytes each. Refused: `NoMemory`.
    pub fn new(capacity: usize) -> Result<Recorder, Error> {
        let mut recorder = Handle::empty();
        // SAFETY: the recorder is ours alone.
        check(unsafe { kit_recorder_new(recorder.change(), capacity) })?;
        Ok(Recorder(recorder))
    }

    /// Notes a value. Refused: `RecorderFull`, `NoMemory`.
    #[inline]
    pub fn measure(
        &mut self,
        instrument: usize,
        attributes: &Attributes,
        value: i64,
    ) -> Result<(), Error> {
        // SAFETY: the recorder is ours alone; the attributes are lent.
        check(unsafe {
            kit_recorder_measure(self.0.change(), instrument, attributes.read().at(), value)
        })
    }

    /// Notes a value at what the writer that will take it in holds under a number: the shortest way for threads. Refused: `RecorderFull`.
    #[inline]
    pub fn measure_held(&mut self, number: HeldNumber, value: i64) -> Result<(), Error> {
        // SAFETY: the recorder is ours alone.
        check(unsafe { kit_recorder_measure_held(self.0.change(), number.0, value) })
    }

    /// How many recordings it has.
    pub fn len(&self) -> Result<usize, Error> {
        let mut count = 0;
        // SAFETY: the recorder is lent.
        check(unsafe { kit_recorder_len(self.0.read().at(), &mut count) })?;
        Ok(count)
    }

    /// Whether it has none.
    pub fn is_empty(&self) -> Result<bool, Error> {
        Ok(self.len()? == 0)
    }

    /// Forgets what it has.
    pub fn clear(&mut self) -> Result<(), Error> {
        // SAFETY: the recorder is ours alone.
        check(unsafe { kit_recorder_clear(self.0.change()) })
    }
}
