//! Writers that threads share without a lock.
use crate::attributes::Attributes;
use crate::error::{Error, check, check_at};
use crate::export::Export;
use crate::handle::Handle;
use crate::recorder::{Recorder, Taken};
use crate::writer::HeldNumber;
use kotskhin_sys::{
    self as sys, kit_seat_collect, kit_seat_hold, kit_seat_measure, kit_seat_measure_held,
    kit_seat_split, kit_seat_take_in,
};

/// A place at a writer that threads share: each thread has its own, and it can't be used at another writer.
///
/// Its calls wait for nobody: while another thread's call has the writer they are refused with `Busy`, and may be made again. The
/// writer lasts as long as one of its seats does.
#[derive(Debug)]
pub struct Seat(pub(crate) Handle<sys::Seat>);

impl Seat {
    /// Another seat at the same writer, for another thread. Refused: `NoMemory`; `Busy`; `SeatsFull` where 4,096 were made.
    pub fn split(&mut self) -> Result<Seat, Error> {
        let mut seat = Handle::empty();
        // SAFETY: both handles are ours alone, and they are two.
        check(unsafe { kit_seat_split(self.0.change(), seat.change()) })?;
        Ok(Seat(seat))
    }

    /// Records a value. Refused: `Busy`, `Exhausted`, and as `Writer::measure` is.
    #[inline]
    pub fn measure(
        &mut self,
        instrument: usize,
        attributes: &Attributes,
        value: i64,
    ) -> Result<(), Error> {
        let mut place = 0;
        // SAFETY: the seat is ours alone; the attributes are lent.
        let code = unsafe {
            kit_seat_measure(
                self.0.change(),
                instrument,
                attributes.read().at(),
                value,
                &mut place,
            )
        };
        check_at(code, place)
    }

    /// Holds an instrument and a set, and answers their number, which any seat of the writer may use. A pair that this seat knows is
    /// found without the writer; another is held anew, where no other seat holds it. Refused: `NoMemory`, `Busy`, `Exhausted`, `Closed`,
    /// `NoInstrument`.
    pub fn hold(
        &mut self,
        instrument: usize,
        attributes: &Attributes,
    ) -> Result<HeldNumber, Error> {
        let mut number = 0;
        let mut set = attributes.lock_copy()?;
        // SAFETY: both handles are ours alone, and they are two.
        check(unsafe { kit_seat_hold(self.0.change(), instrument, set.change(), &mut number) })?;
        Ok(HeldNumber(number))
    }

    /// Records a value at what the writer holds under a number. Refused: `Busy`, `Exhausted`, and as `Writer::measure_held` is.
    #[inline]
    pub fn measure_held(&mut self, number: HeldNumber, value: i64) -> Result<(), Error> {
        let mut place = 0;
        // SAFETY: the seat is ours alone.
        let code = unsafe { kit_seat_measure_held(self.0.change(), number.0, value, &mut place) };
        check_at(code, place)
    }

    /// Takes in a recorder, as `Writer::take_in` does: by pieces others get in between. Refused, and both stay as they were: `Busy`,
    /// `Exhausted`, `Closed`.
    pub fn take_in(&mut self, recorder: &mut Recorder, most: usize) -> Result<Taken, Error> {
        let mut taken = kotskhin_sys::Taken::default();
        // SAFETY: both handles are ours alone, and they are two.
        check(unsafe { kit_seat_take_in(self.0.change(), recorder.0.change(), most, &mut taken) })?;
        Ok(Taken::from(taken))
    }

    /// The points since the start: all that any seat recorded before. Refused: `Busy`, `Exhausted`, `TimeNotAfter`, `NoMemory`.
    pub fn collect(&mut self, time: u64) -> Result<Export, Error> {
        let (mut export, mut place) = (Handle::empty(), 0);
        // SAFETY: both handles are ours alone, and they are two.
        let code = unsafe { kit_seat_collect(self.0.change(), time, export.change(), &mut place) };
        check_at(code, place)?;
        Ok(Export(export))
    }
}
