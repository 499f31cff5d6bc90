//! Writers.
use crate::attributes::Attributes;
use crate::error::{Error, check, check_at};
use crate::export::Export;
use crate::handle::Handle;
use crate::plan::Plan;
use crate::recorder::{Recorder, Taken};
use crate::seat::Seat;
use kotskhin_sys::{
    self as sys, kit_writer_collect, kit_writer_hold, kit_writer_measure, kit_writer_measure_held,
    kit_writer_restart, kit_writer_share, kit_writer_shutdown, kit_writer_start,
    kit_writer_take_in,
};
use std::fs::File;
use std::hash::{BuildHasher, RandomState};
use std::io::{self, Read};

/// The number of an instrument and a set that a writer holds. At another writer it is that of another pair, or of none.
#[derive(Clone, Copy, Debug, PartialEq, Eq, Hash)]
pub struct HeldNumber(pub(crate) usize);

/// An instance that is drawn anew at each call, so that no two processes share it. Refused as reading `/dev/urandom` is.
pub fn unique_instance() -> io::Result<u128> {
    let mut drawn = [0; 16];
    File::open("/dev/urandom")?.read_exact(&mut drawn)?;
    Ok(u128::from_ne_bytes(drawn))
}

/// The same, of the keys that std draws for its hash maps where the system's device can't be read.
pub(crate) fn draw_instance() -> u128 {
    unique_instance().unwrap_or_else(|_| {
        let half = |bit: u8| u128::from(RandomState::new().hash_one(bit));
        half(0) << 64 | half(1)
    })
}

/// The points of a plan's instruments since a start. One thread at a time has it: give threads recorders that it takes in, share it by
/// seats or by a `Mutex`, or give each thread a writer of its own, under another instance.
#[derive(Debug)]
pub struct Writer(Handle<sys::Writer>);

impl Writer {
    /// A writer of a service's instance, which counts from `start` on. Of two writers that share service, instance and start a gateway
    /// keeps one alone: without an instance of your own take [`unique_instance`]. Refused: `NoMemory`.
    pub fn start(plan: &Plan, service: &str, instance: u128, start: u64) -> Result<Writer, Error> {
        let mut writer = Handle::empty();
        // SAFETY: the writer is ours alone, and the plan is lent; they are two.
        check(unsafe {
            kit_writer_start(
                writer.change(),
                plan.0.read().at(),
                service.as_ptr(),
                service.len(),
                (instance >> 64) as u64,
                instance as u64,
                start,
            )
        })?;
        Ok(Writer(writer))
    }

    /// Records a value. Refused: `Closed`, `NoInstrument`, `Negative`, `Overflow`, `NoMemory`.
    #[inline]
    pub fn measure(
        &mut self,
        instrument: usize,
        attributes: &Attributes,
        value: i64,
    ) -> Result<(), Error> {
        let mut place = 0;
        // SAFETY: the writer is ours alone; the attributes are lent.
        let code = unsafe {
            kit_writer_measure(
                self.0.change(),
                instrument,
                attributes.read().at(),
                value,
                &mut place,
            )
        };
        check_at(code, place)
    }

    /// Holds an instrument and a set as long as the writer is, and answers their number, which restarts keep. Of a pair that is held
    /// already it is the number that it has: nothing grows. Refused: `Closed`, `NoInstrument`, `NoMemory`.
    pub fn hold(
        &mut self,
        instrument: usize,
        attributes: &Attributes,
    ) -> Result<HeldNumber, Error> {
        let mut number = 0;
        let mut set = attributes.lock_copy()?;
        // SAFETY: both handles are ours alone, and they are two.
        check(unsafe { kit_writer_hold(self.0.change(), instrument, set.change(), &mut number) })?;
        Ok(HeldNumber(number))
    }

    /// Records a value at what the writer holds under a number: the shortest way. Refused: `Closed`, `NoHeld`, `Negative`, `Overflow`,
    /// `NoMemory`.
    #[inline]
    pub fn measure_held(&mut self, number: HeldNumber, value: i64) -> Result<(), Error> {
        let mut place = 0;
        // SAFETY: the writer is ours alone.
        let code = unsafe { kit_writer_measure_held(self.0.change(), number.0, value, &mut place) };
        check_at(code, place)
    }

    /// Takes in at most `most` recordings from the front of a recorder, one after the other, as if each was made now; `usize::MAX` takes
    /// all. Refused, and both stay as they were: `Closed`.
    pub fn take_in(&mut self, recorder: &mut Recorder, most: usize) -> Result<Taken, Error> {
        let mut taken = kotskhin_sys::Taken::default();
        // SAFETY: both handles are ours alone, and they are two.
        check(unsafe {
            kit_writer_take_in(self.0.change(), recorder.0.change(), most, &mut taken)
        })?;
        Ok(Taken::from(taken))
    }

    /// Shares the writer: the first seat at it. What it held the seats hold, under the same numbers. Refused, with the writer handed
    /// back: `NoMemory`.
    pub fn share(mut self) -> Result<Seat, (Writer, Error)> {
        let mut seat = Handle::empty();
        // SAFETY: both handles are ours alone, and they are two.
        match check(unsafe { kit_writer_share(self.0.change(), seat.change()) }) {
            Ok(()) => Ok(Seat(seat)),
            Err(error) => Err((self, error)),
        }
    }

    /// The points since the start. Refused: `Closed`, `TimeNotAfter`, `NoMemory`.
    pub fn collect(&mut self, time: u64) -> Result<Export, Error> {
        let (mut export, mut place) = (Handle::empty(), 0);
        // SAFETY: both handles are ours alone, and they are two.
        let code =
            unsafe { kit_writer_collect(self.0.change(), time, export.change(), &mut place) };
        check_at(code, place)?;
        Ok(Export(export))
    }

    /// Collects for the last time, and closes the writer. Refused as `collect` is.
    pub fn shutdown(&mut self, time: u64) -> Result<Export, Error> {
        let (mut export, mut place) = (Handle::empty(), 0);
        // SAFETY: both handles are ours alone, and they are two.
        let code =
            unsafe { kit_writer_shutdown(self.0.change(), time, export.change(), &mut place) };
        check_at(code, place)?;
        Ok(Export(export))
    }

    /// Begins anew under a later start: the writer is open and has recorded nothing. Refused: `StartNotAfter`, `NoMemory`.
    pub fn restart(&mut self, start: u64) -> Result<(), Error> {
        let mut place = 0;
        // SAFETY: the writer is ours alone.
        let code = unsafe { kit_writer_restart(self.0.change(), start, &mut place) };
        check_at(code, place)
    }
}
