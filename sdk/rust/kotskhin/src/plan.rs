//! Instruments, and the plans that they make.
use crate::error::{Error, check, check_both};
use crate::handle::Handle;
use crate::streams::Streams;
use crate::view::Views;
use kotskhin_sys::{
    self as sys, kit_default_bounds, kit_instruments_add, kit_plan_build, kit_plan_streams,
};

/// How many attribute sets a stream has points of their own for, where nothing else is asked.
pub const DEFAULT_LIMIT: u64 = 2000;

/// What an instrument takes.
#[derive(Clone, Copy, Debug, PartialEq, Eq)]
#[repr(u8)]
pub enum Kind {
    /// Increments of at least 0.
    Counter = 0,
    /// Increments of either sign.
    UpDown = 1,
    /// Values of which the last one counts.
    Gauge = 2,
    /// Values of at least 0 whose distribution counts.
    Histogram = 3,
}

/// The bounds of a histogram for which no view says others.
pub fn default_bounds() -> Vec<i64> {
    let mut none = [];
    // SAFETY: the room is a slice's, here and below.
    let count = unsafe { kit_default_bounds(none.as_mut_ptr(), 0) };
    let mut bounds = vec![0; count];
    unsafe { kit_default_bounds(bounds.as_mut_ptr(), bounds.len()) };
    bounds
}

/// Instruments, numbered from 0 in the order in which they are added.
#[derive(Debug)]
pub struct Instruments {
    handle: Handle<sys::Instruments>,
    len: usize,
}

impl Default for Instruments {
    fn default() -> Instruments {
        Instruments::new()
    }
}

impl Instruments {
    pub const fn new() -> Instruments {
        Instruments {
            handle: Handle::empty(),
            len: 0,
        }
    }

    /// Adds an instrument, and answers its number. Refused: `NoMemory`; names and units are looked at when a plan is built.
    pub fn add(&mut self, scope: &str, name: &str, unit: &str, kind: Kind) -> Result<usize, Error> {
        let at = self.handle.change();
        // SAFETY: the handle is ours alone, and each text is a slice's pointer and length.
        check(unsafe {
            kit_instruments_add(
                at,
                scope.as_ptr(),
                scope.len(),
                name.as_ptr(),
                name.len(),
                unit.as_ptr(),
                unit.len(),
                kind as u8,
            )
        })?;
        self.len += 1;
        Ok(self.len - 1)
    }
}

/// Which instruments feed which streams. Many writers may start under one plan.
#[derive(Debug)]
pub struct Plan(pub(crate) Handle<sys::Plan>);

impl Plan {
    /// Refused: `BadName`, `BadUnit`, `SameStream`, `BadLimit`, `ReservedScope`, `NoMemory`.
    pub fn build(instruments: &Instruments, limit: u64) -> Result<Plan, Error> {
        Plan::with_views(instruments, &Views::new(), limit)
    }

    /// Its streams, whose numbers are those that `Overflow` tells. Refused: `NoMemory`.
    pub fn streams(&self) -> Result<Streams, Error> {
        let mut streams = Handle::empty();
        // SAFETY: the plan is lent, and the streams are ours alone.
        check(unsafe { kit_plan_streams(self.0.read().at(), streams.change()) })?;
        Ok(Streams(streams))
    }

    /// The plan of instruments and of views: each view that matches an instrument gives it a stream, and where none does the
    /// default does (OpenTelemetry Metrics SDK, "View").
    ///
    /// Refused as `build` is, and: `BadBounds`, `BadRename`, `WildcardRename`, `BadAggregation`.
    pub fn with_views(instruments: &Instruments, views: &Views, limit: u64) -> Result<Plan, Error> {
        let mut plan = Handle::empty();
        let (mut place, mut second) = (0, 0);
        // SAFETY: the plan is ours alone, the instruments and the views are lent; they are three.
        let code = unsafe {
            kit_plan_build(
                plan.change(),
                instruments.handle.read().at(),
                views.0.read().at(),
                limit,
                &mut place,
                &mut second,
            )
        };
        check_both(code, place, second)?;
        Ok(Plan(plan))
    }
}
