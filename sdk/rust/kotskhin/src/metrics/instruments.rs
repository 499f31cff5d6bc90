//! Meters and their instruments.
use super::key_value::KeyValue;
use super::shared::Shared;
use super::telling::{Refusal, Refused};
use super::views::Instrument;
use crate::error::Error;
use crate::plan::Kind;
use std::fmt;
use std::marker::PhantomData;
use std::panic::Location;
use std::sync::Arc;

/// An instrument that was declared, or the reason why it was not.
#[derive(Clone, Debug)]
pub struct Part(Arc<Inner>);

#[derive(Debug)]
struct Inner {
    shared: Arc<Shared>,
    number: Result<usize, Error>,
    name: String,
    declared: &'static Location<'static>,
}

impl Part {
    #[inline]
    fn record(&self, value: i64, attributes: &[KeyValue]) {
        let number = self.0.number;
        self.tell(number.and_then(|number| self.0.shared.record(number, attributes, value)));
    }

    /// The same of a gauge.
    #[inline]
    fn record_last(&self, value: i64, attributes: &[KeyValue]) {
        let (number, shared) = (self.0.number, &self.0.shared);
        self.tell(number.and_then(|number| shared.record_at_once(number, attributes, value)));
    }

    /// A value as the kit's whole numbers have it: one that is none is refused.
    #[inline]
    fn check_whole(&self, value: u64) -> Option<i64> {
        let whole = i64::try_from(value).map_err(|_| Error::ValueTooWide { value });
        whole.map_err(|why| self.tell(Err(why))).ok()
    }

    #[inline]
    fn tell(&self, recorded: Result<(), Error>) {
        if let Err(why) = recorded {
            self.refuse_recording(why);
        }
    }

    #[cold]
    fn refuse_recording(&self, why: Error) {
        self.refuse(Refusal::of_recordings(&self.0.name, why, 1));
    }

    fn refuse(&self, refusal: Refusal) {
        let declared = Some(self.0.declared);
        self.0.shared.refuse(&Refusal {
            declared,
            ..refusal
        });
    }
}

mod sealed {
    /// What is made of an instrument that was declared.
    pub trait FromPart {
        fn from_part(part: super::Part) -> Self;
    }
}

use sealed::FromPart;

macro_rules! instrument {
    ($(#[$page:meta])* $name:ident) => {
        $(#[$page])*
        #[derive(Clone)]
        pub struct $name<T>(Part, PhantomData<fn(T)>);

        impl<T> FromPart for $name<T> {
            fn from_part(part: Part) -> Self {
                $name(part, PhantomData)
            }
        }

        impl<T> fmt::Debug for $name<T> {
            fn fmt(&self, f: &mut fmt::Formatter<'_>) -> fmt::Result {
                write!(f, "{}({:?})", stringify!($name), self.0.0.name)
            }
        }
    };
}

instrument!(
    /// Increments of at least 0.
    Counter
);
instrument!(
    /// Increments of either sign.
    UpDownCounter
);
instrument!(
    /// Values of which the last one counts, whichever thread recorded it. So a recording goes to the writer at once, which one thread at a
    /// time has: it waits for others', and for collections.
    Gauge
);
instrument!(
    /// Values of at least 0 whose distribution counts.
    Histogram
);

impl Counter<u64> {
    /// Adds a value. One above 2^63 - 1 is refused.
    #[inline]
    pub fn add(&self, value: u64, attributes: &[KeyValue]) {
        if let Some(value) = self.0.check_whole(value) {
            self.0.record(value, attributes);
        }
    }
}

impl UpDownCounter<i64> {
    /// Adds a value.
    #[inline]
    pub fn add(&self, value: i64, attributes: &[KeyValue]) {
        self.0.record(value, attributes);
    }
}

impl Gauge<i64> {
    /// Records a value.
    #[inline]
    pub fn record(&self, value: i64, attributes: &[KeyValue]) {
        self.0.record_last(value, attributes);
    }
}

impl Gauge<u64> {
    /// Records a value. One above 2^63 - 1 is refused.
    #[inline]
    pub fn record(&self, value: u64, attributes: &[KeyValue]) {
        if let Some(value) = self.0.check_whole(value) {
            self.0.record_last(value, attributes);
        }
    }
}

impl Histogram<u64> {
    /// Records a value. One above 2^63 - 1 is refused.
    #[inline]
    pub fn record(&self, value: u64, attributes: &[KeyValue]) {
        if let Some(value) = self.0.check_whole(value) {
            self.0.record(value, attributes);
        }
    }
}

/// Declares the instruments of one scope.
#[derive(Clone)]
pub struct Meter {
    shared: Arc<Shared>,
    scope: String,
}

impl fmt::Debug for Meter {
    fn fmt(&self, f: &mut fmt::Formatter<'_>) -> fmt::Result {
        write!(f, "Meter({:?})", self.scope)
    }
}

impl Meter {
    pub(super) fn new(shared: Arc<Shared>, scope: String) -> Meter {
        Meter { shared, scope }
    }

    pub fn u64_counter(&self, name: impl Into<String>) -> InstrumentBuilder<'_, Counter<u64>> {
        InstrumentBuilder::new(self, name.into(), Kind::Counter)
    }

    pub fn i64_up_down_counter(
        &self,
        name: impl Into<String>,
    ) -> InstrumentBuilder<'_, UpDownCounter<i64>> {
        InstrumentBuilder::new(self, name.into(), Kind::UpDown)
    }

    pub fn i64_gauge(&self, name: impl Into<String>) -> InstrumentBuilder<'_, Gauge<i64>> {
        InstrumentBuilder::new(self, name.into(), Kind::Gauge)
    }

    pub fn u64_gauge(&self, name: impl Into<String>) -> InstrumentBuilder<'_, Gauge<u64>> {
        InstrumentBuilder::new(self, name.into(), Kind::Gauge)
    }

    pub fn u64_histogram(&self, name: impl Into<String>) -> HistogramBuilder<'_> {
        HistogramBuilder {
            builder: InstrumentBuilder::new(self, name.into(), Kind::Histogram),
            boundaries: None,
        }
    }

    fn declare<T: FromPart>(
        &self,
        instrument: Instrument,
        boundaries: Option<Vec<i64>>,
        declared: &'static Location<'static>,
    ) -> T {
        let name = instrument.name.clone();
        let mut passed_over = Vec::new();
        let shared = &self.shared;
        let number = shared.declare(instrument, boundaries, &mut passed_over);
        let part = Part(Arc::new(Inner {
            shared: Arc::clone(shared),
            number,
            name: name.clone(),
            declared,
        }));
        for view in passed_over {
            part.refuse(Refusal {
                view: Some(view.given),
                ..Refusal::new(&name, Refused::View, view.why)
            });
        }
        if let Err(why) = number {
            part.refuse(Refusal {
                other: shared.find_other(why),
                ..Refusal::new(name, Refused::Instrument, why)
            });
        }
        T::from_part(part)
    }
}

/// Declares an instrument.
#[must_use = "an instrument is declared by `build`"]
#[derive(Debug)]
pub struct InstrumentBuilder<'a, T> {
    meter: &'a Meter,
    instrument: Instrument,
    made: PhantomData<fn() -> T>,
}

impl<'a, T> InstrumentBuilder<'a, T> {
    fn new(meter: &'a Meter, name: String, kind: Kind) -> InstrumentBuilder<'a, T> {
        InstrumentBuilder {
            meter,
            instrument: Instrument {
                scope: meter.scope.clone(),
                name,
                unit: String::new(),
                kind,
            },
            made: PhantomData,
        }
    }

    pub fn with_unit(mut self, unit: impl Into<String>) -> Self {
        self.instrument.unit = unit.into();
        self
    }

    /// For who reads the code: exports have no descriptions.
    pub fn with_description(self, _description: impl Into<String>) -> Self {
        self
    }
}

#[allow(private_bounds)]
impl<T: FromPart> InstrumentBuilder<'_, T> {
    /// The instrument: that which was declared before, where scope, name, unit and kind are the same. One that is refused is told to the
    /// provider's hook, and records nothing: where the provider has started (`DeclaredLate`), or the plan with it is refused.
    #[track_caller]
    pub fn build(self) -> T {
        self.meter
            .declare(self.instrument, None, Location::caller())
    }
}

/// Declares a histogram.
#[must_use = "an instrument is declared by `build`"]
#[derive(Debug)]
pub struct HistogramBuilder<'a> {
    builder: InstrumentBuilder<'a, Histogram<u64>>,
    boundaries: Option<Vec<i64>>,
}

impl HistogramBuilder<'_> {
    pub fn with_unit(mut self, unit: impl Into<String>) -> Self {
        self.builder = self.builder.with_unit(unit);
        self
    }

    /// For who reads the code: exports have no descriptions.
    pub fn with_description(mut self, description: impl Into<String>) -> Self {
        self.builder = self.builder.with_description(description);
        self
    }

    /// The upper bounds of its buckets, which strictly rise, where no view says others.
    pub fn with_boundaries(mut self, boundaries: Vec<i64>) -> Self {
        self.boundaries = Some(boundaries);
        self
    }

    /// As [`InstrumentBuilder::build`].
    #[track_caller]
    pub fn build(self) -> Histogram<u64> {
        let InstrumentBuilder {
            meter, instrument, ..
        } = self.builder;
        meter.declare(instrument, self.boundaries, Location::caller())
    }
}
