//! Which instruments there are, and the plan that they make.
use super::views::{Instrument, Stream};
use crate::error::Error;
use crate::plan::{Instruments, Plan};
use crate::view::Views;
use std::panic::Location;

/// What a view makes of an instrument: the view's number, and where it was given.
pub(super) struct Viewed {
    pub number: u64,
    pub given: &'static Location<'static>,
    pub stream: Stream,
}

/// A view whose stream can't be made of an instrument.
pub(super) struct PassedOver {
    pub given: &'static Location<'static>,
    pub why: Error,
}

/// What is asked for as an instrument is declared.
pub(super) struct Request {
    pub instrument: Instrument,
    pub viewed: Vec<Viewed>,
    /// The bounds that are advised.
    pub boundaries: Option<Vec<i64>>,
}

struct Declared {
    instrument: Instrument,
    /// What is made of it where that is not left to its kind.
    streams: Vec<Stream>,
}

#[derive(Default)]
pub(super) struct Declaring {
    instruments: Vec<Declared>,
    /// That of these instruments, once there is one.
    pub plan: Option<Plan>,
}

impl Declaring {
    pub fn find(&self, instrument: &Instrument) -> Option<usize> {
        self.instruments.iter().position(|declared| {
            let other = &declared.instrument;
            other.is_named_as(instrument) && other.unit == instrument.unit
        })
    }

    /// The name of an instrument.
    pub fn instrument_name(&self, number: u64) -> Option<String> {
        let declared = self.instruments.get(usize::try_from(number).ok()?)?;
        Some(declared.instrument.name.clone())
    }

    /// Adds an instrument, and answers its number. A view whose stream can't be made of it is passed over (OpenTelemetry Metrics SDK,
    /// "View": as if it did not exist), and why is told. Refused as a plan is.
    pub fn add(
        &mut self,
        request: Request,
        limit: u64,
        passed_over: &mut Vec<PassedOver>,
    ) -> Result<usize, Error> {
        let number = self.instruments.len();
        let instrument = request.instrument;
        plan_alone(&instrument, None).map_err(|why| place_at_instrument(why, number as u64))?;
        let mut streams = Vec::new();
        for viewed in request.viewed {
            match plan_alone(&instrument, Some(&viewed.stream)) {
                Err(why) => passed_over.push(PassedOver {
                    given: viewed.given,
                    why: place_at_view(why, number as u64, viewed.number)?,
                }),
                Ok(()) => streams.push(viewed.stream),
            }
        }
        if streams.is_empty() {
            streams.extend(request.boundaries.map(Stream::from_bounds));
        }
        self.instruments.push(Declared {
            instrument,
            streams,
        });
        match self.plan_all(limit) {
            Ok(plan) => self.plan = Some(plan),
            Err(why) => {
                self.instruments.pop();
                return Err(why);
            }
        }
        Ok(number)
    }

    fn plan_all(&self, limit: u64) -> Result<Plan, Error> {
        let (mut instruments, mut views) = (Instruments::new(), Views::new());
        let front = self.pick_front();
        for (number, declared) in self.instruments.iter().enumerate() {
            let one = &declared.instrument;
            let own = format!("{front}{number}");
            let planned = match declared.streams.is_empty() {
                true => &one.name,
                false => &own,
            };
            instruments.add(&one.scope, planned, &one.unit, one.kind)?;
            for stream in &declared.streams {
                views.add(&stream.to_view(one, planned)?)?;
            }
        }
        Plan::with_views(&instruments, &views, limit)
    }

    /// What no instrument's name begins with. A view of the kit is of a name, and not of a unit: so in the plan an instrument with streams
    /// of its own has a name that no other has, which is this and its number, and its streams get its real name back.
    fn pick_front(&self) -> String {
        let is_taken = |front: &str| {
            let names = self.instruments.iter().map(|one| &one.instrument.name);
            let mut fronts = names.filter_map(|name| name.get(..front.len()));
            fronts.any(|taken| taken.eq_ignore_ascii_case(front))
        };
        let mut front = String::from("i.");
        while is_taken(&front) {
            front.push('.');
        }
        front
    }
}

/// Whether there is a plan of an instrument alone, with a stream or without.
pub(super) fn plan_alone(instrument: &Instrument, stream: Option<&Stream>) -> Result<(), Error> {
    let (mut instruments, mut views) = (Instruments::new(), Views::new());
    let name = &instrument.name;
    instruments.add(&instrument.scope, name, &instrument.unit, instrument.kind)?;
    if let Some(stream) = stream {
        views.add(&stream.to_view(instrument, name)?)?;
    }
    Plan::with_views(&instruments, &views, 1).map(drop)
}

/// A refusal of an instrument alone, by its number.
fn place_at_instrument(why: Error, instrument: u64) -> Error {
    match why {
        Error::BadName { .. } => Error::BadName { instrument },
        Error::BadUnit { .. } => Error::BadUnit { instrument },
        Error::ReservedScope { .. } => Error::ReservedScope { instrument },
        other => other,
    }
}

/// A refusal that is a view's alone, by their numbers. What is refused otherwise is refused.
fn place_at_view(why: Error, instrument: u64, view: u64) -> Result<Error, Error> {
    match why {
        Error::BadBounds { .. } => Ok(Error::BadBounds { view }),
        Error::BadRename { .. } => Ok(Error::BadRename { view }),
        Error::BadAggregation { .. } => Ok(Error::BadAggregation { instrument, view }),
        other => Err(other),
    }
}
