//! Views: what is made of instruments.
use super::declaring::plan_alone;
use super::key_value::Key;
use super::telling::{Refusal, Refused};
use crate::error::Error;
use crate::plan::Kind;
use crate::view::{self, View};
use std::panic::Location;

/// What a view is asked about: an instrument that is being declared.
#[derive(Clone, Debug, PartialEq, Eq)]
pub struct Instrument {
    pub(super) scope: String,
    pub(super) name: String,
    pub(super) unit: String,
    pub(super) kind: Kind,
}

impl Instrument {
    /// The name of its meter.
    pub fn scope(&self) -> &str {
        &self.scope
    }

    pub fn name(&self) -> &str {
        &self.name
    }

    pub fn unit(&self) -> &str {
        &self.unit
    }

    pub fn kind(&self) -> Kind {
        self.kind
    }

    /// Whether both are one instrument, but for the unit: names are taken without regard to case.
    pub(super) fn is_named_as(&self, other: &Instrument) -> bool {
        self.kind == other.kind
            && self.scope == other.scope
            && self.name.eq_ignore_ascii_case(&other.name)
    }
}

/// What a stream makes of values.
#[derive(Clone, Debug, Default, PartialEq, Eq)]
#[non_exhaustive]
pub enum Aggregation {
    /// As the kind of the instrument does.
    #[default]
    Default,
    Sum,
    LastValue,
    /// A histogram of these bounds.
    ExplicitBucketHistogram {
        boundaries: Vec<i64>,
    },
    /// No stream at all.
    Drop,
}

/// A stream that a view makes of an instrument.
///
/// ```
/// use kotskhin::metrics::{Aggregation, Key, SdkMeterProvider, Stream};
///
/// let boundaries = vec![10, 100, 1000];
/// let latency = Stream::builder()
///     .with_aggregation(Aggregation::ExplicitBucketHistogram { boundaries })
///     .with_allowed_attribute_keys([Key::from_static_str("route")])
///     .build()?;
/// let provider = SdkMeterProvider::builder()
///     .with_view(move |instrument| (instrument.name() == "latency").then(|| latency.clone()))
///     .build();
/// # Ok::<(), kotskhin::metrics::Refusal>(())
/// ```
#[derive(Clone, Debug, Default, PartialEq, Eq)]
pub struct Stream {
    name: Option<String>,
    aggregation: Aggregation,
    keys: Option<Vec<Key>>,
}

impl Stream {
    pub fn builder() -> StreamBuilder {
        StreamBuilder(Stream::default())
    }

    /// A histogram of these bounds.
    pub(super) fn from_bounds(boundaries: Vec<i64>) -> Stream {
        Stream {
            aggregation: Aggregation::ExplicitBucketHistogram { boundaries },
            ..Stream::default()
        }
    }

    /// The kit's view that makes this stream of an instrument, which in the plan has the name `planned`.
    pub(super) fn to_view(&self, instrument: &Instrument, planned: &str) -> Result<View, Error> {
        let mut view = View::of_name(planned)?;
        view.scope(&instrument.scope)?;
        view.kind(instrument.kind)?;
        view.rename(self.name.as_ref().unwrap_or(&instrument.name))?;
        if let Some(keys) = &self.keys {
            view.keep(keys.iter().map(Key::as_str))?;
        }
        view.aggregate(match &self.aggregation {
            Aggregation::Default => view::Aggregation::Default,
            Aggregation::Sum => view::Aggregation::Sum,
            Aggregation::LastValue => view::Aggregation::LastValue,
            Aggregation::ExplicitBucketHistogram { boundaries } => {
                view::Aggregation::Buckets(boundaries)
            }
            Aggregation::Drop => view::Aggregation::Drop,
        })?;
        Ok(view)
    }
}

/// Makes a [`Stream`].
#[derive(Clone, Debug)]
pub struct StreamBuilder(Stream);

impl StreamBuilder {
    /// The stream has this name in the place of the instrument's.
    pub fn with_name(mut self, name: impl Into<String>) -> StreamBuilder {
        self.0.name = Some(name.into());
        self
    }

    pub fn with_aggregation(mut self, aggregation: Aggregation) -> StreamBuilder {
        self.0.aggregation = aggregation;
        self
    }

    /// The stream keeps these keys of attributes alone.
    pub fn with_allowed_attribute_keys(
        mut self,
        keys: impl IntoIterator<Item = Key>,
    ) -> StreamBuilder {
        self.0.keys = Some(keys.into_iter().collect());
        self
    }

    /// The stream. Refused, as a [`Refusal`] of [`Refused::Stream`] with its name: `BadBounds`, `BadRename`, `NoMemory`. Whether an
    /// aggregation fits is told once an instrument has the stream.
    #[track_caller]
    pub fn build(self) -> Result<Stream, Refusal> {
        match self.find_fault() {
            None => Ok(self.0),
            Some(why) => Err(Refusal {
                declared: Some(Location::caller()),
                ..Refusal::new(self.0.name.unwrap_or_default(), Refused::Stream, why)
            }),
        }
    }

    /// Why no instrument can have the stream.
    fn find_fault(&self) -> Option<Error> {
        let any = Instrument {
            scope: String::new(),
            name: "any".to_owned(),
            unit: String::new(),
            kind: Kind::Histogram,
        };
        match plan_alone(&any, Some(&self.0)) {
            Ok(()) | Err(Error::BadAggregation { .. }) => None,
            Err(why) => Some(why),
        }
    }
}
