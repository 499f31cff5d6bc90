//! Metrics after OpenTelemetry whose totals are proved: safe types over libkotskhin.a.
//!
//! [`metrics`] has OpenTelemetry's names: `SdkMeterProvider`, `Counter::add`, `PeriodicReader`. Below it is the kit itself, each call of
//! which answers a `Result`: a [`Writer`] records under a [`Plan`] and gives an [`Export`], a [`Gateway`] takes exports and merges with
//! others, and answers an [`Ask`] with a table. It tells others what changed, by [`Message`]s, and forgets what an [`Archive`] adopted. Times
//! are nanoseconds since the Unix epoch.
//!
//! ```
//! use kotskhin::{Ask, Attributes, DEFAULT_LIMIT, Gateway, Instruments, Kind, Plan, Total, Writer, now, unique_instance};
//!
//! let mut instruments = Instruments::new();
//! let requests = instruments.add("app", "requests", "1", Kind::Counter)?;
//! let plan = Plan::build(&instruments, DEFAULT_LIMIT)?;
//! let mut writer = Writer::start(&plan, "shop", unique_instance()?, now() - 1)?;
//! writer.measure(requests, &Attributes::new([("route", "/")])?, 3)?;
//!
//! let mut gateway = Gateway::open(1)?;
//! gateway.take(&writer.collect(now())?)?;
//! for row in gateway.rows(&Ask::sum("app", "requests", "1", true)?)?.all()? {
//!     assert_eq!(row.total, Total::Sum(3));
//! }
//! # Ok::<(), Box<dyn std::error::Error>>(())
//! ```
//!
//! A call that is refused says why, and changes nothing ([`Error`]). Every type may go to another thread, and may be read by many at once:
//! a set of attributes, a plan, an export, and a gateway that no thread changes. What changes takes a `&mut`.
#![deny(unsafe_op_in_unsafe_fn, missing_debug_implementations)]

mod archive;
mod ask;
mod attributes;
mod clock;
mod error;
mod export;
mod gateway;
mod handle;
mod home;
mod incarnations;
mod logging;
mod message;
pub mod metrics;
mod plan;
mod recorder;
mod rows;
mod seat;
mod streams;
mod version;
mod view;
mod writer;

pub use archive::Archive;
pub use ask::Ask;
pub use attributes::{AttributeValue, Attributes, OwnedValue};
pub use clock::now;
pub use error::{Error, RequestFault};
pub use export::{Export, ExportHead};
pub use gateway::{Gateway, GatewayHead, Taking};
pub use incarnations::Incarnation;
pub use message::{Envelope, Message};
pub use plan::{DEFAULT_LIMIT, Instruments, Kind, Plan, default_bounds};
pub use recorder::{Recorder, Taken};
pub use rows::{Row, Rows, Total};
pub use seat::Seat;
pub use streams::{Shape, Stream, Streams};
pub use version::version;
pub use view::{Aggregation, View, Views};
pub use writer::{HeldNumber, Writer, unique_instance};
