//! The names of OpenTelemetry's metrics SDK, over the kit.
//!
//! ```
//! use kotskhin::metrics::{ConsoleExporter, KeyValue, PeriodicReader, Resource, SdkMeterProvider};
//!
//! let provider = SdkMeterProvider::builder()
//!     .with_resource(Resource::builder().with_service_name("shop").build())
//!     .with_reader(PeriodicReader::builder(ConsoleExporter::default()).build())
//!     .build();
//! let meter = provider.meter("shop.orders");
//! let requests = meter.u64_counter("requests").with_unit("1").build();
//! requests.add(1, &[KeyValue::new("route", "/orders"), KeyValue::new("status", 200)]);
//! provider.shutdown()?;
//! # Ok::<(), kotskhin::metrics::SdkError>(())
//! ```
//!
//! - **Instruments come first.** They are declared until the provider starts: with the first recording, or by
//!   [`start`](SdkMeterProvider::start). One that is declared later is refused, as is one that the plan refuses: it records nothing.
//! - **Recording never fails, and never panics.** What is refused is counted ([`refused`](SdkMeterProvider::refused)) and told to a hook
//!   ([`on_refused`](MeterProviderBuilder::on_refused)), by the name of the instrument and the place where it was declared. Without a hook
//!   the first refusal of each kind is a line on the standard error.
//! - **Threads record each into a log of its own**, which is taken in before each collection, where it is full, and when its thread ends.
//!   So totals are exact. A recording waits for others only where its log is full, while a collection copies the points. Gauges have no
//!   logs: the last recording counts, whichever thread made it.
//! - **A provider is of one process.** In a child of a fork it is refused as [`Error::Forked`](crate::Error::Forked).
//! - **Memory is bounded.** A provider holds so many sets of attributes, and no more ([`with_cache`](MeterProviderBuilder::with_cache));
//!   the streams have the limit of [`with_cardinality_limit`](MeterProviderBuilder::with_cardinality_limit).
//! - **Values are whole numbers.** Choose the unit so that they are.

mod answers;
mod bodies;
mod declaring;
mod exporters;
mod files;
pub mod global;
mod hashing;
mod instruments;
mod key_value;
mod limits;
mod logs;
mod periodic;
mod provider;
mod resource;
mod shared;
mod telling;
mod views;

pub use answers::NotTaken;
pub use exporters::{
    ConsoleExporter, ExportError, FileExporter, FirstOf, HttpExporter, PushExporter,
};
pub use instruments::{
    Counter, Gauge, Histogram, HistogramBuilder, InstrumentBuilder, Meter, UpDownCounter,
};
pub use key_value::{Key, KeyValue, Value};
pub use periodic::{DEFAULT_INTERVAL, PeriodicReader, PeriodicReaderBuilder};
pub use provider::{MeterProviderBuilder, SdkError, SdkMeterProvider};
pub use resource::{Resource, ResourceBuilder};
pub use telling::{Refusal, Refused};
pub use views::{Aggregation, Instrument, Stream, StreamBuilder};
