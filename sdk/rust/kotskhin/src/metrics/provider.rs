//! The provider.
use super::exporters::{ExportError, PushExporter};
use super::instruments::Meter;
use super::periodic::{PeriodicReader, Running};
use super::resource::Resource;
use super::shared::{Settings, Shared, View};
use super::telling::Refusal;
use super::views::{Instrument, Stream};
use crate::error::Error;
use crate::export::Export;
use crate::plan::DEFAULT_LIMIT;
use std::fmt;
use std::mem;
use std::panic::Location;
use std::sync::Arc;
use std::time::{Duration, Instant};

/// How long a flush or a shutdown waits where nothing else is said, and where a provider is dropped.
const TIMEOUT: Duration = Duration::from_secs(30);
const LOG: usize = 1024;
const CACHE: usize = 4096;

/// Why a provider did not do what was asked.
#[derive(Debug)]
#[non_exhaustive]
pub enum SdkError {
    /// It was shut down before.
    AlreadyShutdown,
    /// The kit refused.
    Refused(Error),
    /// The exporter failed. What it was to bring is here, for another way: the last export is covered by no other.
    Export {
        error: ExportError,
        unsent: Arc<Export>,
    },
    /// The exporter brought all exports, and failed to flush or to end.
    Exporter(ExportError),
    /// It took longer than was allowed. What was to be brought goes on, where there is something.
    Timeout { unsent: Option<Arc<Export>> },
    /// A call of the exporter goes on, since it took longer than was allowed: nothing was collected for it.
    Busy,
    /// The reader has no thread: the system gave none.
    NoThread,
}

impl fmt::Display for SdkError {
    fn fmt(&self, f: &mut fmt::Formatter<'_>) -> fmt::Result {
        match self {
            SdkError::AlreadyShutdown => write!(f, "the provider was shut down"),
            SdkError::Refused(error) => write!(f, "nothing was collected: {error}"),
            SdkError::Export { error, .. } => write!(f, "the export was not brought: {error}"),
            SdkError::Exporter(error) => write!(f, "the exporter failed: {error}"),
            SdkError::Timeout { .. } => write!(f, "the exporter took longer than is allowed"),
            SdkError::Busy => write!(f, "an export that took too long goes on"),
            SdkError::NoThread => write!(f, "the system gave the reader no thread"),
        }
    }
}

impl std::error::Error for SdkError {
    fn source(&self) -> Option<&(dyn std::error::Error + 'static)> {
        match self {
            SdkError::Refused(error) => Some(error),
            SdkError::Export { error, .. } | SdkError::Exporter(error) => Some(&**error),
            _ => None,
        }
    }
}

impl From<Error> for SdkError {
    fn from(error: Error) -> SdkError {
        match error {
            Error::Closed => SdkError::AlreadyShutdown,
            other => SdkError::Refused(other),
        }
    }
}

/// What ends with the last handle of a provider.
#[derive(Debug)]
struct Whole {
    shared: Arc<Shared>,
    readers: Vec<Running>,
}

impl Whole {
    fn flush(&self, timeout: Duration) -> Result<(), SdkError> {
        self.shared.home().check()?;
        let until = Instant::now().checked_add(timeout);
        for_each_reader(&self.readers, |reader| reader.flush(until))
    }

    /// The last export goes to every reader, and each of them ends.
    fn shutdown(&self, timeout: Duration) -> Result<(), SdkError> {
        let until = Instant::now().checked_add(timeout);
        let last = self.shared.close()?.map(Arc::new);
        for_each_reader(&self.readers, |reader| reader.shutdown(last.clone(), until))
    }
}

/// Does all, and answers the first that failed.
fn for_each_reader(
    readers: &[Running],
    call: impl Fn(&Running) -> Result<(), SdkError>,
) -> Result<(), SdkError> {
    let results: Vec<Result<(), SdkError>> = readers.iter().map(call).collect();
    results.into_iter().collect()
}

/// Shuts down, within 30 seconds. What comes of it is told by the readers alone: call `shutdown` to learn it. In a child of a fork, where
/// the readers' threads are not, nothing is brought, and nothing is waited for.
impl Drop for Whole {
    fn drop(&mut self) {
        if !self.shared.home().is_here() {
            return mem::forget(mem::take(&mut self.readers));
        }
        let until = Instant::now().checked_add(TIMEOUT);
        let last = self.shared.close().ok().flatten().map(Arc::new);
        let _ = for_each_reader(&self.readers, |reader| reader.shutdown(last.clone(), until));
    }
}

/// Makes meters, and brings what their instruments record to its readers (OpenTelemetry Metrics SDK, "MeterProvider"). Clones are the same
/// provider; the last one that is dropped shuts it down.
///
/// It is of the process that made it. In a child of a fork it exports nothing, since two processes would have one identity: all that is
/// asked is refused as [`Error::Forked`], and nothing is waited for. So are recordings, but those of a thread that had a log before: what
/// has room in that log stays there. Make a provider in each process.
#[derive(Clone)]
pub struct SdkMeterProvider(Arc<Whole>);

impl fmt::Debug for SdkMeterProvider {
    fn fmt(&self, f: &mut fmt::Formatter<'_>) -> fmt::Result {
        self.0.shared.fmt(f)
    }
}

impl SdkMeterProvider {
    pub fn builder() -> MeterProviderBuilder {
        MeterProviderBuilder::new()
    }

    /// The meter of a scope.
    pub fn meter(&self, scope: impl Into<String>) -> Meter {
        Meter::new(Arc::clone(&self.0.shared), scope.into())
    }

    pub fn resource(&self) -> &Resource {
        self.0.shared.resource()
    }

    /// Starts: from now on no instrument is declared. The first recording does so by itself. Refused: `AlreadyShutdown`; `Refused` by
    /// `BadLimit`, `Forked` or `NoMemory`.
    pub fn start(&self) -> Result<(), SdkError> {
        self.0.shared.home().check()?;
        self.0.shared.start()?;
        Ok(())
    }

    /// All that was recorded so far, by any thread: for a host that brings exports by itself. Refused: `AlreadyShutdown`; `Refused` by
    /// `NotStarted`, `Forked`, `NoMemory`, or `TimeNotAfter` at the end of time.
    pub fn collect(&self) -> Result<Export, SdkError> {
        Ok(self.0.shared.collect()?)
    }

    /// Collects now for each reader, brings the export and flushes the exporter, within 30 seconds. Intervals go on as they were.
    pub fn force_flush(&self) -> Result<(), SdkError> {
        self.force_flush_with_timeout(TIMEOUT)
    }

    /// The same within a time.
    pub fn force_flush_with_timeout(&self, timeout: Duration) -> Result<(), SdkError> {
        self.0.flush(timeout)
    }

    /// Collects for the last time, brings that export by each reader, ends the exporters, all within 30 seconds. From then on recordings
    /// are refused as `Closed`.
    pub fn shutdown(&self) -> Result<(), SdkError> {
        self.shutdown_with_timeout(TIMEOUT)
    }

    /// The same within a time.
    pub fn shutdown_with_timeout(&self, timeout: Duration) -> Result<(), SdkError> {
        self.0.shutdown(timeout)
    }

    /// The last export, for a host that brings it by itself: as `shutdown` of a provider without readers. There is none where nothing was
    /// recorded. Refused: `AlreadyShutdown`; `Refused` by `Forked`, or by `NoMemory`, and then it may be asked again.
    pub fn close(&self) -> Result<Option<Export>, SdkError> {
        Ok(self.0.shared.close()?)
    }

    /// How many recordings were refused so far. Those in logs are looked at once they are taken in.
    pub fn refused(&self) -> u64 {
        self.0.shared.refused()
    }

    /// How many exports failed so far, of all readers, or were not collected.
    pub fn failed(&self) -> u64 {
        self.0.readers.iter().map(Running::failed).sum()
    }

    /// How many pairs of an instrument and a set of attributes are held: no more than the cache has room for. (In a child of a fork, none.)
    pub fn cached(&self) -> usize {
        self.0.shared.cached()
    }

    /// How many threads have a log, or left one that is not taken in yet. (In a child of a fork, none.)
    pub fn logs(&self) -> usize {
        self.0.shared.logs()
    }
}

/// Makes a [`SdkMeterProvider`].
pub struct MeterProviderBuilder {
    settings: Settings,
    readers: Vec<PeriodicReader>,
}

impl fmt::Debug for MeterProviderBuilder {
    fn fmt(&self, f: &mut fmt::Formatter<'_>) -> fmt::Result {
        f.debug_struct("MeterProviderBuilder")
            .field("resource", &self.settings.resource)
            .field("readers", &self.readers.len())
            .field("views", &self.settings.views.len())
            .finish_non_exhaustive()
    }
}

impl MeterProviderBuilder {
    fn new() -> MeterProviderBuilder {
        MeterProviderBuilder {
            settings: Settings {
                resource: Resource::builder().build(),
                views: Vec::new(),
                limit: DEFAULT_LIMIT,
                log: LOG,
                cache: CACHE,
                on_refused: None,
            },
            readers: Vec::new(),
        }
    }

    pub fn with_resource(mut self, resource: Resource) -> Self {
        self.settings.resource = resource;
        self
    }

    /// A reader more. Each collects by itself.
    pub fn with_reader(mut self, reader: PeriodicReader) -> Self {
        self.readers.push(reader);
        self
    }

    /// A reader more, of this exporter: each 60 s.
    pub fn with_periodic_exporter(self, exporter: impl PushExporter + 'static) -> Self {
        self.with_reader(PeriodicReader::builder(exporter).build())
    }

    /// A view more: of each instrument that is declared it is asked which stream it makes. Each view that makes one gives the instrument a
    /// stream, and where none does it has that of its kind. One whose stream can't be made of the instrument is passed over, and that is
    /// told as a [`Refusal`] of [`Refused::View`](super::Refused::View). It is not to declare instruments.
    #[track_caller]
    pub fn with_view(
        mut self,
        view: impl Fn(&Instrument) -> Option<Stream> + Send + Sync + 'static,
    ) -> Self {
        self.settings.views.push(View {
            given: Location::caller(),
            stream_of: Box::new(view),
        });
        self
    }

    /// For how many sets of attributes each stream has points of their own: 2,000 where nothing is said. What comes to more is counted
    /// in one point, whose attribute is `otel.metric.overflow=true`. The collection that finds the first such set tells it, once for each
    /// stream, as a [`Refusal`] of [`Refused::Sets`](super::Refused::Sets). With 0 nothing starts.
    pub fn with_cardinality_limit(mut self, limit: u64) -> Self {
        self.settings.limit = limit;
        self
    }

    /// How many pairs of an instrument and a set of attributes are held, so that recordings are by their numbers: 4,096 where nothing is
    /// said. What is held is given up with the provider. Recordings at others are as exact, and take longer.
    pub fn with_cache(mut self, pairs: usize) -> Self {
        self.settings.cache = pairs;
        self
    }

    /// How many recordings a thread's log has room for, at 16 bytes each: 1,024 where nothing is said. One that is full is taken in.
    pub fn with_log(mut self, recordings: usize) -> Self {
        self.settings.log = recordings.max(1);
        self
    }

    /// What is told of each refusal:
    ///
    /// ```
    /// # use kotskhin::metrics::SdkMeterProvider;
    /// let provider = SdkMeterProvider::builder().on_refused(|refusal| eprintln!("{refusal}")).build();
    /// provider.meter("app").u64_counter("9 lives").build().add(1, &[]);
    /// assert_eq!(provider.refused(), 1);
    /// ```
    ///
    /// It is called on the thread that records or collects. It is to be short. A panic in it is caught. What is refused inside it is
    /// counted, and it is not called again for that: as where there is no hook, the standard error has a line of the first refusal of each
    /// instrument and reason, of 1,000 of these at most.
    pub fn on_refused(mut self, hook: impl Fn(&Refusal) + Send + Sync + 'static) -> Self {
        self.settings.on_refused = Some(Box::new(hook));
        self
    }

    /// The provider. Its readers have their threads from now on.
    pub fn build(self) -> SdkMeterProvider {
        let shared = Arc::new(Shared::new(self.settings));
        let readers = self.readers.into_iter();
        SdkMeterProvider(Arc::new(Whole {
            readers: readers
                .map(|reader| Running::start(reader, Arc::clone(&shared)))
                .collect(),
            shared,
        }))
    }
}
