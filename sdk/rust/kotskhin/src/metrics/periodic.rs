//! A reader that collects once in an interval.
use super::exporters::{ExportError, PushExporter};
use super::provider::SdkError;
use super::shared::{Shared, lock};
use super::telling::{Hook, tell};
use crate::error::Error;
use crate::export::Export;
use crate::logging::Failures;
use std::fmt;
use std::panic::{AssertUnwindSafe, catch_unwind};
use std::sync::atomic::{AtomicU64, Ordering};
use std::sync::mpsc::{self, Receiver, RecvTimeoutError, Sender, TryRecvError};
use std::sync::{Arc, Mutex};
use std::thread::{self, JoinHandle};
use std::time::{Duration, Instant};

/// How often a periodic reader collects where nothing else is said (OpenTelemetry Metrics SDK, "Periodic exporting MetricReader",
/// `exportIntervalMillis`).
pub const DEFAULT_INTERVAL: Duration = Duration::from_millis(60_000);

/// How long an export may take where nothing else is said (OpenTelemetry Metrics SDK, `exportTimeoutMillis`).
const DEFAULT_TIMEOUT: Duration = Duration::from_millis(30_000);

/// Collects once in an interval, on a thread of its own, and pushes each export (OpenTelemetry Metrics SDK, "Periodic exporting
/// MetricReader"). It is given to a provider.
///
/// An export that fails is told to the hook and forgotten: the next collection covers it. Only the last one has no next, so
/// [`SdkMeterProvider::shutdown`](super::SdkMeterProvider::shutdown) hands it back.
///
/// ```
/// use kotskhin::Export;
/// use kotskhin::metrics::{ExportError, PeriodicReader, SdkMeterProvider};
/// use std::time::Duration;
///
/// let exporter = |export: &Export| -> Result<(), ExportError> {
///     println!("{} bytes", export.encode()?.len());
///     Ok(())
/// };
/// let reader = PeriodicReader::builder(exporter)
///     .with_interval(Duration::from_secs(10))
///     .on_failed(|why| eprintln!("{why}"))
///     .build();
/// let provider = SdkMeterProvider::builder().with_reader(reader).build();
/// provider.meter("app").u64_counter("requests").build().add(1, &[]);
/// provider.shutdown()?;
/// # Ok::<(), kotskhin::metrics::SdkError>(())
/// ```
pub struct PeriodicReader {
    exporter: Box<dyn PushExporter>,
    interval: Duration,
    timeout: Duration,
    on_failed: Option<Hook<SdkError>>,
}

impl fmt::Debug for PeriodicReader {
    fn fmt(&self, f: &mut fmt::Formatter<'_>) -> fmt::Result {
        f.debug_struct("PeriodicReader")
            .field("interval", &self.interval)
            .field("timeout", &self.timeout)
            .finish_non_exhaustive()
    }
}

impl PeriodicReader {
    /// Of an exporter: a closure that takes a `&Export` is one.
    pub fn builder(exporter: impl PushExporter + 'static) -> PeriodicReaderBuilder {
        PeriodicReaderBuilder(PeriodicReader {
            exporter: Box::new(exporter),
            interval: DEFAULT_INTERVAL,
            timeout: DEFAULT_TIMEOUT,
            on_failed: None,
        })
    }
}

/// Makes a [`PeriodicReader`].
#[derive(Debug)]
pub struct PeriodicReaderBuilder(PeriodicReader);

impl PeriodicReaderBuilder {
    /// How often it collects: 60 s where nothing is said, or 0.
    pub fn with_interval(mut self, interval: Duration) -> Self {
        self.0.interval = match interval {
            Duration::ZERO => DEFAULT_INTERVAL,
            given => given,
        };
        self
    }

    /// How long an export may take: 30 s where nothing is said. One that takes longer goes on and is told as failed, and until it ends
    /// nothing is collected.
    pub fn with_timeout(mut self, timeout: Duration) -> Self {
        self.0.timeout = timeout;
        self
    }

    /// What is told of each export that failed, with its reason, on the reader's thread. A panic in it is caught. It is not to flush or to
    /// shut down: that would wait for itself. Where there is none the standard error has a line of the first failure of each reason in a
    /// row.
    pub fn on_failed(mut self, hook: impl Fn(&SdkError) + Send + Sync + 'static) -> Self {
        self.0.on_failed = Some(Box::new(hook));
        self
    }

    pub fn build(self) -> PeriodicReader {
        self.0
    }
}

type Answer = Result<(), SdkError>;

enum Request {
    Flush(Sender<Answer>),
    Shutdown(Option<Arc<Export>>, Sender<Answer>),
}

/// A reader with its thread.
#[derive(Debug)]
pub(super) struct Running {
    requests: Mutex<Option<Sender<Request>>>,
    failed: Arc<AtomicU64>,
    thread: Mutex<Option<JoinHandle<()>>>,
}

impl Running {
    pub fn start(reader: PeriodicReader, shared: Arc<Shared>) -> Running {
        let (requests, requested) = mpsc::channel();
        let failed = Arc::new(AtomicU64::new(0));
        let counter = Arc::clone(&failed);
        // (a thread that the system does not give is told to who flushes or shuts down)
        let thread = thread::Builder::new()
            .name("kotskhin-reader".into())
            .spawn(move || Reading::run(reader, shared, counter, &requested))
            .ok();
        Running {
            requests: Mutex::new(thread.is_some().then_some(requests)),
            failed,
            thread: Mutex::new(thread),
        }
    }

    /// How many exports failed.
    pub fn failed(&self) -> u64 {
        self.failed.load(Ordering::Relaxed)
    }

    pub fn flush(&self, until: Option<Instant>) -> Answer {
        let (answer, answered) = mpsc::channel();
        match &*lock(&self.requests) {
            Some(requests) => requests
                .send(Request::Flush(answer))
                .map_err(|_| SdkError::NoThread)?,
            None => return Err(SdkError::NoThread),
        }
        wait_for(&answered, until, None)
    }

    /// Ends the thread, which brings the last export first.
    pub fn shutdown(&self, last: Option<Arc<Export>>, until: Option<Instant>) -> Answer {
        let (answer, answered) = mpsc::channel();
        // (none is left for a second one)
        match lock(&self.requests).take() {
            Some(requests) => requests
                .send(Request::Shutdown(last.clone(), answer))
                .map_err(|_| SdkError::NoThread)?,
            None => return Err(SdkError::NoThread),
        }
        let answer = wait_for(&answered, until, last);
        // (one that has not answered in time would not be joined in time either)
        let thread = lock(&self.thread).take();
        if !matches!(answer, Err(SdkError::Timeout { .. })) {
            let _ = thread.map(JoinHandle::join);
        }
        answer
    }
}

fn wait_for(
    answered: &Receiver<Answer>,
    until: Option<Instant>,
    unsent: Option<Arc<Export>>,
) -> Answer {
    match answered.recv_timeout(time_left(until)) {
        Ok(answer) => answer,
        Err(RecvTimeoutError::Timeout) => Err(SdkError::Timeout { unsent }),
        Err(RecvTimeoutError::Disconnected) => Err(SdkError::NoThread),
    }
}

fn time_left(until: Option<Instant>) -> Duration {
    until.map_or(Duration::MAX, |end| {
        end.saturating_duration_since(Instant::now())
    })
}

enum Job {
    Export(Arc<Export>),
    Flush,
    End,
}

/// The thread that the exporter's calls are on, so that one that takes too long is told.
struct Worker {
    jobs: Sender<Job>,
    done: Receiver<Result<(), ExportError>>,
    thread: JoinHandle<()>,
    /// A call has not ended yet.
    is_going: bool,
}

/// How a call of the exporter ended, where it did not end well.
enum Ended {
    Failed(ExportError),
    TooLate,
    Busy,
}

impl Worker {
    fn start(mut exporter: Box<dyn PushExporter>) -> Option<Worker> {
        let (jobs, queue) = mpsc::channel::<Job>();
        let (tell, done) = mpsc::channel();
        let run = move || {
            for job in queue {
                let called = catch_unwind(AssertUnwindSafe(|| match &job {
                    Job::Export(export) => exporter.export(export),
                    Job::Flush => exporter.force_flush(),
                    Job::End => exporter.shutdown(),
                }));
                let result = called.unwrap_or_else(|_| Err("the exporter panicked".into()));
                if tell.send(result).is_err() || matches!(job, Job::End) {
                    return;
                }
            }
        };
        let named = thread::Builder::new().name("kotskhin-exporter".into());
        Some(Worker {
            jobs,
            done,
            thread: named.spawn(run).ok()?,
            is_going: false,
        })
    }

    /// Whether no call goes on, once one has this long to end.
    fn is_free(&mut self, wait: Duration) -> bool {
        if self.is_going {
            let ended = match wait {
                Duration::ZERO => !matches!(self.done.try_recv(), Err(TryRecvError::Empty)),
                wait => self.done.recv_timeout(wait).is_ok(),
            };
            self.is_going = !ended;
        }
        !self.is_going
    }

    fn call(&mut self, job: Job, first: Duration, timeout: Duration) -> Result<(), Ended> {
        if !self.is_free(first) {
            return Err(Ended::Busy);
        }
        if self.jobs.send(job).is_err() {
            return Err(Ended::Failed("the exporter's thread is gone".into()));
        }
        match self.done.recv_timeout(timeout) {
            Ok(result) => result.map_err(Ended::Failed),
            Err(_) => {
                self.is_going = true;
                Err(Ended::TooLate)
            }
        }
    }
}

/// What the reader's thread has.
struct Reading {
    shared: Arc<Shared>,
    worker: Worker,
    timeout: Duration,
    on_failed: Option<Hook<SdkError>>,
    /// Of failures, where there is no hook.
    logged: Failures,
    failed: Arc<AtomicU64>,
}

impl Reading {
    fn run(
        reader: PeriodicReader,
        shared: Arc<Shared>,
        failed: Arc<AtomicU64>,
        requests: &Receiver<Request>,
    ) {
        let Some(worker) = Worker::start(reader.exporter) else {
            return;
        };
        let mut reading = Reading {
            shared,
            worker,
            timeout: reader.timeout,
            on_failed: reader.on_failed,
            logged: Failures::default(),
            failed,
        };
        let mut due = Instant::now().checked_add(reader.interval);
        loop {
            match requests.recv_timeout(time_left(due)) {
                Err(RecvTimeoutError::Timeout) => {
                    let _ = reading.push(Duration::ZERO);
                    due = due.and_then(|tick| next_tick(tick, reader.interval));
                }
                Ok(Request::Flush(answer)) => {
                    let _ = answer.send(reading.flush());
                }
                Ok(Request::Shutdown(last, answer)) => {
                    let _ = answer.send(reading.shutdown(last));
                    return;
                }
                Err(RecvTimeoutError::Disconnected) => return,
            }
        }
    }

    /// Counts a failure, and tells it.
    fn report(&mut self, answer: Answer) -> Answer {
        if let Err(error) = &answer {
            self.failed.fetch_add(1, Ordering::Relaxed);
            match &self.on_failed {
                Some(hook) => tell(hook, error),
                None => self.logged.log(error),
            }
        }
        answer
    }

    /// One collection, and its export: none before the provider starts, and none once it was shut down.
    fn push(&mut self, first: Duration) -> Answer {
        if !self.worker.is_free(first) {
            return self.report(Err(SdkError::Busy));
        }
        match self.shared.collect() {
            Ok(export) => self.bring(Arc::new(export)),
            Err(Error::NotStarted | Error::Closed) => Ok(()),
            Err(error) => self.report(Err(SdkError::Refused(error))),
        }
    }

    fn bring(&mut self, export: Arc<Export>) -> Answer {
        let (job, wait) = (Job::Export(Arc::clone(&export)), self.timeout);
        let brought = self.worker.call(job, wait, wait);
        if brought.is_ok() {
            self.logged.end();
        }
        let answer = brought.map_err(|ended| match ended {
            Ended::Failed(error) => SdkError::Export {
                error,
                unsent: export,
            },
            Ended::TooLate => SdkError::Timeout {
                unsent: Some(export),
            },
            Ended::Busy => SdkError::Busy,
        });
        self.report(answer)
    }

    /// A call of the exporter without an export.
    fn call(&mut self, job: Job) -> Answer {
        let called = self.worker.call(job, self.timeout, self.timeout);
        let answer = called.map_err(|ended| match ended {
            Ended::Failed(error) => SdkError::Exporter(error),
            Ended::TooLate => SdkError::Timeout { unsent: None },
            Ended::Busy => SdkError::Busy,
        });
        self.report(answer)
    }

    fn flush(&mut self) -> Answer {
        self.push(self.timeout)?;
        self.call(Job::Flush)
    }

    fn shutdown(mut self, last: Option<Arc<Export>>) -> Answer {
        let brought = last.map_or(Ok(()), |export| self.bring(export));
        let ended = self.call(Job::End);
        if ended.is_ok() {
            let _ = self.worker.thread.join();
        }
        brought.and(ended)
    }
}

/// The first tick that is still to come: one that passed during an export is left out.
fn next_tick(due: Instant, interval: Duration) -> Option<Instant> {
    let now = Instant::now();
    let mut next = due.checked_add(interval)?;
    if next < now {
        next = now.checked_add(interval)?;
    }
    Some(next)
}
