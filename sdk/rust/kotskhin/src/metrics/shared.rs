//! What a provider, its instruments and its readers share.
use super::declaring::{Declaring, PassedOver, Request, Viewed};
use super::key_value::KeyValue;
use super::limits::Limits;
use super::logs::{self, Cache, Log, Slot, Way};
use super::resource::Resource;
use super::telling::{Hook, Refusal, Refused, Telling};
use super::views::{Instrument, Stream};
use crate::attributes::Attributes;
use crate::clock::now;
use crate::error::Error;
use crate::export::Export;
use crate::home::Home;
use crate::plan::{Instruments, Plan};
use crate::recorder::Taken;
use crate::streams::Streams;
use crate::writer::Writer;
use std::fmt;
use std::mem;
use std::panic::Location;
use std::sync::atomic::{AtomicU64, Ordering};
use std::sync::{Arc, Mutex, MutexGuard, OnceLock, PoisonError, RwLock};

/// No panic leaves what a lock is of half changed, so one that a panic has poisoned is as good as before.
pub(super) fn lock<T>(lock: &Mutex<T>) -> MutexGuard<'_, T> {
    lock.lock().unwrap_or_else(PoisonError::into_inner)
}

type StreamOf = Box<dyn Fn(&Instrument) -> Option<Stream> + Send + Sync>;

/// A view, and where it was given.
pub(super) struct View {
    pub given: &'static Location<'static>,
    pub stream_of: StreamOf,
}

/// What a provider is made with.
pub(super) struct Settings {
    pub resource: Resource,
    pub views: Vec<View>,
    pub limit: u64,
    /// How many recordings a thread's log has room for.
    pub log: usize,
    /// How many pairs of an instrument and a set are held.
    pub cache: usize,
    pub on_refused: Option<Hook<Refusal>>,
}

/// The writer, which one thread at a time has.
pub(super) struct Core {
    pub writer: Writer,
    /// The last collection was made.
    is_ended: bool,
}

struct Slots {
    list: Vec<Slot>,
    is_closed: bool,
}

/// A provider that has started. Of its locks a thread takes first the core, then the list of logs, then one log, then the cache; with
/// a log it only tries for the core.
pub(super) struct Started {
    core: Mutex<Core>,
    cache: RwLock<Cache>,
    slots: Mutex<Slots>,
    /// The plan's streams.
    streams: Streams,
    /// Who has it takes no other lock.
    limits: Mutex<Limits>,
}

/// What all that a provider gives out has.
pub(super) struct Shared {
    home: Home,
    number: u64,
    settings: Settings,
    declaring: Mutex<Declaring>,
    /// `Closed` where it was shut down before it started.
    started: OnceLock<Result<Started, Error>>,
    telling: Telling,
}

impl fmt::Debug for Shared {
    fn fmt(&self, f: &mut fmt::Formatter<'_>) -> fmt::Result {
        f.debug_struct("SdkMeterProvider")
            .field("resource", &self.settings.resource)
            .field("started", &self.started.get().is_some())
            .field("refused", &self.refused())
            .finish_non_exhaustive()
    }
}

impl Shared {
    pub fn new(mut settings: Settings) -> Shared {
        static NUMBER: AtomicU64 = AtomicU64::new(0);
        let home = Home::here();
        Shared {
            home,
            telling: Telling::new(home, settings.on_refused.take()),
            number: NUMBER.fetch_add(1, Ordering::Relaxed),
            settings,
            declaring: Mutex::default(),
            started: OnceLock::new(),
        }
    }

    /// The process that it was made in. In a child nothing of it is used but by threads that have a log, and no lock is waited for.
    pub fn home(&self) -> Home {
        self.home
    }

    /// A number that no other provider of this process has.
    pub fn number(&self) -> u64 {
        self.number
    }

    pub fn resource(&self) -> &Resource {
        &self.settings.resource
    }

    pub fn refused(&self) -> u64 {
        self.telling.count()
    }

    /// Counts what is refused, and tells it. No lock is held.
    pub fn refuse(&self, refusal: &Refusal) {
        self.telling.refuse(refusal);
    }

    /// The number of an instrument: that which it has where it was declared before. Why views are passed over is told. Refused:
    /// `DeclaredLate`, `Closed`, `Forked`, and as a plan is.
    pub fn declare(
        &self,
        instrument: Instrument,
        boundaries: Option<Vec<i64>>,
        passed_over: &mut Vec<PassedOver>,
    ) -> Result<usize, Error> {
        self.home.check()?;
        let views = (0..).zip(&self.settings.views);
        let viewed = views.filter_map(|(number, view)| {
            Some(Viewed {
                number,
                given: view.given,
                stream: (view.stream_of)(&instrument)?,
            })
        });
        let request = Request {
            viewed: viewed.collect(),
            boundaries,
            instrument,
        };
        let mut declaring = lock(&self.declaring);
        if let Some(number) = declaring.find(&request.instrument) {
            return Ok(number);
        }
        match self.started.get() {
            Some(Ok(_)) => return Err(Error::DeclaredLate),
            Some(Err(why)) => return Err(*why),
            None => (),
        }
        declaring.add(request, self.settings.limit, passed_over)
    }

    /// The name of the instrument that another one would share a stream with, where it is refused for that.
    pub fn find_other(&self, why: Error) -> Option<String> {
        match why {
            Error::SameStream { first, .. } => lock(&self.declaring).instrument_name(first),
            _ => None,
        }
    }

    /// Starts, where that was not done. Refused: `Closed`, `Forked`, `NoMemory`, `BadLimit`.
    #[inline]
    pub fn start(&self) -> Result<&Started, Error> {
        match self.started.get() {
            Some(Ok(started)) => Ok(started),
            _ => self.start_now(),
        }
    }

    #[cold]
    fn start_now(&self) -> Result<&Started, Error> {
        if self.started.get().is_none() {
            self.home.check()?;
            let declaring = lock(&self.declaring);
            if self.started.get().is_none() {
                let started = self.make_started(declaring.plan.as_ref())?;
                let _ = self.started.set(Ok(started));
            }
        }
        match self.started.get() {
            Some(Ok(started)) => Ok(started),
            Some(Err(why)) => Err(*why),
            None => Err(Error::NotStarted),
        }
    }

    fn make_started(&self, plan: Option<&Plan>) -> Result<Started, Error> {
        let none;
        let plan = match plan {
            Some(plan) => plan,
            None => {
                none = Plan::build(&Instruments::new(), self.settings.limit)?;
                &none
            }
        };
        let (resource, streams) = (&self.settings.resource, plan.streams()?);
        let limits = Limits::new(self.settings.limit, streams.count()?);
        Ok(Started {
            core: Mutex::new(Core {
                writer: Writer::start(plan, &resource.service, resource.instance, now())?,
                is_ended: false,
            }),
            cache: RwLock::new(Cache::new(self.settings.cache)),
            slots: Mutex::new(Slots {
                list: Vec::new(),
                is_closed: false,
            }),
            streams,
            limits: Mutex::new(limits),
        })
    }

    /// Notes a value in this thread's log. Refused: `Closed`, `Forked`, `EmptyKey`, `NoMemory`, `BadLimit`; of an ending thread as a
    /// writer does.
    pub fn record(
        self: &Arc<Self>,
        instrument: usize,
        attributes: &[KeyValue],
        value: i64,
    ) -> Result<(), Error> {
        let started = self.start()?;
        match self.note(started, instrument, attributes, value) {
            Some(Err(Error::RecorderFull)) => (),
            Some(noted) => return noted,
            None => return self.record_at_once(instrument, attributes, value),
        }
        self.home.check()?;
        // (the core comes before a log)
        let mut core = lock(&started.core);
        let taken = logs::with_own(self, |log| Ok(started.take_in_log(&mut core, log)));
        drop(core);
        self.refuse_all(taken.and_then(Result::ok).flatten());
        match self.note(started, instrument, attributes, value) {
            // (what was taken in left no room, since memory was wanting)
            Some(Err(Error::RecorderFull)) | None => Err(Error::NoMemory),
            Some(noted) => noted,
        }
    }

    /// The same, where this thread's log has room; `None` of an ending thread.
    #[inline]
    fn note(
        self: &Arc<Self>,
        started: &Started,
        instrument: usize,
        attributes: &[KeyValue],
        value: i64,
    ) -> Option<Result<(), Error>> {
        let at = (&started.core, &started.cache);
        logs::with_own(self, |log| log.note(at, instrument, attributes, value))
    }

    /// Records a value without a log: of a gauge the last value counts, and values that wait in two logs have no order. Refused: `Closed`,
    /// `Forked`, `EmptyKey`, `BadLimit`, and as a writer does.
    pub fn record_at_once(
        self: &Arc<Self>,
        instrument: usize,
        attributes: &[KeyValue],
        value: i64,
    ) -> Result<(), Error> {
        let started = self.start()?;
        let at = (&started.core, &started.cache);
        let way = match logs::with_own(self, |log| log.find_way(at, instrument, attributes)) {
            Some(way) => way?,
            // (an ending thread has no log)
            None => Way::Set(Attributes::new(attributes.iter().map(KeyValue::pair))?),
        };
        let mut core = self.home.lock(&started.core)?;
        match way {
            Way::Number(number) => core.writer.measure_held(number, value),
            Way::Set(set) => core.writer.measure(instrument, &set, value),
        }
    }

    /// A log for a thread. Refused: `Closed`, `Forked`, `NoMemory`.
    pub fn new_slot(&self) -> Result<Slot, Error> {
        let started = self.start()?;
        self.home.check()?;
        let mut slots = lock(&started.slots);
        if slots.is_closed {
            return Err(Error::Closed);
        }
        let slot = Arc::new(Mutex::new(Log::new(self.settings.log)?));
        slots.list.push(Arc::clone(&slot));
        Ok(slot)
    }

    /// What it has where it is started, and this is the process that it was made in.
    fn started_here(&self) -> Option<&Started> {
        let started = self.started.get()?.as_ref().ok()?;
        self.home.is_here().then_some(started)
    }

    /// How many pairs are held.
    pub fn cached(&self) -> usize {
        let Some(started) = self.started_here() else {
            return 0;
        };
        let cache = started.cache.read();
        let cache = cache.unwrap_or_else(PoisonError::into_inner);
        cache.count()
    }

    /// How many logs there are.
    pub fn logs(&self) -> usize {
        let started = self.started_here();
        started.map_or(0, |started| lock(&started.slots).list.len())
    }

    /// Collects what all threads recorded so far. Refused: `NotStarted`, `Closed`, `Forked`, `NoMemory`, `TimeNotAfter`.
    pub fn collect(&self) -> Result<Export, Error> {
        self.home.check()?;
        let started = match self.started.get() {
            Some(Ok(started)) => started,
            Some(Err(why)) => return Err(*why),
            None => return Err(Error::NotStarted),
        };
        let (taken, collected) = started.collect();
        self.refuse_all(taken);
        self.tell_limits(started, &collected);
        collected
    }

    /// Collects for the last time: nothing is recorded from then on. There is no export where nothing was started. Refused: `Closed`,
    /// where that was done before; `Forked`; `NoMemory`, and then it may be asked again.
    pub fn close(&self) -> Result<Option<Export>, Error> {
        self.home.check()?;
        {
            let _declaring = lock(&self.declaring);
            if self.started.set(Err(Error::Closed)).is_ok() {
                return Ok(None);
            }
        }
        let Some(Ok(started)) = self.started.get() else {
            return Err(Error::Closed);
        };
        let (taken, collected) = started.close();
        self.refuse_all(taken);
        self.tell_limits(started, &collected);
        collected.map(Some)
    }

    /// Tells the streams that an export shows to have come to their limit. (Where memory is wanting the next export shows them.)
    fn tell_limits(&self, started: &Started, collected: &Result<Export, Error>) {
        if let Ok(export) = collected {
            let reached = lock(&started.limits).find_reached(&started.streams, export);
            let limit = self.settings.limit;
            for stream in reached.unwrap_or_default() {
                let why = Error::CardinalityLimit { limit };
                self.refuse(&Refusal::new(
                    started.stream_name(stream),
                    Refused::Sets,
                    why,
                ));
            }
        }
    }

    fn refuse_all(&self, refused: impl IntoIterator<Item = Refusal>) {
        for refusal in refused {
            self.refuse(&refusal);
        }
    }
}

impl Drop for Shared {
    /// What other threads may have been changing as the process forked is not given back by a child.
    fn drop(&mut self) {
        if !self.home.is_here() {
            mem::forget(mem::take(&mut self.declaring));
            mem::forget(mem::take(&mut self.started));
        }
    }
}

impl Started {
    /// Takes in a log, and tells what was refused.
    fn take_in(&self, core: &mut Core, slot: &Slot) -> Option<Refusal> {
        self.take_in_log(core, &mut lock(slot))
    }

    fn take_in_log(&self, core: &mut Core, log: &mut Log) -> Option<Refusal> {
        self.make_refusal(&log.take_in(core).ok()?)
    }

    /// The name of a stream of the plan.
    fn stream_name(&self, stream: usize) -> String {
        self.streams
            .stream(stream)
            .map(|stream| stream.name)
            .unwrap_or_default()
    }

    fn make_refusal(&self, taken: &Taken) -> Option<Refusal> {
        let (_, why) = taken.first?;
        let stream = match why {
            Error::Overflow { stream } => usize::try_from(stream).ok(),
            _ => None,
        };
        let name = stream
            .map(|stream| self.stream_name(stream))
            .unwrap_or_default();
        Some(Refusal::of_recordings(name, why, taken.refused as u64))
    }

    /// Takes in all logs.
    fn take_in_all(&self, core: &mut Core) -> Vec<Refusal> {
        let list = lock(&self.slots).list.clone();
        list.iter()
            .filter_map(|slot| self.take_in(core, slot))
            .collect()
    }

    /// Forgets the logs of threads that ended, once nothing is in them.
    fn forget_left(&self) {
        let mut slots = lock(&self.slots);
        slots
            .list
            .retain(|slot| !logs::is_left(slot) || logs::count_noted(slot) > 0);
    }

    fn collect(&self) -> (Vec<Refusal>, Result<Export, Error>) {
        let mut core = lock(&self.core);
        if core.is_ended {
            return (Vec::new(), Err(Error::Closed));
        }
        let refused = self.take_in_all(&mut core);
        self.forget_left();
        (refused, call_now(|time| core.writer.collect(time)))
    }

    /// What a log has left for want of memory is lost, and told.
    fn close(&self) -> (Vec<Refusal>, Result<Export, Error>) {
        let mut core = lock(&self.core);
        if core.is_ended {
            return (Vec::new(), Err(Error::Closed));
        }
        let mut refused = Vec::new();
        let list = {
            let mut slots = lock(&self.slots);
            slots.is_closed = true;
            slots.list.clone()
        };
        for slot in &list {
            let mut log = lock(slot);
            log.is_closed = true;
            refused.extend(self.take_in_log(&mut core, &mut log));
        }
        let collected = call_now(|time| core.writer.shutdown(time));
        core.is_ended = collected.is_ok();
        if core.is_ended {
            refused.extend(list.iter().filter_map(count_lost));
            lock(&self.slots).list.clear();
        }
        (refused, collected)
    }
}

/// What is left in a log that nobody takes in any more.
fn count_lost(slot: &Slot) -> Option<Refusal> {
    let count = logs::count_noted(slot) as u64;
    (count > 0).then(|| Refusal::of_recordings("", Error::NoMemory, count))
}

/// Collects at the time of the clock, or right after the last collection where the clock was put back.
fn call_now(mut collect: impl FnMut(u64) -> Result<Export, Error>) -> Result<Export, Error> {
    match collect(now()) {
        Err(Error::TimeNotAfter { last }) if last < u64::MAX => collect(last + 1),
        collected => collected,
    }
}

/// Takes in the log of a thread that ends, where nobody has the writer: else the next collection does. In a child of a fork it is left as
/// it is, since it may be one that was being taken in.
pub(super) fn take_in_of_ending_thread(shared: &Shared, slot: &Slot) {
    let Some(started) = shared.started_here() else {
        mem::forget(Arc::clone(slot));
        return;
    };
    let taken = {
        let Ok(mut core) = started.core.try_lock() else {
            return;
        };
        let taken = started.take_in(&mut core, slot);
        if logs::count_noted(slot) == 0 {
            let mut slots = lock(&started.slots);
            slots.list.retain(|other| !Arc::ptr_eq(other, slot));
        }
        taken
    };
    shared.refuse_all(taken);
}

#[cfg(test)]
mod tests {
    use super::{Instruments, Plan, Writer, call_now, now};
    use crate::error::Error;

    #[test]
    fn where_the_clock_was_put_back_a_collection_is_right_after_the_last() -> Result<(), Error> {
        let plan = Plan::build(&Instruments::new(), 1)?;
        let mut writer = Writer::start(&plan, "shop", 1, now() - 1)?;
        let ahead = now() + 3_600_000_000_000;
        writer.collect(ahead)?;
        for later in 1..=2 {
            let export = call_now(|time| writer.collect(time))?;
            assert_eq!(export.head()?.time, ahead + later);
        }
        writer.collect(u64::MAX)?;
        let at_the_end = call_now(|time| writer.collect(time)).err();
        assert_eq!(at_the_end, Some(Error::TimeNotAfter { last: u64::MAX }));
        Ok(())
    }
}
