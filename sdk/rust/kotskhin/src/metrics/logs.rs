//! What threads note, each in a log of its own.
use super::hashing::{Keyed, MIXER};
use super::key_value::KeyValue;
use super::shared::{Core, Shared, lock, take_in_of_ending_thread};
use crate::attributes::Attributes;
use crate::error::Error;
use crate::recorder::{Recorder, Taken};
use crate::writer::HeldNumber;
use std::cell::RefCell;
use std::collections::HashMap;
use std::sync::{Arc, Mutex, RwLock, TryLockError, Weak};

/// The numbers of instruments at sets, by the instrument: as they were written down, so that one set may stand here in several orders. What
/// was written down is kept once, by the cache and by threads.
#[derive(Default)]
pub(super) struct Numbers(Vec<HashMap<Arc<[KeyValue]>, HeldNumber, Keyed>>);

impl Numbers {
    fn find(&self, instrument: usize, attributes: &[KeyValue]) -> Option<HeldNumber> {
        self.0.get(instrument)?.get(attributes).copied()
    }

    fn find_entry(
        &self,
        instrument: usize,
        attributes: &[KeyValue],
    ) -> Option<(Arc<[KeyValue]>, HeldNumber)> {
        let (key, number) = self.0.get(instrument)?.get_key_value(attributes)?;
        Some((Arc::clone(key), *number))
    }

    fn keep(&mut self, instrument: usize, attributes: Arc<[KeyValue]>, number: HeldNumber) {
        if self.0.len() <= instrument {
            self.0.resize_with(instrument + 1, HashMap::default);
        }
        if let Some(numbers) = self.0.get_mut(instrument) {
            numbers.insert(attributes, number);
        }
    }
}

/// What the writer holds for recordings by numbers. It is never given up, so there is a bound.
pub(super) struct Cache {
    room: usize,
    count: usize,
    numbers: Numbers,
}

impl Cache {
    pub fn new(room: usize) -> Cache {
        Cache {
            room,
            count: 0,
            numbers: Numbers::default(),
        }
    }

    pub fn count(&self) -> usize {
        self.count
    }

    fn is_full(&self) -> bool {
        self.count >= self.room
    }

    fn keep(
        &mut self,
        instrument: usize,
        attributes: &[KeyValue],
        number: HeldNumber,
    ) -> Arc<[KeyValue]> {
        // (another thread may have been first)
        if let Some((key, _)) = self.numbers.find_entry(instrument, attributes) {
            return key;
        }
        let key: Arc<[KeyValue]> = attributes.into();
        self.numbers.keep(instrument, Arc::clone(&key), number);
        self.count += 1;
        key
    }
}

/// How often another pair is looked for in a room before it is given that room.
const PATIENCE: u8 = 4;
const ROOMS: usize = 256;

/// A pair that was recorded at.
struct Known {
    instrument: usize,
    attributes: Box<[KeyValue]>,
    number: HeldNumber,
    missed: u8,
}

impl Known {
    #[inline]
    fn is_of(&self, instrument: usize, attributes: &[KeyValue]) -> bool {
        let mut pairs = self.attributes.iter().zip(attributes);
        self.instrument == instrument
            && self.attributes.len() == attributes.len()
            && pairs.all(|(known, pair)| known.is_in_place_of(pair))
    }
}

/// Pairs whose texts are of the program itself, found by where these are: none is read. What is not here is found by its content.
struct Places(Vec<Option<Known>>);

impl Places {
    fn new() -> Places {
        Places((0..ROOMS).map(|_| None).collect())
    }

    /// The room of a pair. (keys are most often those of others at its instrument, so they are left out)
    #[inline]
    fn pick_room(instrument: usize, attributes: &[KeyValue]) -> usize {
        let mixed = attributes.iter().fold(instrument as u64, |mixed, pair| {
            (mixed.rotate_left(26) ^ pair.word()).wrapping_mul(MIXER)
        });
        (mixed >> 32) as usize % ROOMS
    }

    #[inline]
    fn find(&self, room: usize, instrument: usize, attributes: &[KeyValue]) -> Option<HeldNumber> {
        let known = self.0.get(room)?.as_ref()?;
        known.is_of(instrument, attributes).then_some(known.number)
    }

    /// Keeps a pair in its room, unless another has it that is found there often enough.
    fn keep(
        &mut self,
        room: usize,
        instrument: usize,
        attributes: &[KeyValue],
        number: HeldNumber,
    ) {
        let Some(there) = self.0.get_mut(room) else {
            return;
        };
        if let Some(known) = there.as_mut().filter(|known| known.missed < PATIENCE) {
            known.missed += 1;
        } else if attributes.iter().all(KeyValue::stays) {
            *there = Some(Known {
                instrument,
                attributes: attributes.into(),
                number,
                missed: 0,
            });
        }
    }
}

/// A thread's log. The thread has its lock while it notes, and who collects while it takes the log in.
pub(super) struct Log {
    pub recorder: Recorder,
    /// What this thread knows of the cache.
    numbers: Numbers,
    /// Of these, what is found without being read.
    places: Places,
    /// Nothing is taken in any more: the provider was shut down.
    pub is_closed: bool,
}

/// Which way a recording goes: by a number, or by the set itself.
pub(super) enum Way {
    Number(HeldNumber),
    Set(Attributes),
}

impl Log {
    pub fn new(capacity: usize) -> Result<Log, Error> {
        Ok(Log {
            recorder: Recorder::new(capacity)?,
            numbers: Numbers::default(),
            places: Places::new(),
            is_closed: false,
        })
    }

    /// Notes a value. Refused: `Closed`, `RecorderFull`, `EmptyKey`, `NoMemory`.
    pub fn note(
        &mut self,
        at: (&Mutex<Core>, &RwLock<Cache>),
        instrument: usize,
        attributes: &[KeyValue],
        value: i64,
    ) -> Result<(), Error> {
        if self.is_closed {
            return Err(Error::Closed);
        }
        let room = Places::pick_room(instrument, attributes);
        match self.places.find(room, instrument, attributes) {
            Some(number) => self.recorder.measure_held(number, value),
            None => match self.read_way(at, room, instrument, attributes)? {
                Way::Number(number) => self.recorder.measure_held(number, value),
                Way::Set(set) => self.recorder.measure(instrument, &set, value),
            },
        }
    }

    /// The way of a recording that is not noted here. Refused: `Closed`, `EmptyKey`, `NoMemory`.
    pub fn find_way(
        &mut self,
        at: (&Mutex<Core>, &RwLock<Cache>),
        instrument: usize,
        attributes: &[KeyValue],
    ) -> Result<Way, Error> {
        if self.is_closed {
            return Err(Error::Closed);
        }
        let room = Places::pick_room(instrument, attributes);
        match self.places.find(room, instrument, attributes) {
            Some(number) => Ok(Way::Number(number)),
            None => self.read_way(at, room, instrument, attributes),
        }
    }

    /// The way of a recording whose texts have to be read.
    #[inline(never)]
    fn read_way(
        &mut self,
        at: (&Mutex<Core>, &RwLock<Cache>),
        room: usize,
        instrument: usize,
        attributes: &[KeyValue],
    ) -> Result<Way, Error> {
        let way = match self.numbers.find(instrument, attributes) {
            Some(number) => Way::Number(number),
            None => self.make_way(at, instrument, attributes)?,
        };
        if let Way::Number(number) = way {
            self.places.keep(room, instrument, attributes, number);
        }
        Ok(way)
    }

    /// Of a pair that this thread has not seen. A number is looked for in the cache, or made where it has room: no lock is waited for, since
    /// a recording is not to wait, and in a child of a fork a lock may never be given back. Else it goes by the set itself.
    fn make_way(
        &mut self,
        (core, cache): (&Mutex<Core>, &RwLock<Cache>),
        instrument: usize,
        attributes: &[KeyValue],
    ) -> Result<Way, Error> {
        let (known, is_full) = match take_free(cache.try_read()) {
            Some(cache) => (
                cache.numbers.find_entry(instrument, attributes),
                cache.is_full(),
            ),
            None => (None, true),
        };
        if let Some((key, number)) = known {
            self.numbers.keep(instrument, key, number);
            return Ok(Way::Number(number));
        }
        let set = Attributes::new(attributes.iter().map(KeyValue::pair))?;
        if is_full {
            return Ok(Way::Set(set));
        }
        let Some(mut core) = take_free(core.try_lock()) else {
            return Ok(Way::Set(set));
        };
        // (others may have been first: who has the writer alone changes the cache)
        let Some(mut cache) = take_free(cache.try_write()).filter(|cache| !cache.is_full()) else {
            return Ok(Way::Set(set));
        };
        let number = core.writer.hold(instrument, &set)?;
        let key = cache.keep(instrument, attributes, number);
        self.numbers.keep(instrument, key, number);
        Ok(Way::Number(number))
    }

    /// Takes in what is noted.
    pub fn take_in(&mut self, core: &mut Core) -> Result<Taken, Error> {
        core.writer.take_in(&mut self.recorder, usize::MAX)
    }
}

/// What a lock is of, where nobody else has it.
fn take_free<T>(tried: Result<T, TryLockError<T>>) -> Option<T> {
    match tried {
        Ok(free) => Some(free),
        Err(TryLockError::Poisoned(free)) => Some(free.into_inner()),
        Err(TryLockError::WouldBlock) => None,
    }
}

/// A log that its thread and its provider have.
pub(super) type Slot = Arc<Mutex<Log>>;

/// A log of this thread, and whose it is.
struct Own {
    provider: u64,
    shared: Weak<Shared>,
    slot: Slot,
}

impl Drop for Own {
    /// The thread ends, and what it noted is taken in, at once or with the next collection.
    fn drop(&mut self) {
        if let Some(shared) = self.shared.upgrade() {
            take_in_of_ending_thread(&shared, &self.slot);
        }
    }
}

thread_local! {
    static OWN: RefCell<Vec<Own>> = const { RefCell::new(Vec::new()) };
}

/// Does something with the log of this thread, which it is given where it has none. `None` where the thread is ending. Refused: `Forked`,
/// and as `Shared::new_slot` is. What is done calls nothing of the host's, which might record.
#[inline]
pub(super) fn with_own<T>(
    shared: &Arc<Shared>,
    call: impl FnOnce(&mut Log) -> Result<T, Error>,
) -> Option<Result<T, Error>> {
    OWN.try_with(|own| {
        let is_there = |own: &&Own| own.provider == shared.number();
        if let Some(there) = own.borrow().iter().find(is_there) {
            return call(&mut *shared.home().lock(&there.slot)?);
        }
        let slot = make_own(shared, own)?;
        let mut log = shared.home().lock(&slot)?;
        call(&mut log)
    })
    .ok()
}

#[cold]
fn make_own(shared: &Arc<Shared>, own: &RefCell<Vec<Own>>) -> Result<Slot, Error> {
    let slot = shared.new_slot()?;
    let mut own = own.borrow_mut();
    own.retain(|other| other.shared.strong_count() > 0);
    own.push(Own {
        provider: shared.number(),
        shared: Arc::downgrade(shared),
        slot: Arc::clone(&slot),
    });
    Ok(slot)
}

/// Whether no thread notes in it any more. It is asked of the one that the provider has.
pub(super) fn is_left(slot: &Slot) -> bool {
    Arc::strong_count(slot) == 1
}

/// How many recordings it has.
pub(super) fn count_noted(slot: &Slot) -> usize {
    lock(slot).recorder.len().unwrap_or(0)
}
