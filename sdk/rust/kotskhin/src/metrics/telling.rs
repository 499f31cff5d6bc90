//! How refusals and failures are told: to a host's hook, or on the standard error.
use crate::error::Error;
use crate::home::Home;
use crate::logging::log;
use std::cell::Cell;
use std::collections::HashSet;
use std::fmt;
use std::mem::{Discriminant, discriminant};
use std::panic::{AssertUnwindSafe, Location, catch_unwind};
use std::sync::Mutex;
use std::sync::atomic::{AtomicBool, AtomicU64, Ordering};

/// Places that a refusal tells by names.
const NAMED: [&str; 3] = ["instrument", "view", "stream"];

/// How many kinds of refusals are logged.
const KINDS: usize = 1000;

/// What is refused.
#[derive(Clone, Copy, Debug, PartialEq, Eq)]
#[non_exhaustive]
pub enum Refused {
    /// Recordings, so many as the refusal counts.
    Recordings,
    /// An instrument as it is declared: all its recordings will be.
    Instrument,
    /// A view's stream, which can't be made of the instrument: the view is passed over.
    View,
    /// A stream as it is made, for views.
    Stream,
    /// Points for further sets of attributes, which are counted together from now on.
    Sets,
}

/// What was refused, and why. It is shown by names and places in the program, as
/// `BadName: '9 lives', declared at src/main.rs:7:38, is refused: ..`.
#[derive(Clone, Debug, PartialEq, Eq)]
#[non_exhaustive]
pub struct Refusal {
    /// The name of the instrument; or that of the stream that is made, would leave its range or has reached its limit; empty where it is not
    /// known.
    pub instrument: String,
    /// Where the instrument or the stream was declared, where that is known.
    pub declared: Option<&'static Location<'static>>,
    /// Where the view was given that is passed over.
    pub view: Option<&'static Location<'static>>,
    /// The name of the other instrument, where two would feed one stream.
    pub other: Option<String>,
    pub what: Refused,
    /// Why: of several recordings, why the first.
    pub why: Error,
    /// How many recordings: none where something else is refused.
    pub count: u64,
}

impl fmt::Display for Refusal {
    fn fmt(&self, f: &mut fmt::Formatter<'_>) -> fmt::Result {
        write!(f, "{}: ", self.why.name())?;
        match (self.instrument.as_str(), self.what) {
            ("", Refused::Recordings) => write!(f, "recordings")?,
            ("", Refused::Stream) => write!(f, "a stream")?,
            (name, _) => write!(f, "'{name}'")?,
        }
        if let Some(place) = self.declared {
            write!(f, ", declared at {place}")?;
        }
        match (self.what, self.view) {
            (Refused::Recordings, _) => write!(f, ": {} refused: ", self.count)?,
            (Refused::Instrument | Refused::Stream, _) => write!(f, ", is refused: ")?,
            (Refused::View, Some(place)) => write!(f, ": the view of {place} is passed over: ")?,
            (Refused::View, None) => write!(f, ": a view is passed over: ")?,
            (Refused::Sets, _) => write!(f, ": ")?,
        }
        self.why.say(f, &NAMED)?;
        match &self.other {
            Some(name) => write!(f, ", and the other is '{name}'"),
            None => Ok(()),
        }
    }
}

impl std::error::Error for Refusal {}

impl Refusal {
    /// Why something of a name is refused.
    pub(super) fn new(instrument: impl Into<String>, what: Refused, why: Error) -> Refusal {
        Refusal {
            instrument: instrument.into(),
            declared: None,
            view: None,
            other: None,
            what,
            why,
            count: 0,
        }
    }

    /// The same, of so many recordings.
    pub(super) fn of_recordings(instrument: impl Into<String>, why: Error, count: u64) -> Refusal {
        Refusal {
            count,
            ..Refusal::new(instrument, Refused::Recordings, why)
        }
    }
}

pub(super) type Hook<T> = Box<dyn Fn(&T) + Send + Sync>;

/// Tells a hook, whose panics are its own.
pub(super) fn tell<T>(hook: &Hook<T>, what: &T) {
    let _ = catch_unwind(AssertUnwindSafe(|| hook(what)));
}

thread_local! {
    /// A hook of refusals is running on this thread.
    static IS_IN_HOOK: Cell<bool> = const { Cell::new(false) };
}

/// Counts what is refused, and tells it.
pub(super) struct Telling {
    home: Home,
    hook: Option<Hook<Refusal>>,
    count: AtomicU64,
    is_fork_told: AtomicBool,
    /// The kinds that were logged: instruments, and why they are refused.
    logged: Mutex<HashSet<(String, Discriminant<Error>)>>,
}

impl Telling {
    pub fn new(home: Home, hook: Option<Hook<Refusal>>) -> Telling {
        Telling {
            home,
            hook,
            count: AtomicU64::new(0),
            is_fork_told: AtomicBool::new(false),
            logged: Mutex::default(),
        }
    }

    /// How many recordings were refused.
    pub fn count(&self) -> u64 {
        self.count.load(Ordering::Relaxed)
    }

    /// Counts what is refused, and tells it. No lock is held. What is refused while a hook runs on this thread is logged, as where there
    /// is no hook: so a hook that is refused itself is not called for ever.
    pub fn refuse(&self, refusal: &Refusal) {
        self.count.fetch_add(refusal.count, Ordering::Relaxed);
        if refusal.why == Error::Forked && self.is_fork_told.swap(true, Ordering::Relaxed) {
            return;
        }
        match &self.hook {
            Some(hook) if !IS_IN_HOOK.replace(true) => {
                tell(hook, refusal);
                IS_IN_HOOK.set(false);
            }
            _ => self.log_first_of_kind(refusal),
        }
    }

    fn log_first_of_kind(&self, refusal: &Refusal) {
        let is_first = match self.home.lock(&self.logged) {
            Ok(mut logged) => {
                let kind = (refusal.instrument.clone(), discriminant(&refusal.why));
                logged.len() < KINDS && logged.insert(kind)
            }
            // (that is told once, and needs no list)
            Err(_) => refusal.why == Error::Forked,
        };
        if is_first {
            log(refusal);
        }
    }
}
