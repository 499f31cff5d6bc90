//! Processes that fork: what threads share is of the process that made it.
use crate::error::Error;
use std::process;
use std::sync::{Mutex, MutexGuard, PoisonError, TryLockError};

/// The process that made something. In a child of it, other threads are not there, and a lock that one of them had is never given back.
#[derive(Clone, Copy, Debug)]
pub(crate) struct Home(u32);

impl Home {
    pub fn here() -> Home {
        Home(process::id())
    }

    /// Whether this is that process. (It asks the system.)
    pub fn is_here(self) -> bool {
        self.0 == process::id()
    }

    /// Refused: `Forked`.
    pub fn check(self) -> Result<(), Error> {
        match self.is_here() {
            true => Ok(()),
            false => Err(Error::Forked),
        }
    }

    /// Takes a lock. Where it is free nothing is asked, and where it is not it is waited for at home alone. Refused: `Forked`. (No panic
    /// leaves what a lock is of half changed, so one that a panic has poisoned is as good as before.)
    #[inline]
    pub fn lock<T>(self, lock: &Mutex<T>) -> Result<MutexGuard<'_, T>, Error> {
        match lock.try_lock() {
            Ok(free) => Ok(free),
            Err(TryLockError::Poisoned(free)) => Ok(free.into_inner()),
            Err(TryLockError::WouldBlock) => self.wait_for(lock),
        }
    }

    #[cold]
    fn wait_for<T>(self, lock: &Mutex<T>) -> Result<MutexGuard<'_, T>, Error> {
        self.check()?;
        Ok(lock.lock().unwrap_or_else(PoisonError::into_inner))
    }
}
