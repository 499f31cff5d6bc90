//! One provider for a whole program.
use super::instruments::Meter;
use super::provider::SdkMeterProvider;
use std::process;
use std::sync::atomic::{AtomicU32, Ordering};
use std::sync::{OnceLock, PoisonError, RwLock};

/// Where a process has its provider. A child of a fork has a place of its own, since the lock of its parent's may never be given back.
struct Place {
    /// The process, or 0 where it is nobody's yet.
    process: AtomicU32,
    provider: RwLock<Option<SdkMeterProvider>>,
    /// One that was shut down, for who asks where there is none.
    none: OnceLock<SdkMeterProvider>,
    /// That of a child, or of a child's child.
    next: OnceLock<Box<Place>>,
}

static FIRST: Place = Place::new();

impl Place {
    const fn new() -> Place {
        Place {
            process: AtomicU32::new(0),
            provider: RwLock::new(None),
            none: OnceLock::new(),
            next: OnceLock::new(),
        }
    }

    /// Whether it is this process', which it becomes where it is nobody's.
    fn is_of(&self, this: u32) -> bool {
        let order = Ordering::Relaxed;
        let taken = self.process.compare_exchange(0, this, order, order);
        taken.is_ok() || taken == Err(this)
    }

    /// The place of this process, and the provider of its parent where that was set there.
    fn here() -> (&'static Place, Option<SdkMeterProvider>) {
        let this = process::id();
        let (mut place, mut inherited) = (&FIRST, None);
        while !place.is_of(this) {
            if let Ok(provider) = place.provider.try_read() {
                inherited = provider.clone().or(inherited);
            }
            place = place.next.get_or_init(|| Box::new(Place::new()));
        }
        (place, inherited)
    }
}

/// From now on [`meter`] gives this provider's meters, and the one before is as any other: instruments stay those of theirs. Nothing shuts
/// it down by itself: keep a clone, and call `shutdown`. A child of a fork sets one of its own.
pub fn set_meter_provider(provider: SdkMeterProvider) {
    let before = {
        let (place, _) = Place::here();
        let mut here = place
            .provider
            .write()
            .unwrap_or_else(PoisonError::into_inner);
        here.replace(provider)
    };
    // (its end may take long, and is not to be waited for by others)
    drop(before);
}

/// The provider that was set; in a child of a fork that did not set one, its parent's. Where there is none, it is one that was shut down:
/// recordings are refused as `Closed`.
pub fn meter_provider() -> SdkMeterProvider {
    let (place, inherited) = Place::here();
    let here = place
        .provider
        .read()
        .unwrap_or_else(PoisonError::into_inner);
    let provider = here.clone().or(inherited);
    provider.unwrap_or_else(|| {
        let none = place.none.get_or_init(|| {
            let provider = SdkMeterProvider::builder().build();
            let _ = provider.close();
            provider
        });
        none.clone()
    })
}

/// The meter of a scope, of the provider that was set.
pub fn meter(scope: impl Into<String>) -> Meter {
    meter_provider().meter(scope)
}
