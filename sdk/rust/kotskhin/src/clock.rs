//! Times as the kit counts them.
use std::time::{SystemTime, UNIX_EPOCH};

/// Nanoseconds since the Unix epoch: 0 where the clock is before it.
pub fn now() -> u64 {
    let since = SystemTime::now().duration_since(UNIX_EPOCH);
    since.map_or(0, |since| {
        u64::try_from(since.as_nanos()).unwrap_or(u64::MAX)
    })
}
