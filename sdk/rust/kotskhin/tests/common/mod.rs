//! What several files of tests share.
use kotskhin::metrics::{Counter, Refusal, SdkMeterProvider};
use kotskhin::{Ask, Error, Gateway, Row, Total};
use std::error::Error as AnyError;
use std::sync::{Arc, Mutex, PoisonError};

/// What a hook was told.
#[derive(Clone, Default)]
pub struct Told(pub Arc<Mutex<Vec<Refusal>>>);

impl Told {
    pub fn hook(&self) -> impl Fn(&Refusal) + Send + Sync + 'static {
        let list = self.clone();
        move |refusal| {
            let mut list = list.0.lock().unwrap_or_else(PoisonError::into_inner);
            list.push(refusal.clone());
        }
    }

    /// Each refusal: the instrument, why, and how many recordings.
    pub fn all(&self) -> Vec<(String, Error, u64)> {
        let list = self.0.lock().unwrap_or_else(PoisonError::into_inner);
        list.iter()
            .map(|refusal| (refusal.instrument.clone(), refusal.why, refusal.count))
            .collect()
    }

    pub fn shown(&self) -> Vec<String> {
        let list = self.0.lock().unwrap_or_else(PoisonError::into_inner);
        list.iter().map(Refusal::to_string).collect()
    }
}

pub fn requests(provider: &SdkMeterProvider) -> Counter<u64> {
    provider
        .meter("app")
        .u64_counter("requests")
        .with_unit("1")
        .build()
}

pub fn rows(provider: &SdkMeterProvider, ask: &Ask) -> Result<Vec<Row>, Box<dyn AnyError>> {
    let mut gateway = Gateway::open(1)?;
    gateway.take(&provider.collect()?)?;
    Ok(gateway.rows(ask)?.all()?)
}

pub fn of_requests() -> Result<Ask, Error> {
    Ask::sum("app", "requests", "1", true)
}

/// What all rows come to.
pub fn total(rows: &[Row]) -> i128 {
    rows.iter()
        .map(|row| match row.total {
            Total::Sum(sum) => sum,
            _ => 0,
        })
        .sum()
}
