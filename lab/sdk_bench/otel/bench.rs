//! What a recording costs by OpenTelemetry's names from Rust: a counter, four attributes that each recording gives.
//!
//!     otel-bench ROUNDS THREADS
//!
//! It tells the least of the rounds, in nanoseconds for each recording of all threads together: by the clock, and of processors. A round ends with a collection, so all that
//! threads noted is taken in; at the end the total must be what was recorded.
use kotskhin::Gateway;
use kotskhin::metrics::{KeyValue, SdkMeterProvider};
use std::env;
use std::hint::black_box;
use std::thread;
use std::time::Instant;

const TIMES: usize = 400_000;

unsafe extern "C" {
    /// How long processors ran this process so far, in microseconds.
    safe fn clock() -> i64;
}

fn number(place: usize) -> usize {
    let word = env::args().nth(place);
    word.and_then(|word| word.parse().ok()).unwrap_or(1)
}

fn main() -> Result<(), Box<dyn std::error::Error>> {
    let (rounds, threads) = (number(1), number(2));
    let provider = SdkMeterProvider::builder().build();
    let requests = provider.meter("bench").u64_counter("requests").build();
    let (mut least, mut processor) = (f64::MAX, f64::MAX);
    let mut last = None;
    for _ in 0..rounds {
        let (began, from) = (Instant::now(), clock());
        thread::scope(|scope| {
            let hands = (0..threads).map(|_| {
                scope.spawn(|| {
                    for _ in 0..TIMES {
                        let attributes = [
                            KeyValue::new("attribute.0", black_box("value 0")),
                            KeyValue::new("attribute.1", black_box("value 0")),
                            KeyValue::new("attribute.2", black_box("value 0")),
                            KeyValue::new("attribute.3", black_box("value 0")),
                        ];
                        requests.add(1, &attributes);
                    }
                })
            });
            let hands: Vec<_> = hands.collect();
            // (by each one's end: a scope does not wait until the logs of its threads are given up)
            hands.into_iter().for_each(|hand| drop(hand.join()));
        });
        last = Some(provider.collect()?);
        let recordings = (threads * TIMES) as f64;
        least = least.min(began.elapsed().as_nanos() as f64 / recordings);
        processor = processor.min((clock() - from) as f64 * 1e3 / recordings);
    }
    let mut gateway = Gateway::open(0)?;
    gateway.take(last.as_ref().ok_or("no round")?)?;
    let table = gateway.table(&kotskhin::Ask::stream(&gateway.streams()?, 0)?)?;
    let wanted = (rounds * threads * TIMES).to_string();
    if provider.refused() != 0 || !table.trim_end().ends_with(&wanted) {
        return Err(format!("not {wanted}:\n{table}").into());
    }
    println!(
        "{:<55} {least:7.1} {processor:7.1}",
        format!("Rust: u64_counter, {threads} threads")
    );
    Ok(())
}
