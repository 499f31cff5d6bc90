//! The same of the crate `prometheus`, whose labels are its attributes.
//!
//!     bench-prometheus ROUNDS [threads|beside THREADS]
use prometheus::{
    exponential_buckets, HistogramOpts, HistogramVec, IntCounter, IntCounterVec, Opts,
};
use std::env;
use std::hint::black_box;
use std::thread;
use std::time::Instant;

const TIMES: usize = 400_000;
const THREADS: usize = 4;
const KEYS: [&str; 4] = ["attribute_0", "attribute_1", "attribute_2", "attribute_3"];
const VALUES: [&str; 4] = ["value 0"; 4];

fn rounds() -> usize {
    let first = env::args().nth(1);
    first.and_then(|word| word.parse().ok()).unwrap_or(25)
}

fn tell(name: &str, recordings: usize, mut run: impl FnMut()) {
    let mut least = f64::MAX;
    for _ in 0..rounds() {
        let began = Instant::now();
        run();
        least = least.min(began.elapsed().as_nanos() as f64 / recordings as f64);
    }
    println!("{name:<55} {least:7.1}");
}

fn main() -> prometheus::Result<()> {
    let requests = IntCounterVec::new(Opts::new("requests", "requests"), &KEYS)?;
    let buckets = exponential_buckets(1.0, 2.0, 15)?;
    let sizes = HistogramVec::new(HistogramOpts::new("sizes", "sizes").buckets(buckets), &KEYS)?;
    let (bound, bound_sizes) = (
        requests.with_label_values(&VALUES),
        sizes.with_label_values(&VALUES),
    );
    if let Some(threads) = env::args().nth(3) {
        beside(&requests, threads.parse().unwrap_or(1));
        return Ok(());
    }
    if env::args().len() > 2 {
        by_threads(&requests, &bound);
        return Ok(());
    }
    tell(
        "prometheus: 4 labels, looked up by their values",
        TIMES,
        || {
            for _ in 0..TIMES {
                requests.with_label_values(black_box(&VALUES)).inc();
            }
        },
    );
    tell("prometheus: 4 labels, a held counter", TIMES, || {
        for _ in 0..TIMES {
            black_box(&bound).inc();
        }
    });
    tell(
        "prometheus: 4 labels, a histogram, looked up",
        TIMES,
        || {
            for _ in 0..TIMES {
                sizes.with_label_values(black_box(&VALUES)).observe(1.0);
            }
        },
    );
    tell("prometheus: 4 labels, a held histogram", TIMES, || {
        for _ in 0..TIMES {
            black_box(&bound_sizes).observe(1.0);
        }
    });
    Ok(())
}

fn by_threads(requests: &IntCounterVec, bound: &IntCounter) {
    for (name, is_held) in [("looked up", false), ("a held counter", true)] {
        tell(
            &format!("prometheus: 4 labels, {name}, 4 threads"),
            THREADS * TIMES,
            || {
                thread::scope(|scope| {
                    for _ in 0..THREADS {
                        scope.spawn(|| {
                            for _ in 0..TIMES {
                                match is_held {
                                    true => black_box(&bound).inc(),
                                    false => requests.with_label_values(black_box(&VALUES)).inc(),
                                }
                            }
                        });
                    }
                });
            },
        );
    }
}

extern "C" {
    /// How long processors ran this process so far, in microseconds.
    fn clock() -> i64;
}

/// By so many threads, as otel.py asks: by the clock, and of processors.
fn beside(requests: &IntCounterVec, threads: usize) {
    let (mut least, mut processor) = (f64::MAX, f64::MAX);
    for _ in 0..rounds() {
        let (began, from) = (Instant::now(), unsafe { clock() });
        thread::scope(|scope| {
            for _ in 0..threads {
                scope.spawn(|| {
                    for _ in 0..TIMES {
                        requests.with_label_values(black_box(&VALUES)).inc();
                    }
                });
            }
        });
        let recordings = (threads * TIMES) as f64;
        least = least.min(began.elapsed().as_nanos() as f64 / recordings);
        processor = processor.min((unsafe { clock() } - from) as f64 * 1e3 / recordings);
    }
    let name = format!("prometheus: with_label_values, {threads} threads");
    println!("{name:<55} {least:7.1} {processor:7.1}");
}
