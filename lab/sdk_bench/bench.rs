//! What a recording costs from Rust.
//!
//!     bench ROUNDS [threads]
//!
//! Each line: a name, and the least of the rounds in nanoseconds for each recording; by one thread, or by four.
use kotskhin::{
    Attributes, DEFAULT_LIMIT, Error, HeldNumber, Instruments, Kind, Plan, Recorder, Writer,
};
use std::env;
use std::sync::{Mutex, PoisonError};
use std::thread;
use std::time::Instant;

const TIMES: usize = 400_000;
const THREADS: usize = 4;
/// How many recordings a recorder has before it is taken in.
const LOG: usize = 1 << 12;

type Done = Result<(), Error>;

fn rounds() -> usize {
    let first = env::args().nth(1);
    first.and_then(|word| word.parse().ok()).unwrap_or(25)
}

fn tell(name: &str, recordings: usize, mut run: impl FnMut() -> Done) -> Done {
    let mut least = f64::MAX;
    for _ in 0..rounds() {
        let began = Instant::now();
        run()?;
        least = least.min(began.elapsed().as_nanos() as f64 / recordings as f64);
    }
    println!("{name:<55} {least:7.1}");
    Ok(())
}

fn times(recordings: usize, mut record: impl FnMut() -> Done) -> impl FnMut() -> Done {
    move || (0..recordings).try_for_each(|_| record())
}

/// The same by each of as many threads.
fn by_threads<T: Send>(hands: &mut [T], record: impl Fn(&mut T) -> Done + Sync) -> Done {
    let record = &record;
    thread::scope(|scope| {
        let started: Vec<_> = hands
            .iter_mut()
            .map(|hand| scope.spawn(move || (0..TIMES).try_for_each(|_| record(hand))))
            .collect();
        started
            .into_iter()
            .try_for_each(|thread| thread.join().expect("it ends"))
    })
}

fn four() -> Result<Attributes, Error> {
    const KEYS: [&str; 4] = ["attribute.0", "attribute.1", "attribute.2", "attribute.3"];
    Attributes::new(KEYS.map(|key| (key, "value 0")))
}

fn by_one(writer: &mut Writer, set: &Attributes, number: HeldNumber) -> Done {
    tell(
        "Rust: 4 attributes, a held set, Writer",
        TIMES,
        times(TIMES, || writer.measure(0, set, 1)),
    )?;
    tell(
        "Rust: 4 attributes, by number, Writer",
        TIMES,
        times(TIMES, || writer.measure_held(number, 1)),
    )?;
    let mut recorder = Recorder::new(LOG)?;
    tell(
        "Rust: 4 attributes, by number, Recorder, taken in",
        TIMES,
        times(TIMES, || match recorder.measure_held(number, 1) {
            Err(Error::RecorderFull) => {
                writer.take_in(&mut recorder, usize::MAX)?;
                recorder.measure_held(number, 1)
            }
            told => told,
        }),
    )
}

/// As many threads share it by turns.
fn by_lock(writer: &Mutex<Writer>, set: &Attributes, number: HeldNumber) -> Done {
    let lock = || writer.lock().unwrap_or_else(PoisonError::into_inner);
    tell(
        "Rust: 4 attributes, a held set, behind a Mutex",
        TIMES,
        times(TIMES, || lock().measure(0, set, 1)),
    )?;
    tell(
        "Rust: 4 attributes, by number, behind a Mutex",
        TIMES,
        times(TIMES, || lock().measure_held(number, 1)),
    )?;
    tell(
        "Rust: 4 attributes, a held set, a histogram",
        TIMES,
        times(TIMES, || lock().measure(1, set, 1)),
    )?;
    tell(
        "Rust: 4 attributes, made anew, behind a Mutex",
        TIMES / 8,
        times(TIMES / 8, || lock().measure(0, &four()?, 1)),
    )
}

fn by_recorders(writer: &Mutex<Writer>, number: HeldNumber) -> Done {
    let lock = || writer.lock().unwrap_or_else(PoisonError::into_inner);
    let recorders: Result<Vec<_>, _> = (0..THREADS).map(|_| Recorder::new(LOG)).collect();
    let mut recorders = recorders?;
    tell(
        "Rust: 4 attributes, by number, 4 threads by recorders",
        THREADS * TIMES,
        || {
            by_threads(&mut recorders, |recorder| {
                match recorder.measure_held(number, 1) {
                    Err(Error::RecorderFull) => {
                        lock().take_in(recorder, usize::MAX)?;
                        recorder.measure_held(number, 1)
                    }
                    told => told,
                }
            })
        },
    )
}

fn by_seats(writer: Writer, number: HeldNumber) -> Done {
    let mut seats = vec![writer.share().map_err(|(_, error)| error)?];
    while seats.len() < THREADS {
        let next = seats[0].split()?;
        seats.push(next);
    }
    tell(
        "Rust: 4 attributes, by number, 4 threads by seats",
        THREADS * TIMES,
        || {
            by_threads(&mut seats, |seat| {
                loop {
                    match seat.measure_held(number, 1) {
                        Err(Error::Busy) => thread::yield_now(),
                        told => return told,
                    }
                }
            })
        },
    )
}

fn main() -> Done {
    let mut instruments = Instruments::new();
    instruments.add("bench", "requests", "1", Kind::Counter)?;
    instruments.add("bench", "sizes", "1", Kind::Histogram)?;
    let plan = Plan::build(&instruments, DEFAULT_LIMIT)?;
    let mut writer = Writer::start(&plan, "bench", 1, 100)?;
    let set = four()?;
    let number = writer.hold(0, &set)?;
    if env::args().len() < 3 {
        by_one(&mut writer, &set, number)?;
        return by_lock(&Mutex::new(writer), &set, number);
    }
    let writer = Mutex::new(writer);
    by_recorders(&writer, number)?;
    let mut hands = [&writer; THREADS];
    tell(
        "Rust: 4 attributes, by number, 4 threads behind a Mutex",
        THREADS * TIMES,
        || {
            by_threads(&mut hands, |hand| {
                let mut writer = hand.lock().unwrap_or_else(PoisonError::into_inner);
                writer.measure_held(number, 1)
            })
        },
    )?;
    let writer = writer.into_inner().unwrap_or_else(PoisonError::into_inner);
    by_seats(writer, number)
}
