//! Processes that fork amid threads that record: the child of a provider, of the provider of a whole program.
use kotskhin::metrics::{
    Counter, ExportError, KeyValue, PeriodicReader, Refusal, SdkError, SdkMeterProvider, global,
};
use kotskhin::{Ask, Error, Export, Gateway};
use std::panic::{AssertUnwindSafe, catch_unwind};
use std::process;
use std::sync::atomic::{AtomicBool, AtomicU64, Ordering};
use std::sync::{Arc, Mutex};
use std::thread;
use std::time::{Duration, Instant};

// SAFETY: as POSIX declares them.
unsafe extern "C" {
    safe fn fork() -> i32;
    unsafe fn waitpid(process: i32, status: *mut i32, options: i32) -> i32;
    safe fn alarm(seconds: u32) -> u32;
    safe fn _exit(status: i32) -> !;
}

/// How long a child has: it is killed then.
const SECONDS: u32 = 60;
const CHILDREN: usize = 60;
const SHORT: Duration = Duration::from_millis(1);
/// What waits for nothing has this time: less than a reader's timeout of half a minute.
const LONG: Duration = Duration::from_secs(20);

/// Children of two tests at a time would be of each other's threads.
static ONE: Mutex<()> = Mutex::new(());

/// Runs something in a child, and gives its status: 0 where all that it checks holds, and else the number of the first that does not.
fn in_child(call: impl FnOnce() -> Result<(), i32>) -> i32 {
    match fork() {
        0 => {
            alarm(SECONDS);
            let called = catch_unwind(AssertUnwindSafe(call));
            _exit(called.map_or(255, |result| result.err().unwrap_or(0)))
        }
        child => {
            let mut status = -1;
            // SAFETY: the place is ours.
            let waited = unsafe { waitpid(child, &mut status, 0) };
            assert_eq!(waited, child);
            status
        }
    }
}

fn check(number: i32, holds: bool) -> Result<(), i32> {
    if holds { Ok(()) } else { Err(number) }
}

fn is_forked<T>(told: Result<T, SdkError>) -> bool {
    matches!(told, Err(SdkError::Refused(Error::Forked)))
}

/// Runs children one after another, as threads do something again and again: the first status that is none of success, or 0.
fn amid(record: &(dyn Fn(i64) + Sync), mut child: impl FnMut(usize) -> Result<(), i32>) -> i32 {
    let ends = AtomicBool::new(false);
    thread::scope(|scope| {
        for of in 0..3 {
            let ends = &ends;
            scope.spawn(move || {
                let mut turn = of;
                while !ends.load(Ordering::Relaxed) {
                    record(turn);
                    turn += 3;
                }
            });
        }
        let mut children = (0..CHILDREN).map(|turn| {
            thread::sleep(SHORT);
            in_child(|| child(turn))
        });
        let told = children.find(|status| *status != 0);
        ends.store(true, Ordering::Relaxed);
        told.unwrap_or(0)
    })
}

fn total(export: &Export) -> Result<i128, Error> {
    let mut gateway = Gateway::open(1)?;
    gateway.take(export)?;
    let rows = gateway.rows(&Ask::sum("app", "requests", "", true)?)?;
    Ok(rows.row(0)?.sum().unwrap_or_default())
}

struct Parent {
    provider: SdkMeterProvider,
    told: Arc<AtomicU64>,
    requests: Counter<u64>,
}

impl Parent {
    fn start() -> Parent {
        let told = Arc::new(AtomicU64::new(0));
        let hook = Arc::clone(&told);
        let exporter = |_: &Export| Ok::<(), ExportError>(());
        let reader = PeriodicReader::builder(exporter).with_interval(SHORT);
        let provider = SdkMeterProvider::builder()
            .with_reader(reader.build())
            .with_cache(50)
            .with_log(64)
            .on_refused(move |refusal: &Refusal| {
                if refusal.why == Error::Forked {
                    hook.fetch_add(1, Ordering::Relaxed);
                }
            })
            .build();
        let requests = provider.meter("app").u64_counter("requests").build();
        Parent {
            provider,
            told,
            requests,
        }
    }

    /// What a child finds: all is refused by name, and nothing is waited for.
    fn look(&self) -> Result<(), i32> {
        let began = Instant::now();
        // (this thread had a log: what has room there stays there)
        (0..100).for_each(|n| self.requests.add(1, &[KeyValue::new("n", n)]));
        let kept = self.provider.refused();
        check(1, is_forked(self.provider.collect()))?;
        check(2, is_forked(self.provider.force_flush()))?;
        check(3, is_forked(self.provider.shutdown()))?;
        check(4, is_forked(self.provider.close()))?;
        check(5, is_forked(self.provider.start()))?;
        let requests = self.requests.clone();
        let recorded = thread::spawn(move || (0..7).for_each(|_| requests.add(1, &[])));
        check(6, recorded.join().is_ok())?;
        let meter = self.provider.meter("app");
        meter.i64_gauge("late").build().record(1, &[]);
        check(7, self.provider.refused() == kept + 8)?;
        check(8, self.told.load(Ordering::Relaxed) == 1)?;
        check(9, self.provider.logs() == 0 && self.provider.cached() == 0)?;
        check(10, began.elapsed() < LONG)
    }
}

/// A provider of the child's own, which brings what it is to bring.
fn begin_anew(parent: u128) -> Result<(), i32> {
    let brought = Arc::new(AtomicU64::new(0));
    let sum = Arc::clone(&brought);
    let exporter = move |export: &Export| -> Result<(), ExportError> {
        sum.store(u64::try_from(total(export)?)?, Ordering::Relaxed);
        Ok(())
    };
    let provider = SdkMeterProvider::builder()
        .with_periodic_exporter(exporter)
        .build();
    check(20, provider.resource().instance() != parent)?;
    let requests = provider.meter("app").u64_counter("requests").build();
    requests.add(3, &[]);
    let other = requests.clone();
    check(21, thread::spawn(move || other.add(4, &[])).join().is_ok())?;
    check(22, provider.shutdown().is_ok())?;
    check(23, brought.load(Ordering::Relaxed) == 7)
}

#[test]
fn a_provider_is_refused_in_a_child() {
    let _one = ONE.lock();
    let mut parent = Some(Parent::start());
    let requests = parent.as_ref().map(|of| of.requests.clone());
    let depth = parent
        .as_ref()
        .map(|of| of.provider.meter("app").i64_gauge("depth").build());
    let (Some(requests), Some(depth)) = (requests, depth) else {
        panic!("there is a parent");
    };
    requests.add(1, &[]);
    let record = |turn: i64| {
        requests.add(1, &[KeyValue::new("n", turn % 70)]);
        requests.add(1, &[KeyValue::new("host", format!("host {}", turn % 30))]);
        depth.record(turn, &[]);
    };
    let status = amid(&record, |turn| {
        let own = parent.take().ok_or(254)?;
        own.look()?;
        let (began, instance) = (Instant::now(), own.provider.resource().instance());
        drop(own);
        check(11, began.elapsed() < LONG)?;
        begin_anew(instance)?;
        // (one in two ends as programs do)
        if turn % 2 == 0 {
            process::exit(0);
        }
        Ok(())
    });
    assert_eq!(status, 0, "{}", status >> 8);
    // (the parent is as it was)
    let parent = parent.expect("it is here");
    assert_eq!(parent.provider.refused(), 0);
    assert!(parent.provider.shutdown().is_ok());
}

/// One that nothing started has an identity all the same.
#[test]
fn a_provider_that_nothing_started_is_refused_in_a_child() {
    let _one = ONE.lock();
    let provider = SdkMeterProvider::builder().build();
    let requests = provider.meter("app").u64_counter("requests").build();
    let status = in_child(|| {
        requests.add(1, &[]);
        check(1, provider.refused() == 1)?;
        check(2, is_forked(provider.start()))?;
        check(3, is_forked(provider.close()))
    });
    assert_eq!(status >> 8, 0);
    requests.add(1, &[]);
    assert_eq!(provider.refused(), 0);
}

/// A log that filled up is told, and what a thread leaves at its end is not waited for.
#[test]
fn a_log_from_before_is_of_nobody_in_a_child() {
    let _one = ONE.lock();
    let provider = SdkMeterProvider::builder().with_log(10).build();
    let requests = provider.meter("app").u64_counter("requests").build();
    requests.add(1, &[]);
    let mut whole = Some((provider.clone(), requests));
    let status = in_child(|| {
        let (provider, requests) = whole.take().ok_or(254)?;
        (0..30).for_each(|_| requests.add(1, &[]));
        check(1, provider.refused() == 21)
    });
    assert_eq!(status, 0);
    assert_eq!(
        provider
            .collect()
            .map_err(|_| Error::Closed)
            .and_then(|rows| total(&rows)),
        Ok(1)
    );
}

#[test]
fn the_provider_of_a_program_is_set_anew_in_a_child() {
    let _one = ONE.lock();
    let parent = SdkMeterProvider::builder().build();
    global::set_meter_provider(parent.clone());
    let ask = |_| global::set_meter_provider(global::meter_provider());
    let status = amid(&ask, |_| {
        let provider = SdkMeterProvider::builder().build();
        global::set_meter_provider(provider.clone());
        let meter = global::meter("app");
        meter.u64_counter("requests").build().add(7, &[]);
        let made = provider.collect().map_err(|_| 1)?;
        check(2, total(&made) == Ok(7))
    });
    assert_eq!(status, 0, "{}", status >> 8);
    let status = in_child(|| {
        let requests = global::meter("app").u64_counter("requests").build();
        requests.add(1, &[]);
        check(1, parent.refused() == 1)
    });
    assert_eq!(status, 0);
}
