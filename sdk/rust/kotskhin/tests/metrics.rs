//! OpenTelemetry's names: what is recorded, what is refused and told, threads with exact totals, bounds of memory.
#![forbid(unsafe_code)]
mod common;
use common::{Told, of_requests, requests, rows, total};
use kotskhin::metrics::{Counter, KeyValue, Meter, Resource, SdkError, SdkMeterProvider, global};
use kotskhin::{Ask, Error, OwnedValue, Total, default_bounds};
use std::cell::RefCell;
use std::error::Error as AnyError;
use std::sync::{Arc, Barrier, Mutex, PoisonError};
use std::thread;

type Done = Result<(), Box<dyn AnyError>>;

fn shop() -> Resource {
    Resource::builder()
        .with_service_name("shop")
        .with_service_instance(7)
        .build()
}

fn provider() -> SdkMeterProvider {
    SdkMeterProvider::builder().with_resource(shop()).build()
}

#[test]
fn every_instrument_records() -> Done {
    let provider = provider();
    let meter = provider.meter("app");
    let open = meter
        .i64_up_down_counter("open")
        .with_description("connections")
        .build();
    let (depth, room) = (
        meter.i64_gauge("depth").build(),
        meter.u64_gauge("room").build(),
    );
    let size = meter.u64_histogram("size").with_unit("By").build();
    let requests = requests(&provider);
    let set = [
        KeyValue::new("route", "/"),
        KeyValue::new("status", 200),
        KeyValue::new("cached", true),
        KeyValue::new(String::from("host"), format!("host {}", 1)),
    ];
    requests.add(3, &set);
    requests.add(4, &set);
    open.add(5, &[]);
    open.add(-6, &[]);
    depth.record(9, &[]);
    depth.record(-4, &[]);
    room.record(8, &[]);
    size.record(10, &[]);
    size.record(20_000, &[]);
    let told = rows(&provider, &of_requests()?)?;
    let pair = |key: &str, value: OwnedValue| (key.to_owned(), value);
    assert_eq!(
        told[0].attributes,
        [
            pair("cached", OwnedValue::Truth(true)),
            pair("host", OwnedValue::Text("host 1".into())),
            pair("route", OwnedValue::Text("/".into())),
            pair("status", OwnedValue::Whole(200)),
        ]
    );
    assert_eq!(total(&told), 7);
    assert_eq!(
        rows(&provider, &Ask::sum("app", "open", "", false)?)?[0].total,
        Total::Sum(-1)
    );
    for (name, wanted) in [("depth", -4), ("room", 8)] {
        let told = rows(&provider, &Ask::gauge("app", name, "")?)?;
        assert!(matches!(told[0].total, Total::Gauge(Some((_, value))) if value == wanted));
    }
    let ask = Ask::histogram("app", "size", "By", &default_bounds())?;
    match &rows(&provider, &ask)?[0].total {
        Total::Histogram {
            count: 2,
            sum: 20_010,
            range: Some((10, 20_000)),
            ..
        } => (),
        other => panic!("{other:?}"),
    }
    assert_eq!((provider.refused(), provider.logs()), (0, 1));
    provider.shutdown()?;
    Ok(())
}

#[test]
fn one_name_in_two_scopes_is_two_instruments() -> Done {
    let provider = provider();
    let library = provider.meter("library");
    let other = library.u64_counter("requests").with_unit("1").build();
    requests(&provider).add(3, &[]);
    other.add(4, &[]);
    for (scope, wanted) in [("app", 3), ("library", 4)] {
        let ask = Ask::sum(scope, "requests", "1", true)?;
        assert_eq!(total(&rows(&provider, &ask)?), wanted);
    }
    Ok(())
}

#[test]
fn a_late_instrument_is_told_by_name_and_place() -> Done {
    let told = Told::default();
    let provider = SdkMeterProvider::builder().on_refused(told.hook()).build();
    let first = requests(&provider);
    assert!(matches!(
        provider.collect(),
        Err(SdkError::Refused(Error::NotStarted))
    ));
    first.add(1, &[]);
    let line = line!() + 1;
    let late = provider.meter("app").u64_counter("late").build();
    late.add(5, &[]);
    // (the same again is the same, also when it is late)
    requests(&provider).add(2, &[]);
    assert_eq!(
        told.all(),
        [
            ("late".into(), Error::DeclaredLate, 0),
            ("late".into(), Error::DeclaredLate, 1)
        ]
    );
    let place = format!("DeclaredLate: 'late', declared at {}:{line}:", file!());
    assert!(
        told.shown().iter().all(|line| line.starts_with(&place)),
        "{:?}",
        told.shown()
    );
    assert_eq!(
        (
            provider.refused(),
            total(&rows(&provider, &of_requests()?)?)
        ),
        (1, 3)
    );
    Ok(())
}

#[test]
fn what_is_refused_is_counted_and_told() -> Done {
    let told = Told::default();
    let provider = SdkMeterProvider::builder().on_refused(told.hook()).build();
    let (requests, most) = (requests(&provider), (1 << 63) - 1);
    requests.add(1 << 63, &[]);
    requests.add(1, &[KeyValue::new("", 1)]);
    requests.add(most, &[]);
    requests.add(1, &[]);
    requests.add(2, &[]);
    assert_eq!(
        provider.refused(),
        2,
        "logs are looked at once they are taken in"
    );
    assert_eq!(total(&rows(&provider, &of_requests()?)?), i128::from(most));
    provider.shutdown()?;
    requests.add(1, &[]);
    assert!(matches!(
        provider.shutdown(),
        Err(SdkError::AlreadyShutdown)
    ));
    assert!(matches!(provider.collect(), Err(SdkError::AlreadyShutdown)));
    let requests = || String::from("requests");
    assert_eq!(
        told.all(),
        [
            (requests(), Error::ValueTooWide { value: 1 << 63 }, 1),
            (requests(), Error::EmptyKey { pair: 0 }, 1),
            (requests(), Error::Overflow { stream: 0 }, 2),
            (requests(), Error::Closed, 1),
        ]
    );
    assert_eq!(provider.refused(), 5);
    Ok(())
}

#[test]
fn a_value_without_room_is_told_as_a_value() -> Done {
    let told = Told::default();
    let provider = SdkMeterProvider::builder().on_refused(told.hook()).build();
    let (requests, meter) = (requests(&provider), provider.meter("app"));
    let depth = meter.u64_gauge("depth").build();
    let size = meter.u64_histogram("size").with_unit("By").build();
    requests.add(1 << 63, &[]);
    depth.record(1 << 63, &[]);
    size.record(1 << 63, &[]);
    let too_wide = Error::ValueTooWide { value: 1 << 63 };
    let wanted = ["requests", "depth", "size"].map(|name| (name.to_owned(), too_wide, 1));
    assert_eq!(told.all(), wanted);
    assert_eq!(
        too_wide.to_string(),
        "the value 9223372036854775808 is above 2^63 - 1, the greatest that is recorded"
    );
    requests.add((1 << 63) - 1, &[]);
    let rows = rows(&provider, &of_requests()?)?;
    assert_eq!((total(&rows), provider.refused()), ((1 << 63) - 1, 3));
    Ok(())
}

#[test]
fn a_provider_without_recordings_ends() -> Done {
    let told = Told::default();
    let provider = SdkMeterProvider::builder().on_refused(told.hook()).build();
    let requests = requests(&provider);
    assert!(provider.close()?.is_none());
    requests.add(1, &[]);
    provider
        .meter("app")
        .u64_counter("more")
        .build()
        .add(1, &[]);
    assert!(matches!(provider.start(), Err(SdkError::AlreadyShutdown)));
    let closed: Vec<Error> = told.all().into_iter().map(|refusal| refusal.1).collect();
    assert_eq!(closed, [Error::Closed; 3]);
    Ok(())
}

/// Threads that record while others collect, at more sets than are held and than the stream has points for.
#[test]
fn nothing_is_lost_between_threads() -> Done {
    const THREADS: u64 = 6;
    const EACH: u64 = 20_000;
    let told = Told::default();
    let provider = SdkMeterProvider::builder()
        .with_cardinality_limit(300)
        .with_cache(50)
        .with_log(64)
        .on_refused(told.hook())
        .build();
    let requests = requests(&provider);
    let collected = thread::scope(|scope| {
        let recording: Vec<_> = (0..THREADS)
            .map(|of| {
                let requests = &requests;
                scope.spawn(move || {
                    for turn in 0..EACH {
                        let n = i64::try_from((turn * THREADS + of) % 500).unwrap_or(0);
                        requests.add(1, &[KeyValue::new("n", n), KeyValue::new("of", "all")]);
                    }
                })
            })
            .collect();
        let collecting = scope.spawn(|| {
            let mut last = 0;
            for _ in 0..50 {
                let now = rows(&provider, &of_requests()?).map_err(|why| why.to_string());
                let now = now.map_or(0, |rows| total(&rows));
                assert!(now >= last, "{now} is less than {last}");
                last = now;
                thread::yield_now();
            }
            Ok::<i128, Error>(last)
        });
        // (the end of a scope waits for what threads do, and not for what they give up: a thread's log is taken in as it ends)
        assert!(recording.into_iter().all(|thread| thread.join().is_ok()));
        collecting.join()
    });
    assert!(collected.is_ok_and(|result| result.is_ok()));
    let told_rows = rows(&provider, &of_requests()?)?;
    assert_eq!(total(&told_rows), i128::from(THREADS * EACH));
    let limit = Error::CardinalityLimit { limit: 300 };
    let told = (told_rows.len(), told.all(), provider.refused());
    assert_eq!(
        told,
        (301, vec![("requests".into(), limit, 0)], 0),
        "300 sets, and one for the others"
    );
    assert_eq!(
        (provider.cached(), provider.logs()),
        (50, 0),
        "of threads that ended nothing stays"
    );
    Ok(())
}

#[test]
fn threads_that_come_and_go_leave_nothing_behind() -> Done {
    let provider = provider();
    let requests = requests(&provider);
    for _ in 0..500 {
        let requests = requests.clone();
        let recorded = thread::spawn(move || requests.add(1, &[KeyValue::new("route", "/")]));
        assert!(recorded.join().is_ok());
        assert_eq!(provider.logs(), 0);
    }
    assert_eq!(total(&rows(&provider, &of_requests()?)?), 500);
    Ok(())
}

/// How much memory the process has, of the tests beside this one too.
fn megabytes() -> usize {
    let told = std::fs::read_to_string("/proc/self/statm").unwrap_or_default();
    let pages = told.split(' ').nth(1).and_then(|pages| pages.parse().ok());
    pages.map_or(0, |pages: usize| pages * 4 / 1024)
}

#[test]
fn sets_without_end_take_memory_that_has_one() -> Done {
    let provider = SdkMeterProvider::builder()
        .with_cardinality_limit(100)
        .with_cache(100)
        .build();
    let requests = requests(&provider);
    let mut before = 0;
    for user in 0..60_000_i64 {
        let path = format!("/{}/{user}", "long ".repeat(100));
        requests.add(
            1,
            &[KeyValue::new("user", user), KeyValue::new("path", path)],
        );
        if user == 10_000 {
            before = megabytes();
        }
    }
    // (what was recorded comes to 30 MB and more)
    let grown = megabytes().saturating_sub(before);
    assert!(grown < 16, "it grew by {grown} MB");
    let told = rows(&provider, &of_requests()?)?;
    assert_eq!(
        (total(&told), told.len(), provider.cached()),
        (60_000, 101, 100)
    );
    Ok(())
}

/// A text is told by its content, wherever it is: texts of the program, whose places are remembered, and others.
#[test]
fn texts_count_by_their_content_and_not_by_their_place() -> Done {
    let provider = SdkMeterProvider::builder().build();
    let (requests, whole) = (requests(&provider), "route/pay");
    let (front, leaked): (_, &str) = (&whole[..5], Box::leak("route".to_owned().into_boxed_str()));
    for _ in 0..9 {
        for text in ["route", front, leaked] {
            requests.add(1, &[KeyValue::new(text, "/")]);
            requests.add(10, &[KeyValue::new("key", text)]);
        }
        requests.add(1, &[KeyValue::new("route".to_owned(), "/".to_owned())]);
        requests.add(10, &[KeyValue::new("key", "route".to_owned())]);
        requests.add(100, &[KeyValue::new("key", whole)]);
        requests.add(1000, &[KeyValue::new("key", true)]);
        requests.add(2000, &[KeyValue::new("key", 1)]);
        requests.add(4000, &[]);
    }
    let told = rows(&provider, &of_requests()?)?;
    let mut totals: Vec<i128> = told
        .iter()
        .map(|row| total(std::slice::from_ref(row)))
        .collect();
    totals.sort_unstable();
    assert_eq!(totals, [36, 360, 900, 9000, 18000, 36000]);
    assert_eq!(provider.refused(), 0);
    Ok(())
}

/// More sets than a thread remembers the places of.
#[test]
fn sets_that_share_what_a_thread_remembers_are_as_exact() -> Done {
    let provider = SdkMeterProvider::builder().build();
    let (requests, meter) = (requests(&provider), provider.meter("app"));
    let orders = meter.u64_counter("orders").with_unit("1").build();
    for _ in 0..7 {
        for number in 0..1500 {
            requests.add(1, &[KeyValue::new("number", number)]);
            orders.add(2, &[KeyValue::new("number", number)]);
        }
    }
    let told = rows(&provider, &of_requests()?)?;
    assert_eq!((total(&told), told.len()), (7 * 1500, 1500));
    assert!(told.iter().all(|row| total(std::slice::from_ref(row)) == 7));
    let told = rows(&provider, &Ask::sum("app", "orders", "1", true)?)?;
    assert!(
        told.len() == 1500
            && told
                .iter()
                .all(|row| total(std::slice::from_ref(row)) == 14)
    );
    Ok(())
}

/// One set in two orders has one number: what is held does not grow by it, beyond the cache.
#[test]
fn the_order_of_attributes_is_none_of_the_sets() -> Done {
    let provider = provider();
    let requests = requests(&provider);
    let (a, b) = (KeyValue::new("a", 1), KeyValue::new("b", "x"));
    requests.add(1, &[a.clone(), b.clone()]);
    requests.add(2, &[b.clone(), a.clone()]);
    requests.add(4, &[KeyValue::new("a", 5), b, a]);
    let told = rows(&provider, &of_requests()?)?;
    assert_eq!((told.len(), total(&told), provider.cached()), (1, 7, 3));
    Ok(())
}

/// Also where another thread's log came later.
#[test]
fn a_gauge_has_the_last_value_of_any_thread() -> Done {
    let provider = SdkMeterProvider::builder().with_cache(1).build();
    let depth = provider.meter("app").i64_gauge("depth").build();
    let (ready, go) = (Barrier::new(2), Barrier::new(2));
    let value = || -> Result<Total, Box<dyn AnyError>> {
        let told = rows(&provider, &Ask::gauge("app", "depth", "")?)?;
        Ok(told[0].total.clone())
    };
    // (this thread's log came first, and is taken in first)
    depth.record(10, &[]);
    thread::scope(|scope| {
        scope.spawn(|| {
            depth.record(11, &[]);
            depth.record(12, &[KeyValue::new("queue", "b")]);
            let (ready, go) = (&ready, &go);
            ready.wait();
            go.wait();
        });
        ready.wait();
        depth.record(13, &[]);
        let told = value();
        go.wait();
        assert!(matches!(told, Ok(Total::Gauge(Some((_, 13))))), "{told:?}");
    });
    assert_eq!(provider.refused(), 0);
    Ok(())
}

#[test]
fn a_gauge_that_threads_set_in_turn_has_the_last_value() -> Done {
    let provider = SdkMeterProvider::builder().with_cache(1).build();
    let depth = provider.meter("app").i64_gauge("depth").build();
    let last = Mutex::new(0_i64);
    let set = || {
        for _ in 0..25 {
            let mut last = last.lock().unwrap_or_else(PoisonError::into_inner);
            *last += 1;
            depth.record(*last, &[]);
            depth.record(*last, &[KeyValue::new("queue", "b")]);
            drop(last);
            thread::yield_now();
        }
    };
    for round in 1..=20 {
        thread::scope(|scope| {
            let threads: Vec<_> = (0..8).map(|_| scope.spawn(set)).collect();
            assert!(threads.into_iter().all(|thread| thread.join().is_ok()));
        });
        let told = rows(&provider, &Ask::gauge("app", "depth", "")?)?;
        assert_eq!(told.len(), 2);
        for row in told {
            assert!(
                matches!(row.total, Total::Gauge(Some((_, value))) if value == round * 200),
                "{row:?}"
            );
        }
    }
    assert_eq!(provider.refused(), 0);
    Ok(())
}

/// It is called once, and what is refused in it is counted.
#[test]
fn a_hook_that_is_refused_itself_is_not_called_for_that() -> Done {
    let (counter, told) = (
        Arc::<Mutex<Option<Counter<u64>>>>::default(),
        Told::default(),
    );
    let (inner, list) = (Arc::clone(&counter), told.hook());
    let provider = SdkMeterProvider::builder()
        .on_refused(move |refusal| {
            list(refusal);
            let refused = inner.lock().unwrap_or_else(PoisonError::into_inner).clone();
            refused
                .into_iter()
                .for_each(|counter: Counter<u64>| counter.add(u64::MAX, &[]));
        })
        .build();
    let requests = requests(&provider);
    *counter.lock().unwrap_or_else(PoisonError::into_inner) = Some(requests.clone());
    for round in 1..=3 {
        requests.add(u64::MAX, &[]);
        assert_eq!(
            (told.all().len() as u64, provider.refused()),
            (round, 2 * round)
        );
    }
    *counter.lock().unwrap_or_else(PoisonError::into_inner) = None;
    Ok(())
}

#[test]
fn a_hook_may_record_and_may_panic() -> Done {
    let counter: Arc<Mutex<Option<Counter<u64>>>> = Arc::default();
    let inner = Arc::clone(&counter);
    let provider = SdkMeterProvider::builder()
        .on_refused(move |_| {
            let refusals = inner.lock().unwrap_or_else(PoisonError::into_inner).clone();
            refusals
                .into_iter()
                .for_each(|counter: Counter<u64>| counter.add(1, &[]));
            panic!("a hook's own");
        })
        .build();
    let requests = requests(&provider);
    let refusals = provider.meter("app").u64_counter("refusals").build();
    *counter.lock().unwrap_or_else(PoisonError::into_inner) = Some(refusals);
    requests.add(u64::MAX, &[]);
    requests.add(1, &[]);
    assert_eq!(
        total(&rows(&provider, &Ask::sum("app", "refusals", "", true)?)?),
        1
    );
    *counter.lock().unwrap_or_else(PoisonError::into_inner) = None;
    Ok(())
}

/// Records once its thread is over.
struct Late(Counter<u64>);

impl Drop for Late {
    fn drop(&mut self) {
        self.0.add(1, &[]);
    }
}

thread_local! {
    static LATE: RefCell<Vec<Late>> = const { RefCell::new(Vec::new()) };
}

#[test]
fn a_thread_that_ends_may_record_still() -> Done {
    let provider = provider();
    let requests = requests(&provider);
    for is_first in [true, false] {
        let requests = requests.clone();
        let ended = thread::spawn(move || {
            // (which of the thread's things goes first depends on which came first)
            if is_first {
                requests.add(1, &[]);
            }
            LATE.with_borrow_mut(|late| late.push(Late(requests.clone())));
            requests.add(1, &[]);
        });
        assert!(ended.join().is_ok());
    }
    assert_eq!(total(&rows(&provider, &of_requests()?)?), 5);
    Ok(())
}

#[test]
fn one_provider_is_for_all() -> Done {
    let none = global::meter("app").u64_counter("requests").build();
    none.add(1, &[]);
    assert_eq!(global::meter_provider().refused(), 1);
    let provider = provider();
    global::set_meter_provider(provider.clone());
    let meter = global::meter("app");
    meter
        .u64_counter("requests")
        .with_unit("1")
        .build()
        .add(7, &[]);
    assert_eq!(total(&rows(&provider, &of_requests()?)?), 7);
    global::set_meter_provider(SdkMeterProvider::builder().build());
    drop(provider);
    Ok(())
}

#[test]
fn instruments_outlast_their_provider() {
    let told = Told::default();
    let provider = SdkMeterProvider::builder().on_refused(told.hook()).build();
    let requests = requests(&provider);
    let clone = provider.clone();
    drop(provider);
    requests.add(1, &[]);
    assert_eq!(told.all(), []);
    drop(clone);
    requests.add(1, &[]);
    assert_eq!(told.all(), [("requests".into(), Error::Closed, 1)]);
}

fn shared<T: Send + Sync>(_: &T) {}

#[test]
fn all_may_go_to_threads_and_be_shown() {
    let provider = provider();
    let meter: Meter = provider.meter("app");
    let requests = requests(&provider);
    shared(&provider);
    shared(&meter);
    shared(&requests);
    let shown = format!("{provider:?} {meter:?} {requests:?}");
    assert!(
        shown.contains("shop") && shown.contains("requests"),
        "{shown}"
    );
}
