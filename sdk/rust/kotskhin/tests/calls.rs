//! Refusals, threads and tables, in safe code.
#![forbid(unsafe_code)]
use kotskhin::{
    Aggregation, Archive, Ask, AttributeValue, Attributes, DEFAULT_LIMIT, Envelope, Error, Export,
    ExportHead, Gateway, GatewayHead, Instruments, Kind, Message, OwnedValue, Plan, Recorder, Row,
    Seat, Shape, Stream, Taken, Taking, Total, View, Views, Writer, default_bounds,
};
use std::sync::Mutex;
use std::thread;

fn plan() -> Result<Plan, Error> {
    let mut instruments = Instruments::new();
    instruments.add("app", "requests", "1", Kind::Counter)?;
    Plan::build(&instruments, DEFAULT_LIMIT)
}

fn writer(instance: u128) -> Result<Writer, Error> {
    Writer::start(&plan()?, "shop", instance, 100)
}

fn requests() -> Result<Ask, Error> {
    Ask::sum("app", "requests", "1", true)
}

/// What the points of a row come to.
fn total(gateway: &Gateway, ask: &Ask, number: usize) -> Result<Total, Error> {
    Ok(gateway.rows(ask)?.row(number)?.total)
}

const TOTAL_OF_7: &str = "attributes  points  conflicts  total\n{}               1          0  7\n";

#[test]
fn one_export_is_for_many_gateways() -> Result<(), Error> {
    let (mut writer, none) = (writer(1)?, Attributes::none()?);
    writer.measure(0, &none, 3)?;
    writer.measure(0, &none, 4)?;
    let export = writer.collect(200)?;
    let (mut one, mut other) = (Gateway::open(1)?, Gateway::open(2)?);
    assert_eq!(one.take(&export), Ok(Taking::Taken(1)));
    assert_eq!(one.take(&export), Ok(Taking::Stale));
    assert_eq!(other.take(&export).map(Taking::changed), Ok(1));
    assert_eq!(other.take(&export).map(Taking::changed), Ok(0));
    assert_eq!(other.merge(&one), Ok(0));
    assert_eq!(one.table(&requests()?)?, TOTAL_OF_7);
    assert_eq!(other.table(&requests()?)?, TOTAL_OF_7);
    let rows = one.rows(&requests()?)?;
    let row = rows.row(0)?;
    assert_eq!((rows.count(), rows.all()?.len()), (Ok(1), 1));
    assert_eq!((row.points, row.conflicts, row.sum()), (1, 0, Some(7)));
    assert_eq!((row.attributes, row.total), (vec![], Total::Sum(7)));
    assert_eq!(rows.row(1), Err(Error::NoRow));
    assert_eq!(one.same(&other), Ok(true));
    assert_eq!(one.same(&one), Ok(true));
    assert_eq!(one.head()?.conflicts, 0);
    assert_eq!(one.newest("shop", 1, 100), Ok(200));
    assert_eq!(one.newest("shop", 2, 100), Err(Error::NoPoint));
    Ok(())
}

#[test]
fn refusals_are_told_and_change_nothing() -> Result<(), Error> {
    let (mut writer, none) = (writer(1)?, Attributes::none()?);
    writer.measure(0, &none, 7)?;
    assert_eq!(writer.measure(1, &none, 1), Err(Error::NoInstrument));
    assert_eq!(writer.measure(0, &none, -1), Err(Error::Negative));
    assert_eq!(
        writer.measure(0, &none, i64::MAX),
        Err(Error::Overflow { stream: 0 })
    );
    assert_eq!(
        writer.collect(100).err(),
        Some(Error::TimeNotAfter { last: 100 })
    );
    assert_eq!(
        writer.restart(100),
        Err(Error::StartNotAfter { start: 100 })
    );
    let mut gateway = Gateway::open(1)?;
    gateway.take(&writer.collect(200)?)?;
    assert_eq!(gateway.table(&requests()?)?, TOTAL_OF_7);
    gateway.take(&writer.shutdown(300)?)?;
    assert_eq!(gateway.table(&requests()?)?, TOTAL_OF_7);
    assert_eq!(writer.measure(0, &none, 1), Err(Error::Closed));
    writer.restart(300)?;
    writer.measure(0, &none, 1)?;
    let pairs = [("a", "v"), ("", "v")];
    assert_eq!(
        Attributes::new(pairs).err(),
        Some(Error::EmptyKey { pair: 1 })
    );
    let mut bad = Instruments::new();
    bad.add("app", "fine", "1", Kind::Counter)?;
    bad.add("app", "9 lives", "1", Kind::Counter)?;
    assert_eq!(
        Plan::build(&bad, 1).err(),
        Some(Error::BadName { instrument: 1 })
    );
    assert_eq!(
        Plan::build(&Instruments::new(), 0).err(),
        Some(Error::BadLimit)
    );
    let mut reserved = Instruments::new();
    reserved.add("app", "fine", "1", Kind::Counter)?;
    reserved.add("kotskhin.archive", "adopted", "ns", Kind::Gauge)?;
    let why = Plan::build(&reserved, 1).expect_err("it has the scope of tombstones");
    assert_eq!(why, Error::ReservedScope { instrument: 1 });
    assert_eq!((why.name(), why.code()), ("ReservedScope", Some(38)));
    assert_eq!(why.places(), [("instrument", 1)]);
    assert_eq!(
        why.to_string(),
        "the scope of an instrument is that of tombstones (instrument 1)"
    );
    Ok(())
}

#[test]
fn attributes_are_sets_and_writers_hold_them() -> Result<(), Error> {
    let mut writer = writer(1)?;
    let one = Attributes::new([
        ("route", AttributeValue::Text("/")),
        ("status", AttributeValue::Whole(200)),
        ("cached", AttributeValue::Truth(true)),
    ])?;
    let same = Attributes::new([
        ("cached", AttributeValue::Truth(true)),
        ("status", AttributeValue::Whole(200)),
        ("route", AttributeValue::Text("/")),
    ])?;
    let held = writer.hold(0, &same)?;
    assert_eq!(writer.hold(0, &one), Ok(held));
    writer.measure(0, &one, 3)?;
    writer.measure_held(held, 4)?;
    let mut gateway = Gateway::open(1)?;
    gateway.take(&writer.collect(200)?)?;
    let table = gateway.table(&requests()?)?;
    assert_eq!(table.lines().count(), 2, "{table}");
    assert!(table.ends_with("  7\n"), "{table}");
    let mut by_route = requests()?;
    by_route.keep(["route"])?;
    by_route.only([("status", 200)])?;
    by_route.service("shop")?;
    assert!(
        gateway.table(&by_route)?.contains("{route=\"/\"}"),
        "{}",
        gateway.table(&by_route)?
    );
    let mut of_others = requests()?;
    of_others.service("bank")?;
    assert_eq!(gateway.table(&of_others)?.lines().count(), 1);
    Ok(())
}

#[test]
fn views_make_streams_of_their_own() -> Result<(), Error> {
    let mut instruments = Instruments::new();
    instruments.add("app", "latency", "ms", Kind::Histogram)?;
    let mut by_route = View::of_name("latency")?;
    by_route.kind(Kind::Histogram)?;
    by_route.scope("app")?;
    by_route.rename("latency.by.route")?;
    by_route.keep(["route"])?;
    by_route.aggregate(Aggregation::Buckets(&[10, 100]))?;
    let mut views = Views::new();
    views.add(&by_route)?;
    let plan = Plan::with_views(&instruments, &views, DEFAULT_LIMIT)?;
    let mut writer = Writer::start(&plan, "shop", 1, 100)?;
    for (route, status) in [("/", 200), ("/", 404), ("/cart", 200)] {
        let pairs = [
            ("route", AttributeValue::Text(route)),
            ("status", AttributeValue::Whole(status)),
        ];
        writer.measure(0, &Attributes::new(pairs)?, status)?;
    }
    let mut gateway = Gateway::open(1)?;
    gateway.take(&writer.collect(200)?)?;
    let ask = Ask::histogram("app", "latency.by.route", "ms", &[10, 100])?;
    assert_eq!(
        gateway.rows(&ask)?.count(),
        Ok(2),
        "{}",
        gateway.table(&ask)?
    );

    let mut bad = View::of_every()?;
    bad.rename("one.for.all")?;
    let mut refused = Views::new();
    refused.add(&by_route)?;
    refused.add(&bad)?;
    assert_eq!(
        Plan::with_views(&instruments, &refused, 1).err(),
        Some(Error::WildcardRename { view: 1 })
    );
    Ok(())
}

// Threads share one writer behind Rust's lock, each with attributes of its own or with a set that the writer holds.
#[test]
fn threads_share_a_writer_behind_a_lock() -> Result<(), Error> {
    let mut shared = writer(1)?;
    let held = shared.hold(0, &Attributes::none()?)?;
    let (shared, mut gateway) = (Mutex::new(shared), Gateway::open(1)?);
    let lock = || shared.lock().expect("no call panics");
    thread::scope(|scope| {
        for _ in 0..4 {
            scope.spawn(|| {
                let none = Attributes::none().expect("memory");
                for _ in 0..12_500 {
                    lock().measure(0, &none, 1).expect("room");
                    lock().measure_held(held, 1).expect("room");
                }
            });
        }
        for time in 200..210 {
            let export = lock().collect(time).expect("memory");
            gateway.take(&export).expect("memory");
        }
    });
    gateway.take(&lock().shutdown(1000)?)?;
    let table = gateway.table(&requests()?)?;
    assert!(table.ends_with("  1          0  100000\n"), "{table}");
    assert_eq!(lock().measure_held(held, 1), Err(Error::Closed));
    Ok(())
}

// Each kind of instrument at one set, the first value at the set itself and the later ones at its number.
#[test]
fn instruments_are_held_at_sets() -> Result<(), Error> {
    let mut instruments = Instruments::new();
    for (name, unit, kind) in [
        ("requests", "1", Kind::Counter),
        ("open", "1", Kind::UpDown),
        ("depth", "1", Kind::Gauge),
        ("size", "By", Kind::Histogram),
    ] {
        instruments.add("app", name, unit, kind)?;
    }
    let plan = Plan::build(&instruments, DEFAULT_LIMIT)?;
    let mut writer = Writer::start(&plan, "shop", 1, 100)?;
    let set = Attributes::new([("route", "/")])?;
    let held = (0..4).map(|number| writer.hold(number, &set));
    let held = held.collect::<Result<Vec<_>, _>>()?;
    writer.measure(0, &set, 1)?;
    for value in [1, 2, 3] {
        for (number, value) in held.iter().zip([value, -value, value, value]) {
            writer.measure_held(*number, value)?;
        }
    }
    let mut gateway = Gateway::open(1)?;
    gateway.take(&writer.collect(200)?)?;
    assert_eq!(total(&gateway, &requests()?, 0)?, Total::Sum(7));
    let open = Ask::sum("app", "open", "1", false)?;
    assert_eq!(total(&gateway, &open, 0)?, Total::Sum(-6));
    let depth = Ask::gauge("app", "depth", "1")?;
    assert_eq!(total(&gateway, &depth, 0)?, Total::Gauge(Some((200, 3))));
    // OpenTelemetry's bounds, which a histogram has where no view says others.
    let bounds = [
        0, 5, 10, 25, 50, 75, 100, 250, 500, 750, 1000, 2500, 5000, 7500, 10000,
    ];
    let sizes = Ask::histogram("app", "size", "By", &bounds)?;
    let mut buckets = vec![0; bounds.len() + 1];
    buckets[1] = 3;
    let wanted = Total::Histogram {
        count: 3,
        sum: 6,
        buckets,
        range: Some((1, 3)),
    };
    assert_eq!(total(&gateway, &sizes, 0)?, wanted);
    Ok(())
}

// Each thread has a writer of its own, which then goes to the thread that collects: no lock at all.
#[test]
fn threads_have_writers() -> Result<(), Error> {
    let mut gateway = Gateway::open(1)?;
    let mut hands = Vec::new();
    for instance in 1..=4 {
        let mut writer = writer(instance)?;
        hands.push(thread::spawn(move || {
            let none = Attributes::none().expect("memory");
            for _ in 0..25_000 {
                writer.measure(0, &none, 1).expect("room");
            }
            writer
        }));
    }
    for hand in hands {
        gateway.take(&hand.join().expect("no panic").collect(200)?)?;
    }
    let table = gateway.table(&requests()?)?;
    assert!(table.ends_with("  4          0  100000\n"), "{table}");
    Ok(())
}

fn shared<T: Send + Sync>() {}

#[test]
fn threads_read_one_set_one_plan_and_one_gateway() -> Result<(), Error> {
    shared::<(Archive, Ask, Attributes, Export, Gateway, Message, Plan)>();
    let (plan, route, mut gateway) = (
        plan()?,
        Attributes::new([("route", "/")])?,
        Gateway::open(1)?,
    );
    let mut first = Writer::start(&plan, "shop", 1, 100)?;
    first.measure(0, &route, 7)?;
    let export = first.collect(200)?;
    gateway.take(&export)?;
    let (ask, table) = (requests()?, gateway.table(&requests()?)?);
    let work = &|instance| -> Result<Gateway, Error> {
        let mut writer = Writer::start(&plan, "shop", instance, 100)?;
        let number = writer.hold(0, &route)?;
        for _ in 0..1000 {
            writer.measure(0, &route, 1)?;
            writer.measure_held(number, 1)?;
        }
        let mut own = Gateway::open(2)?;
        own.take(&writer.collect(300)?)?;
        own.merge(&gateway)?;
        own.take(&export)?;
        assert_eq!(gateway.table(&ask)?, table);
        Ok(own)
    };
    let made = thread::scope(|scope| {
        let threads: Vec<_> = (2..6)
            .map(|instance| scope.spawn(move || work(instance)))
            .collect();
        threads
            .into_iter()
            .map(|thread| thread.join().unwrap())
            .collect::<Result<Vec<_>, _>>()
    })?;
    for own in made {
        gateway.merge(&own)?;
    }
    let row = gateway.rows(&ask)?.row(0)?;
    assert_eq!((row.points, row.conflicts, row.sum()), (5, 0, Some(8007)));
    Ok(())
}

#[test]
fn streams_rows_and_exports_are_read_out() -> Result<(), Error> {
    let mut instruments = Instruments::new();
    instruments.add("app", "requests", "1", Kind::Counter)?;
    instruments.add("app", "size", "By", Kind::Histogram)?;
    let (mut view, mut views) = (View::of_name("size")?, Views::new());
    view.aggregate(Aggregation::Buckets(&[10, 20]))?;
    views.add(&view)?;
    let plan = Plan::with_views(&instruments, &views, DEFAULT_LIMIT)?;
    let pairs = [
        ("cached", AttributeValue::Truth(true)),
        ("route", AttributeValue::Text("/")),
        ("status", AttributeValue::Whole(200)),
    ];
    let set = Attributes::new(pairs)?;
    let mut writer = Writer::start(&plan, "shop", (8 << 64) | 9, 100)?;
    writer.measure(0, &set, 7)?;
    let export = writer.collect(200)?;
    let head = ExportHead {
        service: "shop".into(),
        instance: (8 << 64) | 9,
        start: 100,
        time: 200,
        points: 1,
    };
    assert_eq!(export.head(), Ok(head));
    let mut gateway = Gateway::open(5)?;
    gateway.take(&export)?;
    let head = GatewayHead {
        id: 5,
        points: 1,
        conflicts: 0,
    };
    assert_eq!(gateway.head(), Ok(head));

    let streams = plan.streams()?;
    assert_eq!(streams.count(), Ok(2));
    let size = Stream {
        scope: "app".into(),
        name: "size".into(),
        unit: "By".into(),
        shape: Shape::Histogram {
            bounds: vec![10, 20],
        },
    };
    assert_eq!(streams.stream(1), Ok(size));
    assert_eq!(streams.stream(0)?.shape, Shape::Sum { monotonic: true });
    assert_eq!(streams.stream(2), Err(Error::NoItem));
    for held in [gateway.streams()?, export.streams()?] {
        assert_eq!((held.count(), held.stream(0)), (Ok(1), streams.stream(0)));
    }
    assert_eq!(Ask::stream(&streams, 2).err(), Some(Error::NoItem));
    let rows = gateway.rows(&Ask::stream(&streams, 0)?)?;
    let (row, bounds) = (rows.row(0)?, default_bounds());
    assert_eq!((rows.count(), row.total), (Ok(1), Total::Sum(7)));
    assert_eq!((bounds.len(), bounds[14]), (15, 10000));
    let (kept, mut again) = (gateway.encode()?, Gateway::open(6)?);
    assert_eq!(again.merge_bytes(&kept), Ok(1));
    assert_eq!(again.merge_bytes(&kept), Ok(0));
    assert_eq!((again.same(&gateway), again.head()?.id), (Ok(true), 6));
    let bad = again.merge_bytes(&kept[..9]);
    assert_eq!(bad, Err(Error::Truncated { at: 9 }));
    let told = row.attributes;
    let wanted = [
        ("cached", OwnedValue::Truth(true)),
        ("route", OwnedValue::Text("/".into())),
        ("status", OwnedValue::Whole(200)),
    ];
    assert_eq!(told, wanted.map(|(key, value)| (key.to_string(), value)));
    assert_eq!(rows.row(1), Err(Error::NoRow));
    let again = Attributes::new(told.iter().map(|(key, value)| (key.as_str(), value)))?;
    assert_eq!(writer.hold(0, &again), writer.hold(0, &set));
    Ok(())
}

#[test]
fn gateways_tell_each_other_what_changed() -> Result<(), Error> {
    let (mut writer, none) = (writer(1)?, Attributes::none()?);
    writer.measure(0, &none, 7)?;
    let (mut one, mut other) = (Gateway::open(1)?, Gateway::open(2)?);
    assert_eq!(one.take(&writer.collect(200)?), Ok(Taking::Taken(1)));
    let sent = one.send(2)?;
    let told = |from, to, points| Ok(Envelope { from, to, points });
    assert_eq!(sent.envelope(), told(1, 2, 1));
    assert_eq!(one.hand(&sent).err(), Some(Error::NotAddressed));
    let answer = other.hand(&sent)?.expect("it is answered");
    assert_eq!(answer.envelope(), told(2, 1, 0));
    assert!(one.hand(&answer)?.is_none());
    assert_eq!(one.send(2)?.envelope(), told(1, 2, 0));
    assert_eq!(other.table(&requests()?)?, TOTAL_OF_7);
    assert_eq!(one.merge(&other), Ok(0));
    Ok(())
}

#[test]
fn histograms_have_buckets() -> Result<(), Error> {
    let mut instruments = Instruments::new();
    instruments.add("app", "size", "By", Kind::Histogram)?;
    let mut views = Views::new();
    let mut view = View::of_name("size")?;
    view.aggregate(Aggregation::Buckets(&[10, 20]))?;
    views.add(&view)?;
    let plan = Plan::with_views(&instruments, &views, DEFAULT_LIMIT)?;
    let (mut writer, none) = (Writer::start(&plan, "shop", 1, 100)?, Attributes::none()?);
    for value in [3, 10, 11, 50] {
        writer.measure(0, &none, value)?;
    }
    let mut gateway = Gateway::open(1)?;
    gateway.take(&writer.collect(200)?)?;
    let rows = gateway.rows(&Ask::histogram("app", "size", "By", &[10, 20])?)?;
    let wanted = Total::Histogram {
        count: 4,
        sum: 74,
        buckets: vec![2, 1, 1],
        range: Some((3, 50)),
    };
    assert_eq!(rows.row(0)?.sum(), Some(74));
    assert_eq!(rows.row(0)?.total, wanted);
    assert_eq!(rows.row(1), Err(Error::NoRow));
    Ok(())
}

// Makes a call again while another thread's has the writer.
fn until_free<T>(
    seat: &mut Seat,
    call: impl Fn(&mut Seat) -> Result<T, Error>,
) -> Result<T, Error> {
    loop {
        match call(seat) {
            Err(Error::Busy) => thread::yield_now(),
            told => return told,
        }
    }
}

#[test]
fn threads_have_seats_at_one_writer() -> Result<(), Error> {
    let mut held = writer(1)?;
    let set = held.hold(0, &Attributes::none()?)?;
    let mut first = held.share().map_err(|(_, error)| error)?;
    let seats = (0..4)
        .map(|_| first.split())
        .collect::<Result<Vec<_>, _>>()?;
    let hands: Vec<_> = seats
        .into_iter()
        .map(|mut seat| {
            thread::spawn(move || -> Result<(), Error> {
                for _ in 0..1000 {
                    until_free(&mut seat, |seat| seat.measure_held(set, 1))?;
                }
                until_free(&mut seat, |seat| seat.measure(0, &Attributes::none()?, 1))
            })
        })
        .collect();
    for hand in hands {
        hand.join().expect("it ends")?;
    }
    assert_eq!(first.hold(0, &Attributes::none()?), Ok(set));
    let later = first.hold(0, &Attributes::new([("key", "value")])?)?;
    assert_ne!(later, set);
    let (mut second, mut recorder) = (first.split()?, Recorder::new(2)?);
    second.measure_held(later, 1)?;
    recorder.measure_held(later, 1)?;
    recorder.measure_held(later, -1)?;
    let taken = Taken {
        recorded: 1,
        refused: 1,
        first: Some((1, Error::Negative)),
    };
    assert_eq!(second.take_in(&mut recorder, usize::MAX), Ok(taken));
    let mut gateway = Gateway::open(1)?;
    gateway.take(&first.collect(200)?)?;
    let sums = gateway.rows(&requests()?)?.all()?;
    let sums: Vec<_> = sums.iter().map(Row::sum).collect();
    assert_eq!(sums, [Some(4004), Some(2)]);
    assert_eq!(
        first.measure(1, &Attributes::none()?, 1),
        Err(Error::NoInstrument)
    );
    assert_eq!(
        first.collect(200).err(),
        Some(Error::TimeNotAfter { last: 200 })
    );
    Ok(())
}

// Notes in a recorder, which the writer takes in where it is full.
fn record(
    writer: &Mutex<Writer>,
    recorder: &mut Recorder,
    set: &Attributes,
    value: i64,
) -> Result<(), Error> {
    if let Err(Error::RecorderFull) = recorder.measure(0, set, value) {
        let taken = writer
            .lock()
            .expect("no call panics")
            .take_in(recorder, usize::MAX)?;
        assert_eq!((taken.refused, taken.first), (0, None));
        return recorder.measure(0, set, value);
    }
    Ok(())
}

#[test]
fn threads_have_recorders_of_one_writer() -> Result<(), Error> {
    let mut instruments = Instruments::new();
    instruments.add("app", "requests", "1", Kind::Counter)?;
    let limited = Plan::build(&instruments, 2)?;
    let writer = Mutex::new(Writer::start(&limited, "shop", 1, 100)?);
    thread::scope(|scope| -> Result<(), Error> {
        let mut hands = Vec::new();
        for _ in 0..4 {
            let (writer, mut recorder) = (&writer, Recorder::new(64)?);
            hands.push(scope.spawn(move || -> Result<(), Error> {
                for number in 0..1000_i64 {
                    let set = Attributes::new([("number", number % 3)])?;
                    record(writer, &mut recorder, &set, 1)?;
                }
                let mut writer = writer.lock().expect("no call panics");
                while !recorder.is_empty()? {
                    writer.take_in(&mut recorder, 10)?;
                }
                Ok(())
            }));
        }
        hands
            .into_iter()
            .try_for_each(|hand| hand.join().expect("it ends"))
    })?;
    let mut writer = writer.into_inner().expect("no call panics");
    let mut gateway = Gateway::open(1)?;
    gateway.take(&writer.collect(200)?)?;
    let rows = gateway.rows(&requests()?)?.all()?;
    let total: Option<i128> = rows.iter().map(Row::sum).sum();
    assert_eq!((rows.len(), total), (3, Some(4000)));
    Ok(())
}

#[test]
fn what_a_recorder_has_is_taken_in_one_by_one() -> Result<(), Error> {
    let (mut writer, none) = (writer(1)?, Attributes::none()?);
    let (number, mut recorder) = (writer.hold(0, &none)?, Recorder::new(5)?);
    recorder.measure_held(number, 3)?;
    recorder.measure(0, &none, -1)?;
    recorder.measure(1, &none, 1)?;
    recorder.measure_held(number, i64::MAX)?;
    recorder.measure(0, &none, 4)?;
    assert_eq!(recorder.measure_held(number, 1), Err(Error::RecorderFull));
    assert_eq!(recorder.measure(0, &none, 1), Err(Error::RecorderFull));
    let taken = |recorded, refused, first| {
        Ok(Taken {
            recorded,
            refused,
            first,
        })
    };
    assert_eq!(writer.take_in(&mut recorder, 1), taken(1, 0, None));
    assert_eq!(recorder.len(), Ok(4));
    let first = Some((0, Error::Negative));
    assert_eq!(writer.take_in(&mut recorder, 2), taken(0, 2, first));
    let first = Some((0, Error::Overflow { stream: 0 }));
    assert_eq!(
        writer.take_in(&mut recorder, usize::MAX),
        taken(1, 1, first)
    );
    assert_eq!(recorder.is_empty(), Ok(true));
    recorder.measure(0, &none, 1)?;
    let mut gateway = Gateway::open(1)?;
    gateway.take(&writer.shutdown(200)?)?;
    assert_eq!(gateway.table(&requests()?)?, TOTAL_OF_7);
    assert_eq!(
        writer.take_in(&mut recorder, usize::MAX),
        Err(Error::Closed)
    );
    assert_eq!(recorder.len(), Ok(1));
    recorder.clear()?;
    assert_eq!(recorder.len(), Ok(0));
    Ok(())
}

#[test]
fn what_is_held_has_one_number() -> Result<(), Error> {
    let (mut writer, none) = (writer(1)?, Attributes::none()?);
    let other = Attributes::new([("key", "value")])?;
    let numbers = [writer.hold(0, &none)?, writer.hold(0, &other)?];
    assert_ne!(numbers[0], numbers[1]);
    for _ in 0..3 {
        assert_eq!([writer.hold(0, &none)?, writer.hold(0, &other)?], numbers);
    }
    assert_eq!(writer.hold(1, &none), Err(Error::NoInstrument));
    writer.shutdown(200)?;
    assert_eq!(writer.hold(0, &other), Ok(numbers[1]));
    writer.restart(300)?;
    writer.measure_held(numbers[1], 7)?;
    let mut more = self::writer(2)?;
    assert_eq!(more.measure_held(numbers[0], 1), Err(Error::NoHeld));
    let mut gateway = Gateway::open(1)?;
    gateway.take(&writer.collect(400)?)?;
    assert_eq!(total(&gateway, &requests()?, 0)?, Total::Sum(7));
    Ok(())
}

#[test]
fn exports_go_to_other_processes() -> Result<(), Error> {
    let (mut writer, none) = (writer(1)?, Attributes::none()?);
    writer.measure(0, &none, 7)?;
    let export = writer.collect(200)?;
    let mut bytes = export.encode()?;
    let (mut one, mut other) = (Gateway::open(1)?, Gateway::open(2)?);
    one.take(&export)?;
    other.take(&Export::decode(&bytes)?)?;
    assert_eq!(one.same(&other), Ok(true));
    assert_eq!(Export::decode(&bytes)?.encode()?, bytes);
    assert_eq!(Export::decode(&[]).err(), Some(Error::Truncated { at: 0 }));
    let short = &bytes[..bytes.len() - 1];
    assert_eq!(
        Export::decode(short).err(),
        Some(Error::Truncated {
            at: short.len() as u64
        })
    );
    let last = bytes.len() - 1;
    bytes[last] ^= 1;
    assert_eq!(
        Export::decode(&bytes).err(),
        Some(Error::BadChecksum {
            at: last as u64 - 3
        })
    );
    bytes[0] ^= 1;
    assert_eq!(
        Export::decode(&bytes).err(),
        Some(Error::BadMagic { at: 0 })
    );
    Ok(())
}

#[test]
fn messages_go_to_other_processes() -> Result<(), Error> {
    let (mut writer, none) = (writer(1)?, Attributes::none()?);
    writer.measure(0, &none, 7)?;
    let (mut one, mut other) = (Gateway::open(1)?, Gateway::open(2)?);
    one.take(&writer.collect(200)?)?;
    let bytes = one.send(2)?.encode()?;
    let read = Message::decode(&bytes)?;
    assert_eq!(read.envelope(), one.send(2)?.envelope());
    assert_eq!(read.encode()?, bytes);
    let answer = other.hand(&read)?.expect("it is answered").encode()?;
    assert!(one.hand(&Message::decode(&answer)?)?.is_none());
    assert_eq!(other.table(&requests()?)?, TOTAL_OF_7);
    // (what a message carries is merged as a gateway's bytes are)
    let mut carried = Gateway::open(3)?;
    assert_eq!(carried.merge_bytes(&bytes), Ok(1));
    assert_eq!(carried.same(&other), Ok(true));
    assert_eq!(
        Message::decode(&bytes[..3]).err(),
        Some(Error::Truncated { at: 3 })
    );
    assert_eq!(
        Export::decode(&bytes).err(),
        Some(Error::BadMagic { at: 3 })
    );
    Ok(())
}
