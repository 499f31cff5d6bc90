//! Which streams instruments have: views, units, bounds, limits, and what a plan refuses.
#![forbid(unsafe_code)]
mod common;
use common::{Told, of_requests, requests, rows, total};
use kotskhin::metrics::{
    Aggregation, Counter, Key, KeyValue, Refused, SdkError, SdkMeterProvider, Stream,
};
use kotskhin::{Ask, Error, Gateway, Row, Total, default_bounds};
use std::error::Error as AnyError;
use std::sync::PoisonError;

type Done = Result<(), Box<dyn AnyError>>;

#[test]
fn one_that_the_plan_refuses_leaves_the_others() -> Done {
    let told = Told::default();
    let provider = SdkMeterProvider::builder().on_refused(told.hook()).build();
    let meter = provider.meter("app");
    let refused = [
        meter.u64_counter("9 lives").build(),
        meter.u64_counter("fine").with_unit("\u{b5}s").build(),
        meter.u64_counter("").build(),
        provider
            .meter("kotskhin.archive")
            .u64_counter("requests")
            .build(),
    ];
    let requests = requests(&provider);
    refused.iter().for_each(|counter| counter.add(1, &[]));
    requests.add(7, &[]);
    let whys: Vec<Error> = told.all().into_iter().map(|refusal| refusal.1).collect();
    assert_eq!(
        whys[..4],
        [
            Error::BadName { instrument: 0 },
            Error::BadUnit { instrument: 0 },
            Error::BadName { instrument: 0 },
            Error::ReservedScope { instrument: 0 },
        ]
    );
    assert_eq!((whys.len(), provider.refused()), (8, 4));
    assert_eq!(
        told.all()[7],
        (
            String::from("requests"),
            Error::ReservedScope { instrument: 0 },
            1
        )
    );
    assert_eq!(total(&rows(&provider, &of_requests()?)?), 7);
    Ok(())
}

#[test]
fn views_make_streams() -> Done {
    let provider = SdkMeterProvider::builder()
        .with_view(|instrument| {
            if instrument.name() != "requests"
                || instrument.scope() != "app"
                || instrument.unit() != "1"
            {
                return None;
            }
            let keys = [Key::from_static_str("route")];
            let by_route = Stream::builder().with_name("by_route");
            by_route.with_allowed_attribute_keys(keys).build().ok()
        })
        .with_view(|instrument| {
            let drop = Stream::builder().with_aggregation(Aggregation::Drop);
            (instrument.name() == "noise").then(|| drop.build().ok())?
        })
        .build();
    let meter = provider.meter("app");
    let requests = requests(&provider);
    let noise = meter.u64_counter("noise").build();
    let size = meter
        .u64_histogram("size")
        .with_boundaries(vec![1, 10])
        .build();
    for status in [200, 404] {
        requests.add(
            1,
            &[KeyValue::new("route", "/"), KeyValue::new("status", status)],
        );
    }
    noise.add(1, &[]);
    size.record(5, &[]);
    let told = rows(&provider, &Ask::sum("app", "by_route", "1", true)?)?;
    assert_eq!(
        (told.len(), told[0].attributes.len(), total(&told)),
        (1, 1, 2)
    );
    let told = rows(&provider, &Ask::histogram("app", "size", "", &[1, 10])?)?;
    assert!(matches!(&told[0].total, Total::Histogram { buckets, .. } if *buckets == [0, 1, 0]));
    let mut gateway = Gateway::open(1)?;
    gateway.take(&provider.collect()?)?;
    assert_eq!(gateway.streams()?.count()?, 2);
    let falling = Aggregation::ExplicitBucketHistogram {
        boundaries: vec![2, 1],
    };
    let built = Stream::builder().with_aggregation(falling);
    let (line, built) = (line!(), built.build().expect_err("its bounds fall"));
    assert_eq!(built.why, Error::BadBounds { view: 0 });
    let shown = format!("BadBounds: a stream, declared at {}:{line}:", file!());
    assert!(built.to_string().starts_with(&shown), "{built}");
    let renamed = Stream::builder().with_name("9 lives").build();
    let renamed = renamed.expect_err("its name begins with a digit");
    let told = (renamed.what, renamed.why, renamed.count);
    assert_eq!(told, (Refused::Stream, Error::BadRename { view: 0 }, 0));
    let shown = renamed.to_string();
    assert!(shown.starts_with("BadRename: '9 lives', declared at "));
    assert!(shown.ends_with(&format!(", is refused: {}", says(renamed.why))));
    Ok(())
}

/// What the library says of a refusal, whose places are told by names.
fn says(why: Error) -> String {
    let whole = why.to_string();
    whole.split(" (").next().unwrap_or_default().to_owned()
}

/// The second one is refused, and both are named.
#[test]
fn two_that_would_feed_one_stream_are_told_by_name() -> Done {
    let told = Told::default();
    let provider = SdkMeterProvider::builder()
        .on_refused(told.hook())
        .with_view(|instrument| {
            let renamed = Stream::builder().with_name("sales");
            instrument
                .name()
                .starts_with("sold.")
                .then(|| renamed.build().ok())?
        })
        .build();
    let meter = provider.meter("app");
    let [here, there] = ["sold.here", "sold.there"].map(|name| meter.u64_counter(name).build());
    here.add(7, &[]);
    there.add(1, &[]);
    let (first, second) = (0, 1);
    let why = Error::SameStream { first, second };
    let name = String::from("sold.there");
    assert_eq!(told.all(), [(name.clone(), why, 0), (name, why, 1)]);
    let shown = told.shown().swap_remove(0);
    let place = format!("SameStream: 'sold.there', declared at {}:", file!());
    assert!(shown.starts_with(&place), "{shown}");
    let ends = format!(", is refused: {}, and the other is 'sold.here'", says(why));
    assert!(shown.ends_with(&ends), "{shown}");
    assert_eq!(
        total(&rows(&provider, &Ask::sum("app", "sales", "", true)?)?),
        7
    );
    Ok(())
}

/// How many values a histogram has at no attributes, and what they come to.
fn values(provider: &SdkMeterProvider, ask: &Ask) -> Result<(u128, i128), Box<dyn AnyError>> {
    let told = rows(provider, ask)?;
    match &told[..] {
        [Row { total, .. }] => match total {
            Total::Histogram { count, sum, .. } => Ok((*count, *sum)),
            other => Err(format!("{other:?}").into()),
        },
        other => Err(format!("{other:?}").into()),
    }
}

#[test]
fn one_name_in_two_units_is_two_instruments() -> Done {
    let provider = SdkMeterProvider::builder()
        .with_view(|instrument| {
            let by_route = Stream::builder().with_allowed_attribute_keys([]);
            (instrument.unit() == "By").then(|| by_route.build().ok())?
        })
        .build();
    let meter = provider.meter("app");
    let size = |name, unit| meter.u64_histogram(name).with_unit(unit);
    let advised = size("size", "ms").with_boundaries(vec![1]).build();
    let viewed = size("Size", "By").with_boundaries(vec![2]).build();
    let plain = size("SIZE", "").build();
    let other = meter.u64_counter("size").with_unit("By").build();
    for (number, histogram) in [&advised, &viewed, &plain].into_iter().enumerate() {
        histogram.record(number as u64 + 1, &[]);
    }
    other.add(7, &[KeyValue::new("route", "/")]);
    let defaults = default_bounds();
    for (name, unit, bounds, sum) in [
        ("size", "ms", &[1][..], 1),
        ("size", "By", &defaults, 2),
        ("size", "", &defaults, 3),
    ] {
        let ask = Ask::histogram("app", name, unit, bounds)?;
        assert_eq!(values(&provider, &ask)?, (1, sum), "{name} {unit}");
    }
    let told_rows = rows(&provider, &Ask::sum("app", "size", "By", true)?)?;
    assert_eq!((told_rows[0].attributes.len(), total(&told_rows)), (0, 7));
    assert_eq!(
        (provider.collect()?.head()?.points, provider.refused()),
        (4, 0)
    );
    Ok(())
}

/// Instruments with streams of their own have other names in the plan: also where others have such names.
#[test]
fn names_in_the_plan_are_names_of_no_instrument() -> Done {
    let told = Told::default();
    let provider = SdkMeterProvider::builder().on_refused(told.hook()).build();
    let meter = provider.meter("app");
    let plain = ["i.0", "I.1", "i..2", "i...3"].map(|name| meter.u64_histogram(name).build());
    let advised = ["i.5", "i", "i.\u{fc}", "", "i....9"].map(|name| {
        let made = meter.u64_histogram(name).with_boundaries(vec![5]);
        made.with_unit("1").build()
    });
    plain.iter().for_each(|histogram| histogram.record(3, &[]));
    advised
        .iter()
        .for_each(|histogram| histogram.record(10, &[]));
    for name in ["i.0", "i.1", "i..2", "i...3"] {
        let ask = Ask::histogram("app", name, "", &default_bounds())?;
        assert_eq!(values(&provider, &ask)?, (1, 3), "{name}");
    }
    for name in ["i.5", "i", "i....9"] {
        let ask = Ask::histogram("app", name, "1", &[5])?;
        assert_eq!(values(&provider, &ask)?, (1, 10), "{name}");
    }
    assert_eq!(provider.collect()?.head()?.points, 7);
    let whys: Vec<Error> = told.all().into_iter().map(|refusal| refusal.1).collect();
    assert_eq!(whys, [Error::BadName { instrument: 6 }; 4]);
    Ok(())
}

#[test]
fn a_limit_is_told_once_of_each_stream() -> Done {
    let told = Told::default();
    let provider = SdkMeterProvider::builder()
        .with_cardinality_limit(3)
        .on_refused(told.hook())
        .build();
    let meter = provider.meter("app");
    let names = ["full", "over", "late", "few"];
    let [full, over, late, few] = names.map(|name| meter.u64_counter(name).build());
    let add = |counter: &Counter<u64>, sets: std::ops::Range<i64>| {
        sets.for_each(|n| counter.add(1, &[KeyValue::new("n", n)]));
    };
    let told_so_far = || -> Result<Vec<String>, SdkError> {
        provider.collect()?;
        let list = std::mem::take(&mut *told.0.lock().unwrap_or_else(PoisonError::into_inner));
        Ok(list
            .into_iter()
            .map(|refusal| refusal.to_string())
            .collect())
    };
    let line = |name: &str| {
        format!(
            "CardinalityLimit: '{name}': its limit of 3 sets of attributes is reached: further sets are counted together in the point otel.metric.overflow=true"
        )
    };
    add(&full, 0..3);
    add(&late, 0..3);
    add(&few, 0..1);
    assert_eq!(told_so_far()?, [""; 0]);
    add(&over, 0..4);
    assert_eq!(told_so_far()?, [line("over")]);
    add(&over, 4..9);
    add(&late, 9..10);
    assert_eq!(told_so_far()?, [line("late")]);
    add(&late, 4..40);
    add(&few, 1..3);
    assert_eq!(told_so_far()?, [""; 0]);
    add(&few, 3..4);
    assert!(provider.close()?.is_some());
    assert_eq!(told.shown(), [line("few")]);
    assert_eq!(provider.refused(), 0);
    Ok(())
}

/// It is as where no view is: its stream is that of its kind, or of the bounds that it advises.
#[test]
fn a_view_that_does_not_fit_is_told_and_passed_over() -> Done {
    let told = Told::default();
    let last = Stream::builder().with_aggregation(Aggregation::LastValue);
    let (last, renamed) = (last.build()?, Stream::builder().with_name("other").build()?);
    let provider = SdkMeterProvider::builder()
        .on_refused(told.hook())
        .with_view(move |instrument| (instrument.name() == "twice").then(|| renamed.clone()))
        .with_view(move |instrument| (instrument.name() != "fine").then(|| last.clone()))
        .build();
    let line = line!() - 2;
    let meter = provider.meter("app");
    let fine = meter.u64_counter("fine").build();
    let misfit = meter.u64_counter("misfit").build();
    let twice = meter.u64_counter("twice").build();
    let size = meter.u64_histogram("size").with_boundaries(vec![1]).build();
    let depth = meter.i64_gauge("depth").build();
    for counter in [&fine, &misfit, &twice] {
        counter.add(7, &[]);
    }
    size.record(2, &[]);
    depth.record(-1, &[]);
    let shown = told.shown();
    assert_eq!(shown.len(), 3, "{shown:?}");
    for ((shown, name), instrument) in shown.iter().zip(["misfit", "twice", "size"]).zip(1..) {
        let why = Error::BadAggregation {
            instrument,
            view: 1,
        };
        let front = format!("BadAggregation: '{name}', declared at {}:", file!());
        assert!(shown.starts_with(&front), "{shown}");
        assert!(
            shown.contains(&format!(": the view of {}:{line}:", file!())),
            "{shown}"
        );
        assert!(
            shown.ends_with(&format!(" is passed over: {}", says(why))),
            "{shown}"
        );
    }
    let whys: Vec<u64> = told
        .all()
        .into_iter()
        .map(|refusal| refusal.1.places()[0].1)
        .collect();
    assert_eq!(whys, [1, 2, 3]);
    for name in ["fine", "misfit", "other"] {
        assert_eq!(
            total(&rows(&provider, &Ask::sum("app", name, "", true)?)?),
            7,
            "{name}"
        );
    }
    let ask = Ask::histogram("app", "size", "", &[1])?;
    assert_eq!(values(&provider, &ask)?, (1, 2));
    assert_eq!(
        (provider.collect()?.head()?.points, provider.refused()),
        (5, 0)
    );
    Ok(())
}
