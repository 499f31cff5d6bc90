//! The cases that all languages share of OpenTelemetry's names (../otel_cases.json), performed over `kotskhin::metrics`.
use crate::json::Json;
use crate::told;
use kotskhin::metrics::{
    Aggregation, ExportError, Key, KeyValue, PeriodicReader, Refusal, Refused, Resource, SdkError,
    SdkMeterProvider, Stream,
};
use kotskhin::{Ask, Error, Export, Gateway, Kind, Total};
use std::collections::{BTreeSet, HashMap};
use std::sync::atomic::{AtomicBool, AtomicUsize, Ordering};
use std::sync::mpsc::{self, Receiver, Sender};
use std::sync::{Arc, Mutex, PoisonError};
use std::time::Duration;
use std::{fs, thread};

/// A day: no test waits for it.
const NEVER: Duration = Duration::from_secs(86_400);

/// What an instrument does with a value, as the list writes it.
type Call = Arc<dyn Fn(&str, &[KeyValue]) + Send + Sync>;

/// What came of a case, as hooks and the exporter told it.
#[derive(Default)]
struct Told {
    refused: Mutex<Vec<String>>,
    /// Why instruments were refused as they were declared.
    declared: Mutex<Option<String>>,
    brought: Mutex<Vec<Vec<u8>>>,
    is_failing: AtomicBool,
    failed: AtomicUsize,
}

impl Told {
    fn refusal(&self, refusal: &Refusal) {
        match refusal.what {
            Refused::Instrument => *locked(&self.declared) = Some(reason(refusal.why)),
            _ => locked(&self.refused).push(reason(refusal.why)),
        }
    }

    fn bring(&self, export: &Export) -> Result<(), ExportError> {
        if self.is_failing.load(Ordering::Relaxed) {
            return Err("nobody is there".into());
        }
        locked(&self.brought).push(export.encode()?);
        Ok(())
    }
}

fn locked<T>(lock: &Mutex<T>) -> std::sync::MutexGuard<'_, T> {
    lock.lock().unwrap_or_else(PoisonError::into_inner)
}

fn reason(why: Error) -> String {
    told::refusal(why).get("code").text().to_owned()
}

/// A second thread, which stays until its case ends.
struct Other {
    jobs: Sender<Box<dyn FnOnce() + Send>>,
    done: Receiver<()>,
}

impl Other {
    fn start() -> Other {
        let (jobs, given) = mpsc::channel::<Box<dyn FnOnce() + Send>>();
        let (tell, done) = mpsc::channel();
        thread::spawn(move || {
            for job in given {
                job();
                tell.send(()).expect("it is waited for");
            }
        });
        Other { jobs, done }
    }

    fn call(&self, job: impl FnOnce() + Send + 'static) {
        self.jobs.send(Box::new(job)).expect("the thread is there");
        self.done.recv().expect("it ends");
    }
}

struct Run {
    provider: SdkMeterProvider,
    told: Arc<Told>,
    calls: HashMap<String, Call>,
    export: Option<Export>,
    other: Other,
}

fn number<T: std::str::FromStr>(of: &Json) -> T {
    let told = of.text().parse().ok();
    told.unwrap_or_else(|| panic!("{of:?} is no number of the type"))
}

fn numbers(of: &Json) -> Vec<i64> {
    of.list().iter().map(number).collect()
}

fn kind(of: &str) -> Kind {
    match of {
        "counter" => Kind::Counter,
        "up_down" => Kind::UpDown,
        "gauge" => Kind::Gauge,
        _ => Kind::Histogram,
    }
}

/// A view as the builder of a provider takes it: of which instruments it is, and the stream that it makes. One that no instrument can have
/// is refused where it is made, and is of none then.
fn view(
    of: &Json,
    told: &Told,
) -> impl Fn(&kotskhin::metrics::Instrument) -> Option<Stream> + Send + Sync + 'static {
    let word = |name: &str| of.find(name).map(|word| word.text().to_owned());
    let (name, scope) = (word("name"), word("scope"));
    let of_kind = word("kind").map(|name| kind(&name));
    let mut made = Stream::builder();
    if let Some(name) = word("rename") {
        made = made.with_name(name);
    }
    if let Some(keep) = of.find("keep") {
        let keys: Vec<Key> = keep
            .list()
            .iter()
            .map(|key| Key::new(key.text().to_owned()))
            .collect();
        made = made.with_allowed_attribute_keys(keys);
    }
    made = made.with_aggregation(match of.find("aggregation") {
        None => Aggregation::Default,
        Some(Json::Text(_)) => Aggregation::Drop,
        Some(of) => Aggregation::ExplicitBucketHistogram {
            boundaries: numbers(of.get("buckets")),
        },
    });
    let made = made.build();
    if let Err(refusal) = &made {
        locked(&told.refused).push(reason(refusal.why));
    }
    move |refusal| {
        let is_of = name.as_deref().is_none_or(|name| name == refusal.name())
            && scope
                .as_deref()
                .is_none_or(|scope| scope == refusal.scope())
            && of_kind.is_none_or(|kind| kind == refusal.kind());
        made.clone().ok().filter(|_| is_of)
    }
}

fn pairs(of: &Json) -> Vec<KeyValue> {
    let pair = |given: &Json| {
        let key = given.list()[0].text().to_owned();
        match &given.list()[1] {
            Json::Truth(truth) => KeyValue::new(key, *truth),
            Json::Number(digits) => {
                KeyValue::new(key, digits.parse::<i64>().expect("it has 64 bits"))
            }
            text => KeyValue::new(key, text.text().to_owned()),
        }
    };
    of.list().iter().map(pair).collect()
}

fn ask(of: &Json) -> Result<Ask, Error> {
    let [scope, name, unit, shape] = of.list() else {
        panic!("{of:?} is no ask");
    };
    let (scope, name, unit) = (scope.text(), name.text(), unit.text());
    match shape {
        Json::Text(word) if word == "gauge" => Ask::gauge(scope, name, unit),
        Json::Text(word) => Ask::sum(scope, name, unit, word == "monotonic sum"),
        of => Ask::histogram(scope, name, unit, &numbers(of.get("bounds"))),
    }
}

impl Run {
    fn of(case: &Json) -> Run {
        let told = Arc::new(Told::default());
        let service = case.find("service").map_or("shop", Json::text);
        let instance = case.find("instance").map_or(1, number);
        let resource = Resource::builder()
            .with_service_name(service)
            .with_service_instance(instance);
        let hook = Arc::clone(&told);
        let mut builder = SdkMeterProvider::builder()
            .with_resource(resource.build())
            .on_refused(move |refusal| hook.refusal(refusal));
        if let Some(limit) = case.find("limit") {
            builder = builder.with_cardinality_limit(number(limit));
        }
        if let Some(held) = case.find("held") {
            builder = builder.with_cache(number(held));
        }
        for given in case.find("views").map_or(&[][..], Json::list) {
            builder = builder.with_view(view(given, &told));
        }
        if case.find("reader").is_some() {
            let (takes, fails) = (Arc::clone(&told), Arc::clone(&told));
            let exporter = move |export: &Export| takes.bring(export);
            let reader = PeriodicReader::builder(exporter)
                .with_interval(NEVER)
                .on_failed(move |_| {
                    fails.failed.fetch_add(1, Ordering::Relaxed);
                });
            builder = builder.with_reader(reader.build());
        }
        Run {
            provider: builder.build(),
            told,
            calls: HashMap::new(),
            export: None,
            other: Other::start(),
        }
    }

    fn declare(&mut self, step: &Json) -> Json {
        let meter = self.provider.meter(step.get("scope").text());
        let (name, unit) = (
            step.get("name").text().to_owned(),
            step.get("unit").text().to_owned(),
        );
        let call: Call = match kind(step.get("kind").text()) {
            Kind::Counter => {
                let made = meter.u64_counter(name).with_unit(unit).build();
                Arc::new(move |value, at| made.add(value.parse().expect("it is of u64"), at))
            }
            Kind::UpDown => {
                let made = meter.i64_up_down_counter(name).with_unit(unit).build();
                Arc::new(move |value, at| made.add(value.parse().expect("it is of i64"), at))
            }
            Kind::Gauge => {
                let made = meter.i64_gauge(name).with_unit(unit).build();
                Arc::new(move |value, at| made.record(value.parse().expect("it is of i64"), at))
            }
            _ => {
                let mut made = meter.u64_histogram(name).with_unit(unit);
                if let Some(bounds) = step.find("bounds") {
                    made = made.with_boundaries(numbers(bounds));
                }
                let made = made.build();
                Arc::new(move |value, at| made.record(value.parse().expect("it is of u64"), at))
            }
        };
        if let Some(name) = step.find("as") {
            self.calls.insert(name.text().to_owned(), call);
        }
        locked(&self.told.declared)
            .take()
            .map_or(Json::Null, Json::Text)
    }

    fn record(&self, step: &Json) {
        let call = &self.calls[step.get("by").text()];
        let (value, at) = (step.get("value").text(), pairs(step.get("at")));
        let times: usize = step.find("times").map_or(1, number);
        if step.find("on").is_some() {
            let (call, value, at) = (Arc::clone(call), value.to_owned(), at.clone());
            return self
                .other
                .call(move || (0..times).for_each(|_| call(&value, &at)));
        }
        let often = || (0..times).for_each(|_| call(value, &at));
        let Some(threads) = step.find("threads") else {
            return often();
        };
        thread::scope(|scope| {
            let threads = (0..number(threads)).map(|_: usize| scope.spawn(often));
            let started: Vec<_> = threads.collect();
            // (by each one's end: a scope does not wait until the logs of its threads are given up)
            started
                .into_iter()
                .for_each(|thread| thread.join().expect("it ends"));
        });
    }

    fn gateway(&self) -> Result<Gateway, Error> {
        let mut made = Gateway::open(0)?;
        made.take(self.export.as_ref().expect("there is an export"))?;
        Ok(made)
    }

    fn head(&self) -> Result<Json, Error> {
        let head = self.export.as_ref().expect("there is an export").head()?;
        Ok(Json::fields([
            ("service", Json::Text(head.service)),
            ("instance", Json::number(head.instance)),
            ("points", Json::number(head.points)),
        ]))
    }

    fn streams(&self) -> Result<Json, Error> {
        let all = self.gateway()?.streams()?.all()?;
        let told = all.into_iter().map(|stream| {
            Json::List(
                [stream.scope, stream.name, stream.unit]
                    .map(Json::Text)
                    .into(),
            )
        });
        Ok(Json::List(told.collect()))
    }

    fn refused(&self, step: &Json) -> Json {
        let told: BTreeSet<String> = std::mem::take(&mut *locked(&self.told.refused))
            .into_iter()
            .collect();
        let told = Json::List(told.into_iter().map(Json::Text).collect());
        match told == *step.get("by") {
            true => Json::number(self.provider.refused()),
            false => told,
        }
    }

    /// The values of all rows of a gauge.
    fn values(&self, of: &Json) -> Result<Vec<i64>, Error> {
        let rows = self.gateway()?.rows(&ask(of)?)?.all()?;
        let values = rows.iter().filter_map(|row| match row.total {
            Total::Gauge(newest) => Some(newest?.1),
            _ => None,
        });
        Ok(values.collect())
    }

    fn collect(&mut self, step: &Json) -> Json {
        let made = self.provider.collect();
        let is_as_told = made.is_err() == step.find("nothing").is_some();
        self.export = made.ok();
        match is_as_told {
            true => Json::Null,
            false => Json::Truth(self.export.is_some()),
        }
    }

    fn exported(&mut self) -> Result<Json, Error> {
        let brought = locked(&self.told.brought);
        if let Some(last) = brought.last() {
            self.export = Some(Export::decode(last)?);
        }
        Ok(Json::number(brought.len()))
    }

    /// Performs a step, and gives what it answers.
    fn step(&mut self, step: &Json) -> Result<Json, Error> {
        let fails = |done: Result<(), SdkError>| match done {
            Err(_) if step.find("fails").is_some() => Json::Null,
            Ok(()) if step.find("fails").is_none() => Json::Null,
            other => Json::Text(format!("{other:?}")),
        };
        Ok(match step.get("do").text() {
            "declare" => self.declare(step),
            "start" => fails(self.provider.start()),
            "record" => {
                self.record(step);
                Json::Null
            }
            "collect" => self.collect(step),
            "head" => self.head()?,
            "streams" => self.streams()?,
            "table" => Json::Text(self.gateway()?.table(&ask(step.get("of"))?)?),
            "value" => Json::number(self.values(step.get("of"))?[0]),
            "values" => told::list(&self.values(step.get("of"))?),
            "refused" => self.refused(step),
            "flush" => fails(self.provider.force_flush()),
            "shutdown" => fails(self.provider.shutdown()),
            "exported" => self.exported()?,
            "failing" => {
                let is_failing = *step.get("is") == Json::Truth(true);
                self.told.is_failing.store(is_failing, Ordering::Relaxed);
                Json::Truth(is_failing)
            }
            "failed" => Json::number(self.told.failed.load(Ordering::Relaxed)),
            other => panic!("{other} is no step"),
        })
    }
}

#[test]
fn every_case_of_names_is_as_the_list_says() {
    let path = concat!(
        env!("CARGO_MANIFEST_DIR"),
        "/../../../tests/sdk/otel_cases.json"
    );
    let read = Json::read(&fs::read_to_string(path).expect("the list is there"));
    let (mut performed, mut failed) = (0, Vec::new());
    for case in read.get("cases").list() {
        let name = case.get("name").text();
        let wants = case.find("wants").map_or(&[][..], Json::list);
        if wants.iter().any(|want| want.text() == "signed") {
            println!("{name}: a u64 is not below 0");
            continue;
        }
        performed += 1;
        let mut run = Run::of(case);
        let fault = case.get("steps").list().iter().find_map(|step| {
            let wanted = step.find(if step.get("do").text() == "declare" {
                "refused"
            } else {
                "is"
            });
            let told = run.step(step);
            let is_good = told
                .as_ref()
                .is_ok_and(|told| told == wanted.unwrap_or(&Json::Null));
            (!is_good).then(|| format!("{name}: {step:?}: it answers {told:?}"))
        });
        failed.extend(fault);
    }
    assert!(performed > 10, "there are few cases");
    assert!(failed.is_empty(), "{}", failed.join("\n"));
}
