//! The cases that all languages share (../cases.json), performed over the crate `kotskhin`, in safe code.
//!
//! What Rust can't express is passed over: steps with a text that is no UTF-8 or with kinds as numbers, those behind a thing's end, and a
//! case about a thing that was moved. A number that is none of its type is refused by `parse`, as it is by a program that has it.
#![forbid(unsafe_code)]
mod json;
mod otel_cases;
mod told;

use json::Json;
use kotskhin::{
    Aggregation, Archive, Ask, AttributeValue, Attributes, DEFAULT_LIMIT, Error, Export, Gateway,
    Instruments, Kind, Message, OwnedValue, Plan, Recorder, Seat, Taking, View, Views, Writer,
};
use std::cell::RefCell;
use std::collections::HashMap;
use std::num::ParseIntError;
use std::str::FromStr;
use std::sync::{Mutex, PoisonError};
use std::{fs, thread};

/// Why a step did not answer.
#[derive(Debug)]
enum Stopped {
    Refused(Error),
    OutOfRange,
    /// The step is none that Rust can express.
    Unsayable,
    Differs(String),
}

impl From<Error> for Stopped {
    fn from(error: Error) -> Stopped {
        Stopped::Refused(error)
    }
}

impl From<ParseIntError> for Stopped {
    fn from(_: ParseIntError) -> Stopped {
        Stopped::OutOfRange
    }
}

type Answer = Result<Json, Stopped>;

fn number<T: FromStr<Err = ParseIntError>>(of: &Json) -> Result<T, Stopped> {
    Ok(of.text().parse()?)
}

fn text(of: &Json) -> Result<String, Stopped> {
    match of {
        Json::Text(text) => Ok(text.clone()),
        repeated => match repeated.find("repeat") {
            Some(repeat) => Ok(repeat.list()[0].text().repeat(number(&repeat.list()[1])?)),
            None => Err(Stopped::Unsayable),
        },
    }
}

/// What an answer is compared with: texts that are repeated are written out.
fn written_out(of: &Json) -> Json {
    match of {
        Json::List(list) => Json::List(list.iter().map(written_out).collect()),
        Json::Fields(_) if of.find("repeat").is_some() => {
            Json::Text(text(of).expect("it is a text"))
        }
        Json::Fields(fields) => {
            let out = fields
                .iter()
                .map(|(key, item)| (key.clone(), written_out(item)));
            Json::Fields(out.collect())
        }
        other => other.clone(),
    }
}

fn unhexed(hex: &str) -> Vec<u8> {
    let pairs = hex.as_bytes().chunks(2);
    pairs
        .map(|pair| {
            u8::from_str_radix(std::str::from_utf8(pair).expect("digits"), 16).expect("digits")
        })
        .collect()
}

fn all<T>(of: &Json, each: impl Fn(&Json) -> Result<T, Stopped>) -> Result<Vec<T>, Stopped> {
    of.list().iter().map(each).collect()
}

fn owned(of: &Json) -> Result<OwnedValue, Stopped> {
    Ok(match of {
        Json::Truth(truth) => OwnedValue::Truth(*truth),
        Json::Number(_) => OwnedValue::Whole(number(of)?),
        other => OwnedValue::Text(text(other)?),
    })
}

fn pairs(of: &Json) -> Result<Vec<(String, OwnedValue)>, Stopped> {
    all(of, |pair| {
        Ok((text(&pair.list()[0])?, owned(&pair.list()[1])?))
    })
}

fn borrowed(pairs: &[(String, OwnedValue)]) -> impl Iterator<Item = (&str, AttributeValue<'_>)> {
    pairs
        .iter()
        .map(|(key, value)| (key.as_str(), value.into()))
}

fn kind(of: &Json) -> Result<Kind, Stopped> {
    match of {
        Json::Text(word) => Ok(match word.as_str() {
            "counter" => Kind::Counter,
            "up_down" => Kind::UpDown,
            "gauge" => Kind::Gauge,
            _ => Kind::Histogram,
        }),
        _ => Err(Stopped::Unsayable),
    }
}

fn view(of: &Json) -> Result<View, Stopped> {
    let mut view = match of.find("name") {
        Some(name) => View::of_name(&text(name)?)?,
        None => View::of_every()?,
    };
    if let Some(word) = of.find("kind") {
        view.kind(kind(word)?)?;
    }
    if let Some(word) = of.find("scope") {
        view.scope(&text(word)?)?;
    }
    if let Some(word) = of.find("rename") {
        view.rename(&text(word)?)?;
    }
    if let Some(words) = of.find("keep") {
        view.keep(all(words, text)?.iter().map(String::as_str))?;
    }
    match of.find("aggregation") {
        None => (),
        Some(Json::Text(word)) => view.aggregate(match word.as_str() {
            "default" => Aggregation::Default,
            "sum" => Aggregation::Sum,
            "last" => Aggregation::LastValue,
            _ => Aggregation::Drop,
        })?,
        Some(Json::Number(_)) => return Err(Stopped::Unsayable),
        Some(buckets) => {
            view.aggregate(Aggregation::Buckets(&all(buckets.get("buckets"), number)?))?
        }
    }
    Ok(view)
}

/// A thing that a case made.
enum Thing {
    Plan(Plan),
    Set(Attributes),
    Writer(Writer),
    Recorder(Recorder),
    Seat(Seat),
    Export(Export),
    Gateway(Gateway),
    Message(Message),
    Archive(Archive),
    Bytes(Vec<u8>),
}

/// A case, and the things that it made, by their names.
#[derive(Default)]
struct Run(HashMap<String, RefCell<Thing>>);

/// A thing of one kind, or of one of several, by its name.
macro_rules! the {
    ($run:expr, $name:expr, $($kind:ident)|+, $thing:ident => $call:expr) => {{
        let cell = $run.cell($name);
        match &mut *cell.borrow_mut() {
            $(Thing::$kind($thing) => $call,)+
            #[allow(unreachable_patterns)]
            _ => panic!("{:?} is of another kind", $name),
        }
    }};
}

impl Run {
    fn cell(&self, name: &Json) -> &RefCell<Thing> {
        let name = name.text();
        self.0.get(name).unwrap_or_else(|| panic!("no {name}"))
    }

    fn make(&mut self, step: &Json, thing: Thing) -> Answer {
        if let Some(name) = step.find("as") {
            self.0.insert(name.text().to_owned(), RefCell::new(thing));
        }
        Ok(Json::Null)
    }

    fn bytes(&self, of: &Json) -> Vec<u8> {
        match of {
            Json::Text(_) => the!(self, of, Bytes, bytes => bytes.clone()),
            hex => unhexed(hex.get("hex").text()),
        }
    }

    fn plan(&mut self, step: &Json) -> Answer {
        let (mut instruments, mut views) = (Instruments::new(), Views::new());
        for one in step.get("instruments").list() {
            let [scope, name, unit, of] = one.list() else {
                panic!("{one:?} is no instrument")
            };
            instruments.add(&text(scope)?, &text(name)?, &text(unit)?, kind(of)?)?;
        }
        for one in step.find("views").map_or(&[][..], Json::list) {
            views.add(&view(one)?)?;
        }
        let limit = step.find("limit").map_or(Ok(DEFAULT_LIMIT), number)?;
        let plan = Plan::with_views(&instruments, &views, limit)?;
        self.make(step, Thing::Plan(plan))
    }

    fn writer(&mut self, step: &Json) -> Answer {
        let (service, instance) = (text(step.get("service"))?, number(step.get("instance"))?);
        let start = number(step.get("start"))?;
        let writer = the!(self, step.get("plan"), Plan, plan => Writer::start(plan, &service, instance, start))?;
        self.make(step, Thing::Writer(writer))
    }

    fn ask(&self, of: &Json) -> Result<Ask, Stopped> {
        let mut ask = match of.find("stream") {
            Some(stream) => {
                let streams =
                    the!(self, of.get("streams_of"), Plan | Gateway, thing => thing.streams())?;
                Ask::stream(&streams, number(stream)?)?
            }
            None => self.ask_of_words(of)?,
        };
        if let Some(given) = of.find("service") {
            ask.service(&text(given)?)?;
        }
        if let Some(given) = of.find("only") {
            ask.only(borrowed(&pairs(given)?))?;
        }
        if let Some(given) = of.find("keep") {
            ask.keep(all(given, text)?.iter().map(String::as_str))?;
        }
        Ok(ask)
    }

    fn ask_of_words(&self, of: &Json) -> Result<Ask, Stopped> {
        let [scope, name, unit] = ["scope", "name", "unit"].map(|word| text(of.get(word)));
        let (scope, name, unit) = (scope?, name?, unit?);
        Ok(match of.get("shape") {
            Json::Text(word) if word == "gauge" => Ask::gauge(&scope, &name, &unit)?,
            Json::Text(word) => Ask::sum(&scope, &name, &unit, word == "monotonic sum")?,
            shape => {
                let bounds = all(shape.get("bounds"), number)?;
                Ask::histogram(&scope, &name, &unit, &bounds)?
            }
        })
    }

    fn rows(&self, step: &Json) -> Answer {
        let ask = self.ask(step.get("ask"))?;
        let rows = the!(self, step.get("of"), Gateway, gateway => gateway.rows(&ask))?;
        let table = rows.table()?;
        match step.find("table") {
            Some(wanted) if wanted.text() != table => Err(Stopped::Differs(table)),
            _ => Ok(Json::List(rows.all()?.iter().map(told::row).collect())),
        }
    }

    /// (a row comes whole, with its buckets and its attributes)
    fn row(&self, step: &Json) -> Answer {
        let ask = self.ask(step.get("ask"))?;
        let rows = the!(self, step.get("of"), Gateway, gateway => gateway.rows(&ask))?;
        Ok(told::row(&rows.row(number(step.get("row"))?)?))
    }

    fn take(&self, step: &Json) -> Answer {
        let taking = the!(self, step.get("export"), Export, export => {
            the!(self, step.get("by"), Gateway, gateway => gateway.take(export))
        })?;
        let late = Json::Truth(taking == Taking::Late);
        match step.find("late") {
            Some(wanted) if *wanted != late => Err(Stopped::Differs(format!("{taking:?}"))),
            _ => Ok(Json::number(taking.changed())),
        }
    }

    fn gateway_read(&self, step: &Json) -> Answer {
        let head = the!(self, step.get("of"), Gateway, gateway => gateway.head())?;
        Ok(Json::fields([
            ("id", Json::number(head.id)),
            ("points", Json::number(head.points)),
        ]))
    }

    fn export(&self, step: &Json) -> Answer {
        let head = the!(self, step.get("of"), Export, export => export.head())?;
        Ok(Json::fields([
            ("service", Json::Text(head.service)),
            ("instance", Json::number(head.instance)),
            ("start", Json::number(head.start)),
            ("time", Json::number(head.time)),
            ("points", Json::number(head.points)),
        ]))
    }

    fn changed_bytes(&mut self, step: &Json) -> Answer {
        let mut made = self.bytes(step.get("of"));
        for one in step.find("set").map_or(&[][..], Json::list) {
            let place: isize = number(&one.list()[0])?;
            let at = match place {
                0.. => place.unsigned_abs(),
                _ => made.len() - place.unsigned_abs(),
            };
            made[at] = number(&one.list()[1])?;
        }
        if let Some(cut) = step.find("cut") {
            made.truncate(number(cut)?);
        }
        made.extend(
            step.find("add")
                .map_or(Vec::new(), |given| unhexed(given.text())),
        );
        if step.find("checksum").is_some() {
            let front = made.len() - 4;
            let (mut low, mut high) = (1u32, 0u32);
            for byte in &made[..front] {
                low = (low + u32::from(*byte)) % 65521;
                high = (high + low) % 65521;
            }
            made.truncate(front);
            made.extend((high << 16 | low).to_be_bytes());
        }
        self.make(step, Thing::Bytes(made))
    }

    fn decode(&mut self, step: &Json) -> Answer {
        let bytes = self.bytes(step.get("bytes"));
        let made = match step.get("what").text() {
            "export" => Thing::Export(Export::decode(&bytes)?),
            _ => Thing::Message(Message::decode(&bytes)?),
        };
        self.make(step, made)
    }

    fn of_otlp(&mut self, step: &Json) -> Answer {
        let made = Export::of_otlp(&self.bytes(step.get("bytes")))?;
        let count = Json::number(made.len());
        for (name, export) in step.get("as").list().iter().zip(made) {
            let export = RefCell::new(Thing::Export(export));
            self.0.insert(name.text().to_owned(), export);
        }
        Ok(count)
    }

    fn page(&self, step: &Json) -> Answer {
        let service = step.find("service").map(text).transpose()?;
        let (format, service) = (step.get("format").text(), service.as_deref());
        let tombstones = matches!(step.find("tombstones"), Some(Json::Truth(true)));
        let page = the!(self, step.get("of"), Gateway, gateway => match (format, tombstones) {
            ("openmetrics", false) => gateway.openmetrics(service),
            ("openmetrics", true) => gateway.openmetrics_with_tombstones(service),
            (_, false) => gateway.prometheus(service),
            (_, true) => gateway.prometheus_with_tombstones(service),
        })?;
        let has = |line: &Json| page.lines().any(|other| other == line.text());
        let lacks = |text: &Json| !page.contains(text.text());
        match step.get("has").list().iter().all(has) && step.get("lacks").list().iter().all(lacks) {
            true => Ok(Json::Null),
            false => Err(Stopped::Differs(page)),
        }
    }

    fn share(&mut self, step: &Json) -> Answer {
        let shared = self.0.remove(step.get("by").text());
        let Some(Thing::Writer(writer)) = shared.map(RefCell::into_inner) else {
            panic!("there is no writer")
        };
        let seat = writer.share().map_err(|(_, why)| why)?;
        self.make(step, Thing::Seat(seat))
    }

    fn hand(&mut self, step: &Json) -> Answer {
        let answer = the!(self, step.get("message"), Message, message => {
            the!(self, step.get("by"), Gateway, gateway => gateway.hand(message))
        })?;
        match (answer, step.find("answer")) {
            (Some(answer), Some(Json::Text(name))) => {
                let answer = RefCell::new(Thing::Message(answer));
                self.0.insert(name.clone(), answer);
                Ok(Json::Null)
            }
            (None, None | Some(Json::Null)) => Ok(Json::Null),
            (answer, _) => Err(Stopped::Differs(format!("the answer is {answer:?}"))),
        }
    }

    fn threads(&self, step: &Json) -> Answer {
        let (many, each): (usize, usize) =
            (number(step.get("threads"))?, number(step.get("each"))?);
        let (instrument, capacity) = (number(step.get("instrument"))?, step.find("capacity"));
        let capacity = capacity.map_or(Ok(0), number)?;
        the!(self, step.get("set"), Set, set => {
            let set: &Attributes = set;
            match &mut *self.cell(step.get("by")).borrow_mut() {
                Thing::Writer(writer) => {
                    let held = writer.hold(instrument, set)?;
                    let writer = Mutex::new(writer);
                    joined(many, || Ok(()), |()| {
                        let mut recorder = Recorder::new(capacity)?;
                        let mut refused = 0;
                        let mut take_in = |recorder: &mut Recorder| {
                            let mut writer = writer.lock().unwrap_or_else(PoisonError::into_inner);
                            refused += writer.take_in(recorder, usize::MAX)?.refused;
                            Ok::<(), Error>(())
                        };
                        for turn in 0..each {
                            let note = |recorder: &mut Recorder| match turn % 2 {
                                0 => recorder.measure(instrument, set, 1),
                                _ => recorder.measure_held(held, 1),
                            };
                            if note(&mut recorder) == Err(Error::RecorderFull) {
                                take_in(&mut recorder)?;
                                note(&mut recorder)?;
                            }
                        }
                        take_in(&mut recorder)?;
                        assert_eq!(refused, 0);
                        Ok(())
                    })?;
                }
                Thing::Seat(seat) => {
                    let held = seat.hold(instrument, set)?;
                    joined(many, || seat.split(), |mut own| {
                        for turn in 0..each {
                            while let Err(error) = match turn % 2 {
                                0 => own.measure(instrument, set, 1),
                                _ => own.measure_held(held, 1),
                            } {
                                assert_eq!(error, Error::Busy);
                                thread::yield_now();
                            }
                        }
                        Ok(())
                    })?;
                }
                _ => panic!("no threads record in it"),
            }
            Ok(Json::Null)
        })
    }

    fn fill(&self, step: &Json) -> Answer {
        for number in 0..number::<i64>(step.get("sets"))? {
            let set = Attributes::new([(step.get("key").text(), number)])?;
            the!(self, step.get("by"), Writer, writer => writer.measure(0, &set, 1))?;
        }
        Ok(Json::Null)
    }

    fn decode_often(&self, step: &Json) -> Answer {
        let bytes = self.bytes(step.get("bytes"));
        let (times, most) = (
            number(step.get("times"))?,
            number(step.get("most_megabytes"))?,
        );
        let mut before = 0;
        for turn in 0..=times {
            let export = Export::decode(&bytes)?;
            the!(self, step.get("by"), Gateway, gateway => gateway.take(&export))?;
            if turn == times / 10 {
                before = megabytes();
            }
        }
        match megabytes().saturating_sub(before) {
            grown if grown > most => Err(Stopped::Differs(format!("it grew by {grown} MB"))),
            _ => Ok(Json::Null),
        }
    }

    /// What a step answers.
    fn performed(&mut self, step: &Json) -> Answer {
        let by = |name: &str| step.get(name);
        match step.get("do").text() {
            "plan" => self.plan(step),
            "set" => {
                let set = Attributes::new(borrowed(&pairs(by("pairs"))?))?;
                self.make(step, Thing::Set(set))
            }
            "pairs" => Ok(told::pairs(&the!(self, by("of"), Set, set => set.pairs())?)),
            "writer" => self.writer(step),
            "measure" => {
                let (instrument, value) = (number(by("instrument"))?, number(by("value"))?);
                the!(self, by("set"), Set, set => {
                    the!(self, by("by"), Writer | Recorder | Seat, thing => thing.measure(instrument, set, value))
                })?;
                Ok(Json::Null)
            }
            "hold" => self.hold(step),
            "measure_held" => self.measure_held(step),
            "collect" => {
                let time = number(by("time"))?;
                let made = the!(self, by("by"), Writer | Seat, thing => thing.collect(time))?;
                self.make(step, Thing::Export(made))
            }
            "shutdown" => {
                let time = number(by("time"))?;
                let made = the!(self, by("by"), Writer, writer => writer.shutdown(time))?;
                self.make(step, Thing::Export(made))
            }
            "restart" => {
                let start = number(by("start"))?;
                the!(self, by("by"), Writer, writer => writer.restart(start))?;
                Ok(Json::Null)
            }
            "recorder" => {
                let made = Recorder::new(number(by("capacity"))?)?;
                self.make(step, Thing::Recorder(made))
            }
            "length" => Ok(Json::number(
                the!(self, by("of"), Recorder, recorder => recorder.len())?,
            )),
            "clear" => {
                the!(self, by("of"), Recorder, recorder => recorder.clear())?;
                Ok(Json::Null)
            }
            "take_in" => {
                let most = step.find("most").map_or(Ok(usize::MAX), number)?;
                let taken = the!(self, by("recorder"), Recorder, recorder => {
                    the!(self, by("by"), Writer | Seat, thing => thing.take_in(recorder, most))
                })?;
                Ok(told::taken(&taken))
            }
            "share" => self.share(step),
            "split" => {
                for _ in 0..step.find("times").map_or(Ok(1), number)? {
                    let made = the!(self, by("by"), Seat, seat => seat.split())?;
                    self.make(step, Thing::Seat(made))?;
                }
                Ok(Json::Null)
            }
            _ => self.performed_by_gateways(step),
        }
    }

    fn hold(&self, step: &Json) -> Answer {
        let instrument = number(step.get("instrument"))?;
        let held = the!(self, step.get("set"), Set, set => {
            the!(self, step.get("by"), Writer | Seat, thing => thing.hold(instrument, set))
        })?;
        Ok(Json::number(
            format!("{held:?}").replace(|letter: char| !letter.is_ascii_digit(), ""),
        ))
    }

    /// (a number of a pair is made by a call alone: the case's is that of a pair of the writer's, or Rust has none)
    fn measure_held(&self, step: &Json) -> Answer {
        let (wanted, value): (usize, i64) =
            (number(step.get("number"))?, number(step.get("value"))?);
        let held = held(wanted).ok_or(Stopped::Unsayable)?;
        the!(self, step.get("by"), Writer | Recorder | Seat, thing => thing.measure_held(held, value))?;
        Ok(Json::Null)
    }

    fn performed_by_gateways(&mut self, step: &Json) -> Answer {
        let by = |name: &str| step.get(name);
        match by("do").text() {
            "export" => self.export(step),
            "gateway" => {
                let made = Gateway::open(number(by("id"))?)?;
                self.make(step, Thing::Gateway(made))
            }
            "gateway_read" => self.gateway_read(step),
            "take" => self.take(step),
            // (a gateway that merges itself is refused by rustc: ../misuse)
            "merge" if by("from") == by("by") => Err(Stopped::Unsayable),
            "merge" => the!(self, by("from"), Gateway, from => {
                Ok(Json::number(the!(self, by("by"), Gateway, gateway => gateway.merge(from))?))
            }),
            "merge_bytes" => {
                let bytes = self.bytes(by("bytes"));
                let changed =
                    the!(self, by("by"), Gateway, gateway => gateway.merge_bytes(&bytes))?;
                Ok(Json::number(changed))
            }
            "conflicts" => Ok(Json::number(
                the!(self, by("of"), Gateway, gateway => gateway.head())?.conflicts,
            )),
            "same" => {
                if by("of") == by("and") {
                    return Ok(Json::Truth(
                        the!(self, by("of"), Gateway, gateway => gateway.same(gateway))?,
                    ));
                }
                the!(self, by("and"), Gateway, other => {
                    Ok(Json::Truth(the!(self, by("of"), Gateway, gateway => gateway.same(other))?))
                })
            }
            "newest" => {
                let (service, instance) = (text(by("service"))?, number(by("instance"))?);
                let start = number(by("start"))?;
                let newest = the!(self, by("of"), Gateway, gateway => gateway.newest(&service, instance, start))?;
                Ok(Json::number(newest))
            }
            "streams" => Ok(told::streams(
                &the!(self, by("of"), Plan | Export | Gateway, thing => thing.streams())?,
            )?),
            "rows" => self.rows(step),
            "row" => self.row(step),
            "send" => {
                let to = number(by("to"))?;
                let made = the!(self, by("by"), Gateway, gateway => gateway.send(to))?;
                self.make(step, Thing::Message(made))
            }
            "hand" => self.hand(step),
            "message" => {
                let told = the!(self, by("of"), Message, message => message.envelope())?;
                Ok(Json::fields([
                    ("from", Json::number(told.from)),
                    ("to", Json::number(told.to)),
                    ("points", Json::number(told.points)),
                ]))
            }
            "encode" => {
                let made =
                    the!(self, by("of"), Export | Message | Gateway, thing => thing.encode())?;
                self.make(step, Thing::Bytes(made))
            }
            "decode" => self.decode(step),
            "incarnations" => {
                let list = the!(self, by("of"), Gateway | Message, thing => thing.incarnations())?;
                Ok(Json::List(list.iter().map(told::incarnation).collect()))
            }
            "services" => {
                let list = the!(self, by("of"), Gateway, gateway => gateway.services())?;
                Ok(Json::List(list.into_iter().map(Json::Text).collect()))
            }
            "otlp" => {
                let made = the!(self, by("of"), Export, export => export.otlp())?;
                self.make(step, Thing::Bytes(made))
            }
            "of_otlp" => self.of_otlp(step),
            "page" => self.page(step),
            "bytes" => self.changed_bytes(step),
            "bytes_are" => match self.bytes(by("of")) == unhexed(by("hex").text()) {
                true => Ok(Json::Null),
                false => Err(Stopped::Differs("the bytes are others".into())),
            },
            "threads" => self.threads(step),
            "fill" => self.fill(step),
            "decode_often" => self.decode_often(step),
            _ => self.performed_by_archives(step),
        }
    }

    fn performed_by_archives(&mut self, step: &Json) -> Answer {
        let by = |name: &str| step.get(name);
        match by("do").text() {
            "archive" => {
                let (service, instance) = (text(by("service"))?, number(by("instance"))?);
                let (start, limit) = (number(by("start"))?, number(by("limit"))?);
                let made = Archive::begin_under(&service, instance, start, limit)?;
                self.make(step, Thing::Archive(made))
            }
            "adopt" => {
                let (service, instance) = (text(by("service"))?, number(by("instance"))?);
                let start = number(by("start"))?;
                the!(self, by("gateway"), Gateway, gateway => {
                    the!(self, by("by"), Archive, archive => archive.adopt(gateway, &service, instance, start))
                })?;
                Ok(Json::Null)
            }
            "archive_export" => {
                let time = number(by("time"))?;
                let made = the!(self, by("by"), Archive, archive => archive.export(time))?;
                self.make(step, Thing::Export(made))
            }
            "seal" => {
                let start = number(by("start"))?;
                the!(self, by("by"), Archive, archive => archive.seal(start))?;
                Ok(Json::Null)
            }
            "archive_read" => the!(self, by("of"), Archive, archive => Ok(Json::fields([
                ("start", Json::number(archive.start()?)),
                ("adopted", Json::number(archive.adopted()?)),
            ]))),
            other => panic!("no step is {other}"),
        }
    }

    /// What is other than a step says.
    fn fault_of(&mut self, step: &Json) -> Option<String> {
        let (refused, is_out) = (step.find("refused"), step.find("out_of_range").is_some());
        match self.performed(step) {
            Ok(_) if refused.is_some() || is_out => Some("it is not refused".into()),
            Ok(told) => match step.find("is") {
                Some(wanted) if told != written_out(wanted) => Some(format!("it answers {told:?}")),
                _ => None,
            },
            Err(Stopped::OutOfRange) if is_out => None,
            Err(Stopped::Unsayable) => None,
            Err(Stopped::Refused(error)) if refused == Some(&told::refusal(error)) => None,
            Err(Stopped::Differs(what)) => Some(what),
            Err(other) => Some(format!("{other:?}")),
        }
    }
}

/// Threads that each have what was made for them, all of it before one records: a seat that is busy splits none.
fn joined<T: Send>(
    many: usize,
    made: impl FnMut() -> Result<T, Error>,
    record: impl Fn(T) -> Result<(), Error> + Sync,
) -> Result<(), Error> {
    let record = &record;
    let own = std::iter::repeat_with(made).take(many);
    let own: Vec<T> = own.collect::<Result<_, _>>()?;
    thread::scope(|scope| {
        let spawned = own.into_iter().map(|own| scope.spawn(move || record(own)));
        let started: Vec<_> = spawned.collect();
        started
            .into_iter()
            .try_for_each(|thread| thread.join().expect("it ends"))
    })
}

/// The pair of a number, of a writer that holds so many: numbers are the same at each.
fn held(number: usize) -> Option<kotskhin::HeldNumber> {
    let mut instruments = Instruments::new();
    instruments.add("app", "any", "1", Kind::Counter).ok()?;
    let plan = Plan::build(&instruments, 1).ok()?;
    let mut writer = Writer::start(&plan, "any", 1, 1).ok()?;
    let mut made = None;
    for other in 0..=number.min(1000) {
        let set = Attributes::new([("n", i64::try_from(other).ok()?)]).ok()?;
        made = Some(writer.hold(0, &set).ok()?);
    }
    made.filter(|_| number <= 1000)
}

/// How much memory the process has.
fn megabytes() -> usize {
    let told = fs::read_to_string("/proc/self/statm").unwrap_or_default();
    let pages = told.split(' ').nth(1).and_then(|pages| pages.parse().ok());
    pages.map_or(0, |pages: usize| pages * 4 / 1024)
}

#[test]
fn every_case_is_as_the_list_says() {
    let path = concat!(env!("CARGO_MANIFEST_DIR"), "/../../../tests/sdk/cases.json");
    let read = Json::read(&fs::read_to_string(path).expect("the list is there"));
    let (mut performed, mut failed) = (0, Vec::new());
    for case in read.get("cases").list() {
        let wants = case.find("wants").map_or(&[][..], Json::list);
        let wants: Vec<&str> = wants.iter().map(Json::text).collect();
        if wants.contains(&"moved") {
            println!("{}: Rust can't express it", case.get("name").text());
            continue;
        }
        performed += 1;
        let mut run = Run::default();
        let steps = case.get("steps").list().iter();
        let steps = steps.take_while(|step| step.get("do").text() != "close");
        let mut faults = steps.filter_map(|step| {
            let fault = run.fault_of(step)?;
            Some(format!("{}: {step:?}: {fault}", case.get("name").text()))
        });
        failed.extend(faults.next());
    }
    assert!(performed > 30, "there are few cases");
    assert!(failed.is_empty(), "{}", failed.join("\n"));
}
