//! Periodic readers and their exporters: real threads, short intervals, files and sockets.
#![forbid(unsafe_code)]
use kotskhin::metrics::{
    Counter, DEFAULT_INTERVAL, ExportError, FileExporter, FirstOf, HttpExporter, PeriodicReader,
    PushExporter, SdkError, SdkMeterProvider,
};
use kotskhin::{Ask, Error, Export, Gateway, Row};
use std::io::{self, BufRead, BufReader, Read, Write};
use std::net::{TcpListener, TcpStream};
use std::sync::mpsc::{self, Receiver, Sender};
use std::sync::{Arc, Mutex, PoisonError};
use std::thread;
use std::time::{Duration, Instant};
use std::{env, fs, process};

type Done = Result<(), ExportError>;

const SHORT: Duration = Duration::from_millis(10);
const LONG: Duration = Duration::from_secs(30);
const NEVER: Duration = Duration::from_secs(1 << 40);

fn requests(provider: &SdkMeterProvider) -> Counter<u64> {
    let meter = provider.meter("app");
    meter.u64_counter("requests").with_unit("1").build()
}

/// (a provider may be collected from between its start and the first recording: there is no row then)
fn total(bytes: &[u8]) -> Result<i128, Error> {
    let mut gateway = Gateway::open(1)?;
    gateway.take(&Export::decode(bytes)?)?;
    let rows = gateway.rows(&Ask::sum("app", "requests", "1", true)?)?;
    Ok(rows.all()?.iter().filter_map(Row::sum).sum())
}

/// What an exporter was asked.
#[derive(Debug, PartialEq)]
enum Asked {
    Total(i128),
    Flush,
    End,
}

/// An exporter that tells what it is asked, and fails as often as the list says.
struct Telling {
    failures: usize,
    told: Sender<Asked>,
}

impl PushExporter for Telling {
    fn export(&mut self, export: &Export) -> Result<(), ExportError> {
        if self.failures > 0 {
            self.failures -= 1;
            return Err("the line is down".into());
        }
        Ok(self.told.send(Asked::Total(total(&export.encode()?)?))?)
    }

    fn force_flush(&mut self) -> Result<(), ExportError> {
        Ok(self.told.send(Asked::Flush)?)
    }

    fn shutdown(&mut self) -> Result<(), ExportError> {
        Ok(self.told.send(Asked::End)?)
    }
}

fn telling(failures: usize) -> (Telling, Receiver<Asked>) {
    let (told, heard) = mpsc::channel();
    (Telling { failures, told }, heard)
}

/// What comes next, but for exports of nothing.
fn next(heard: &Receiver<Asked>) -> Result<Asked, ExportError> {
    loop {
        match heard.recv_timeout(LONG)? {
            Asked::Total(0) => (),
            asked => return Ok(asked),
        }
    }
}

/// What a reader's hook was told.
#[derive(Clone, Default)]
struct Failed(Arc<Mutex<Vec<String>>>);

impl Failed {
    fn hook(&self) -> impl Fn(&SdkError) + Send + Sync + 'static {
        let list = self.clone();
        move |why| list.list().push(why.to_string())
    }

    fn list(&self) -> std::sync::MutexGuard<'_, Vec<String>> {
        self.0.lock().unwrap_or_else(PoisonError::into_inner)
    }

    /// Once something was told.
    fn first(&self) -> String {
        self.once("");
        self.list().first().cloned().unwrap_or_default()
    }

    /// Whether something is told, soon or late, that has these words.
    fn once(&self, words: &str) -> bool {
        let began = Instant::now();
        let is_told = || self.list().iter().any(|line| line.contains(words));
        while !is_told() && began.elapsed() < LONG {
            thread::sleep(SHORT);
        }
        is_told()
    }
}

#[test]
fn it_collects_once_in_an_interval() -> Done {
    let (exporter, heard) = telling(0);
    let reader = PeriodicReader::builder(exporter).with_interval(SHORT);
    let provider = SdkMeterProvider::builder()
        .with_reader(reader.build())
        .build();
    let requests = requests(&provider);
    // (nothing is brought before the first recording)
    assert!(heard.recv_timeout(SHORT * 5).is_err());
    let began = Instant::now();
    requests.add(7, &[]);
    for ticks in 0..=4_u32 {
        assert_eq!(next(&heard)?, Asked::Total(7));
        // (the first tick may have been due as the recording came, and be late)
        let is_due = began.elapsed() >= SHORT * ticks.saturating_sub(1);
        assert!(is_due, "collection {ticks} is early");
    }
    provider.shutdown()?;
    let rest: Vec<Asked> = heard.try_iter().collect();
    assert_eq!(rest[rest.len() - 2..], [Asked::Total(7), Asked::End]);
    assert_eq!((provider.failed(), provider.refused()), (0, 0));
    assert_eq!(DEFAULT_INTERVAL, Duration::from_secs(60));
    let reader = PeriodicReader::builder(telling(0).0).with_interval(Duration::ZERO);
    let shown = format!("{:?}", reader.build());
    assert!(shown.contains("interval: 60s"), "{shown}");
    Ok(())
}

#[test]
fn a_flush_collects_now_and_a_shutdown_for_the_last_time() -> Done {
    let (exporter, heard) = telling(0);
    let reader = PeriodicReader::builder(exporter).with_interval(NEVER);
    let provider = SdkMeterProvider::builder()
        .with_reader(reader.build())
        .build();
    let requests = requests(&provider);
    requests.add(3, &[]);
    provider.force_flush()?;
    // (a thread's log that is not yet taken in counts)
    requests.add(4, &[]);
    provider.shutdown()?;
    requests.add(5, &[]);
    let asked: Vec<Asked> = heard.try_iter().collect();
    assert_eq!(
        asked,
        [Asked::Total(3), Asked::Flush, Asked::Total(7), Asked::End]
    );
    // (the threads are joined: with its exporter the other end of the channel is gone)
    assert_eq!(heard.try_recv(), Err(mpsc::TryRecvError::Disconnected));
    assert!(matches!(
        provider.shutdown(),
        Err(SdkError::AlreadyShutdown)
    ));
    assert!(provider.force_flush().is_err());
    assert_eq!(provider.refused(), 1);
    Ok(())
}

#[test]
fn the_next_collection_covers_an_export_that_failed() -> Done {
    let ((exporter, heard), failed) = (telling(2), Failed::default());
    let reader = PeriodicReader::builder(exporter)
        .with_interval(SHORT)
        .on_failed(failed.hook());
    let provider = SdkMeterProvider::builder()
        .with_reader(reader.build())
        .build();
    requests(&provider).add(7, &[]);
    assert_eq!(next(&heard)?, Asked::Total(7));
    let down = "the export was not brought: the line is down";
    assert_eq!(
        (failed.list().as_slice(), provider.failed()),
        (&[down.to_owned(), down.to_owned()][..], 2)
    );
    Ok(())
}

#[test]
fn a_flush_that_failed_hands_its_export_back() -> Done {
    let (exporter, heard) = telling(1);
    let reader = PeriodicReader::builder(exporter).with_interval(NEVER);
    let provider = SdkMeterProvider::builder()
        .with_reader(reader.build())
        .build();
    let requests = requests(&provider);
    requests.add(3, &[]);
    match provider.force_flush() {
        Err(SdkError::Export { error, unsent }) => {
            assert_eq!(error.to_string(), "the line is down");
            assert_eq!(total(&unsent.encode()?)?, 3);
        }
        other => panic!("{other:?}"),
    }
    for wanted in [7, 11] {
        requests.add(4, &[]);
        provider.force_flush()?;
        let asked: Vec<Asked> = heard.try_iter().collect();
        assert_eq!(asked, [Asked::Total(wanted), Asked::Flush]);
    }
    assert_eq!(provider.failed(), 1);
    Ok(())
}

/// Threads record while the reader collects; what the exporter has at the end is what they recorded.
#[test]
fn nothing_is_lost_between_threads_and_reader() -> Done {
    let (exporter, heard) = telling(0);
    let reader = PeriodicReader::builder(exporter).with_interval(Duration::from_millis(1));
    let provider = SdkMeterProvider::builder()
        .with_reader(reader.build())
        .build();
    let requests = requests(&provider);
    thread::scope(|scope| {
        for _ in 0..4 {
            scope.spawn(|| (0..10_000).for_each(|_| requests.add(1, &[])));
        }
    });
    provider.shutdown()?;
    let totals = heard.iter().filter_map(|heard| match heard {
        Asked::Total(total) => Some(total),
        _ => None,
    });
    let totals: Vec<i128> = totals.collect();
    assert!(totals.is_sorted(), "{totals:?}");
    assert_eq!((totals.last(), provider.refused()), (Some(&40_000), 0));
    Ok(())
}

#[test]
fn a_last_export_that_failed_is_handed_back() -> Done {
    let (exporter, heard) = telling(1);
    let reader = PeriodicReader::builder(exporter).with_interval(NEVER);
    let provider = SdkMeterProvider::builder()
        .with_reader(reader.build())
        .build();
    requests(&provider).add(7, &[]);
    match provider.shutdown() {
        Err(SdkError::Export { error, unsent }) => {
            assert_eq!(error.to_string(), "the line is down");
            assert_eq!(total(&unsent.encode()?)?, 7);
        }
        other => panic!("{other:?}"),
    }
    assert_eq!(heard.try_iter().collect::<Vec<_>>(), [Asked::End]);
    Ok(())
}

#[test]
fn two_readers_bring_the_same() -> Done {
    let ((one, first), (other, second)) = (telling(0), telling(0));
    let readers = [one, other].map(|exporter| {
        PeriodicReader::builder(exporter)
            .with_interval(NEVER)
            .build()
    });
    let provider = readers
        .into_iter()
        .fold(SdkMeterProvider::builder(), |builder, reader| {
            builder.with_reader(reader)
        })
        .build();
    requests(&provider).add(7, &[]);
    provider.shutdown()?;
    for heard in [first, second] {
        assert_eq!(
            heard.try_iter().collect::<Vec<_>>(),
            [Asked::Total(7), Asked::End]
        );
    }
    Ok(())
}

#[test]
fn an_export_that_takes_too_long_is_told() -> Done {
    let (go, gone) = mpsc::channel::<()>();
    let failed = Failed::default();
    let exporter = move |_: &Export| Ok::<(), ExportError>(gone.recv()?);
    let reader = PeriodicReader::builder(exporter)
        .with_interval(SHORT)
        .with_timeout(SHORT)
        .on_failed(failed.hook());
    let provider = SdkMeterProvider::builder()
        .with_reader(reader.build())
        .build();
    requests(&provider).add(7, &[]);
    assert_eq!(failed.first(), "the exporter took longer than is allowed");
    let began = Instant::now();
    assert!(provider.force_flush_with_timeout(SHORT * 20).is_err());
    assert!(
        began.elapsed() < LONG,
        "a flush waits no longer than it says"
    );
    assert!(failed.once("goes on"), "{:?}", failed.list());
    // (once the call ends, the next one is made)
    drop(go);
    let _ = provider.force_flush();
    Ok(())
}

#[test]
fn an_exporter_that_panics_is_told() -> Done {
    let failed = Failed::default();
    let exporter = |_: &Export| -> Result<(), ExportError> { panic!("its own") };
    let reader = PeriodicReader::builder(exporter).with_interval(NEVER);
    let provider = SdkMeterProvider::builder()
        .with_reader(reader.on_failed(failed.hook()).build())
        .build();
    let requests = requests(&provider);
    requests.add(7, &[]);
    assert!(provider.force_flush().is_err());
    // (who records does not feel it)
    requests.add(1, &[]);
    assert_eq!(provider.refused(), 0);
    let shut = provider.shutdown();
    assert!(matches!(shut, Err(SdkError::Export { .. })), "{shut:?}");
    let panicked = "the export was not brought: the exporter panicked";
    assert_eq!(*failed.list(), [panicked, panicked]);
    Ok(())
}

#[test]
fn a_provider_that_is_dropped_shuts_down() -> Done {
    let (exporter, heard) = telling(0);
    let reader = PeriodicReader::builder(exporter).with_interval(NEVER);
    let provider = SdkMeterProvider::builder()
        .with_reader(reader.build())
        .build();
    requests(&provider).add(7, &[]);
    drop(provider);
    assert_eq!(
        heard.try_iter().collect::<Vec<_>>(),
        [Asked::Total(7), Asked::End]
    );
    Ok(())
}

fn file_of(name: &str) -> std::path::PathBuf {
    env::temp_dir().join(format!("kotskhin-{name}-{}", process::id()))
}

#[test]
fn a_file_has_the_newest_export() -> Done {
    let path = file_of("readers");
    let reader = PeriodicReader::builder(FileExporter::new(&path)).with_interval(NEVER);
    let provider = SdkMeterProvider::builder()
        .with_reader(reader.build())
        .build();
    let requests = requests(&provider);
    for (more, wanted) in [(3, 3), (4, 7)] {
        requests.add(more, &[]);
        provider.force_flush()?;
        assert_eq!(total(&fs::read(&path)?)?, wanted);
    }
    let mut otlp = FileExporter::new(&path).with_otlp();
    otlp.export(&provider.collect()?)?;
    assert_eq!(Export::of_otlp(&fs::read(&path)?)?.len(), 1);
    let nowhere = FileExporter::new("/nowhere/at/all");
    let mut failing = nowhere.with_encoding(|export| Ok(export.encode()?));
    assert!(failing.export(&provider.collect()?).is_err());
    // (the last export is a file, too)
    provider.shutdown()?;
    fs::remove_file(&path)?;
    Ok(())
}

/// Reads a request, and answers with a line.
fn served(stream: TcpStream, answer: &str) -> io::Result<(Vec<String>, Vec<u8>)> {
    let mut reader = BufReader::new(stream);
    let (mut head, mut body) = (Vec::new(), Vec::new());
    loop {
        let mut line = String::new();
        reader.read_line(&mut line)?;
        match line.trim_end() {
            "" => break,
            told => head.push(told.to_owned()),
        }
    }
    let length = head
        .iter()
        .find_map(|line| line.strip_prefix("Content-Length: "));
    let length = length.and_then(|length| length.parse().ok()).unwrap_or(0);
    reader.by_ref().take(length).read_to_end(&mut body)?;
    reader.get_mut().write_all(answer.as_bytes())?;
    Ok((head, body))
}

#[test]
fn http_brings_an_export_and_tells_what_is_answered() -> Done {
    let listener = TcpListener::bind("127.0.0.1:0")?;
    let url = format!("http://{}/v1/metrics?a=b", listener.local_addr()?);
    let answers = [
        "HTTP/1.1 200 OK\r\n\r\n",
        "HTTP/1.1 202 Fine\r\n\r\n",
        "HTTP/1.1 503 Busy\r\n\r\n",
        "what\n",
        "",
    ];
    let server = thread::spawn(move || {
        let mut told = Vec::new();
        for (answer, stream) in answers.iter().zip(listener.incoming()) {
            told.push(served(stream?, answer)?);
        }
        Ok::<_, io::Error>(told)
    });
    let provider = SdkMeterProvider::builder().build();
    requests(&provider).add(7, &[]);
    let export = provider.collect()?;
    let mut exporter = HttpExporter::new(&url)?.with_header("X-Shop", "one")?;
    exporter.export(&export)?;
    let mut own = HttpExporter::new(&url)?.with_own_bytes();
    own.export(&export)?;
    let mut faults = Vec::new();
    for _ in 2..answers.len() {
        faults.extend(exporter.export(&export).err().map(|why| why.to_string()));
    }
    assert!(
        faults[0].ends_with("answered 'HTTP/1.1 503 Busy'"),
        "{faults:?}"
    );
    assert!(faults[1].ends_with("answered 'what'"), "{faults:?}");
    assert_eq!(faults.len(), 3);
    let told = server.join().map_err(|_| "the server panicked")??;
    let (head, body) = &told[0];
    assert_eq!(head[0], "POST /v1/metrics?a=b HTTP/1.1");
    assert!(head.contains(&"X-Shop: one".into()), "{head:?}");
    assert!(head.contains(&"Content-Type: application/x-protobuf".into()));
    let brought = Export::of_otlp(body)?;
    assert_eq!((brought.len(), total(&brought[0].encode()?)?), (1, 7));
    let (head, body) = &told[1];
    assert!(head.contains(&"Content-Type: application/vnd.kotskhin.export".into()));
    assert_eq!(total(body)?, 7);
    Ok(())
}

#[test]
fn the_next_exporter_where_one_fails() -> Done {
    let asked = Arc::new(Mutex::new(Vec::new()));
    let down = Arc::new(Mutex::new(Vec::new()));
    let gateway = |number: i32| -> Box<dyn PushExporter> {
        let (asked, down) = (asked.clone(), down.clone());
        Box::new(move |_: &Export| -> Result<(), ExportError> {
            asked.lock().unwrap().push(number);
            match down.lock().unwrap().contains(&number) {
                true => Err(format!("{number} is down").into()),
                false => Ok(()),
            }
        })
    };
    let provider = SdkMeterProvider::builder().build();
    requests(&provider).add(7, &[]);
    let export = provider.collect()?;
    let mut all = FirstOf::new(vec![gateway(1), gateway(2), gateway(3)]);
    for (away, wanted) in [
        (vec![], vec![1]),
        (vec![1, 2], vec![1, 2, 3]),
        (vec![], vec![3]),
    ] {
        asked.lock().unwrap().clear();
        *down.lock().unwrap() = away;
        all.export(&export)?;
        assert_eq!(*asked.lock().unwrap(), wanted);
    }
    *down.lock().unwrap() = vec![1, 2, 3];
    let fault = all.export(&export).err().map(|why| why.to_string());
    assert_eq!(fault, Some("2 is down".to_owned()));
    assert!(FirstOf::new(Vec::new()).export(&export).is_err());
    all.shutdown()?;
    Ok(())
}

#[test]
fn http_waits_no_longer_than_it_says() -> Done {
    let listener = TcpListener::bind("127.0.0.1:0")?;
    let url = format!("http://{}", listener.local_addr()?);
    let provider = SdkMeterProvider::builder().build();
    requests(&provider).add(7, &[]);
    let mut exporter = HttpExporter::new(&url)?.with_timeout(SHORT * 10);
    let began = Instant::now();
    let fault = exporter.export(&provider.collect()?).err();
    let waited = fault.and_then(|why| why.downcast::<io::Error>().ok());
    assert_eq!(waited.map(|why| why.kind()), Some(io::ErrorKind::TimedOut));
    assert!(began.elapsed() < LONG);
    Ok(())
}

#[test]
fn urls_and_headers_that_are_none_are_refused() -> Done {
    for bad in [
        "https://host/",
        "host",
        "http://",
        "http://:80",
        "http://host:no",
        "http://host:0",
        "http://host:65536",
        "http://a b/",
        "http://a/\r\nX: y",
        "http://me@host/",
    ] {
        assert!(HttpExporter::new(bad).is_err(), "{bad}");
    }
    for (good, shown) in [
        ("http://host", "HttpExporter(host:80/)"),
        (
            "http://host:4318/v1/metrics",
            "HttpExporter(host:4318/v1/metrics)",
        ),
        ("http://[::1]:9", "HttpExporter([::1]:9/)"),
        ("http://[::1]", "HttpExporter([::1]:80/)"),
        ("http://host?a", "HttpExporter(host:80/?a)"),
    ] {
        assert_eq!(format!("{:?}", HttpExporter::new(good)?), shown);
    }
    let good = || HttpExporter::new("http://host");
    assert!(good()?.with_header("A", "b\r\nC: d").is_err());
    assert!(good()?.with_header("A:", "b").is_err());
    assert!(good()?.with_header("", "b").is_err());
    assert!(
        good()?
            .with_encoding("a\nb", |export| Ok(export.encode()?))
            .is_err()
    );
    Ok(())
}
