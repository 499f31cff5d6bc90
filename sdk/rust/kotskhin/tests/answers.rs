//! What answers of 2xx say was not taken: real sockets, and answers that are good, cut, long and of other servers.
#![forbid(unsafe_code)]
use kotskhin::metrics::{
    ExportError, FirstOf, HttpExporter, NotTaken, PeriodicReader, PushExporter, SdkError,
    SdkMeterProvider,
};
use kotskhin::{Ask, Export, Gateway};
use std::io::{self, BufRead, BufReader, Read, Write};
use std::net::TcpListener;
use std::sync::atomic::{AtomicUsize, Ordering};
use std::sync::{Arc, Mutex};
use std::thread;
use std::time::{Duration, Instant};

type Done = Result<(), ExportError>;

const MOST: usize = 64 << 10;
const NEVER: Duration = Duration::from_secs(1 << 40);

/// A server that answers everything by the same bytes, and keeps connections open for so long then.
struct Server {
    url: String,
    asked: Arc<AtomicUsize>,
}

impl Server {
    fn open(answer: Vec<u8>, stays: Duration) -> io::Result<Server> {
        let listener = TcpListener::bind("127.0.0.1:0")?;
        let url = format!("http://{}/v1/metrics", listener.local_addr()?);
        let asked = Arc::new(AtomicUsize::new(0));
        let counted = Arc::clone(&asked);
        thread::spawn(move || {
            for stream in listener.incoming() {
                counted.fetch_add(1, Ordering::SeqCst);
                let mut reader = BufReader::new(stream?);
                let mut length = 0;
                loop {
                    let mut line = String::new();
                    reader.read_line(&mut line)?;
                    if let Some(told) = line.strip_prefix("Content-Length: ") {
                        length = told.trim().parse().unwrap_or(0);
                    }
                    if line.trim().is_empty() {
                        break;
                    }
                }
                io::copy(&mut reader.by_ref().take(length), &mut io::sink())?;
                // (who looks at no more may hang up)
                let _ = reader.get_mut().write_all(&answer);
                thread::sleep(stays);
            }
            Ok::<_, io::Error>(())
        });
        Ok(Server { url, asked })
    }

    fn asked(&self) -> usize {
        self.asked.load(Ordering::SeqCst)
    }
}

fn with_length(body: &[u8]) -> Vec<u8> {
    let head = format!("HTTP/1.1 200 OK\r\ncontent-length: {}\r\n\r\n", body.len());
    [head.as_bytes(), body].concat()
}

fn provider() -> SdkMeterProvider {
    let provider = SdkMeterProvider::builder().build();
    let meter = provider.meter("app");
    meter.u64_counter("requests").build().add(7, &[]);
    provider
}

/// What an exporter says was not taken, by an answer; nothing where it says that all was.
fn said(answer: Vec<u8>) -> Result<Option<NotTaken>, ExportError> {
    let server = Server::open(answer, Duration::ZERO)?;
    let told = HttpExporter::new(&server.url)?.export(&provider().collect()?);
    assert_eq!(server.asked(), 1);
    match told {
        Ok(()) => Ok(None),
        Err(why) => why.downcast::<NotTaken>().map(|found| Some(*found)),
    }
}

/// Points, exports and the message that a body says were not taken.
fn of(body: &[u8]) -> Result<Option<(u64, u64, String)>, ExportError> {
    Ok(said(with_length(body))?.map(|found| (found.points, found.exports, found.message)))
}

/// An answer of OTLP: so many points were rejected, for a reason.
fn partial(points: u8, why: &[u8]) -> Vec<u8> {
    let inner = [&[8, points, 18, why.len() as u8], why].concat();
    [&[10, inner.len() as u8], &inner[..]].concat()
}

#[test]
fn points_that_were_rejected_fail_the_export() -> Done {
    let good = partial(3, b"why");
    for (body, points, message) in [
        (partial(3, b"3 points: LATE"), 3, "3 points: LATE"),
        (partial(3, b""), 3, ""),
        (partial(3, b"\xff"), 3, "\u{fffd}"),
        // (fields that are not known, and one that comes twice)
        (
            [b"\x12\x01a\x1d1234\x2112345678\x28\x7f", &good[..]].concat(),
            3,
            "why",
        ),
        ([&good[..], b"\x0a\x02\x08\x05"].concat(), 5, "why"),
        (b"\x0a\x09\x0a\x01a\x10\x07\x18\x07\x08\x03".to_vec(), 3, ""),
        // (its length is a brace)
        (partial(3, &[b'w'; 119]), 3, &"w".repeat(119)),
    ] {
        assert_eq!(
            of(&body)?,
            Some((points, 0, message.to_owned())),
            "{body:?}"
        );
    }
    // (one that is as long as is looked at, and one that is longer)
    let whole = [&good[..], b"\x12\xf3\xff\x03", &[b'x'; 0xfff3]].concat();
    assert_eq!(of(&whole)?.map(|found| found.0), Some(3));
    let long = [&good[..], b"\x12\xf4\xff\x03", &[b'x'; 0xfff4]].concat();
    let below = [b"\x0a\x0b\x08", &[255; 9][..], b"\x01"].concat();
    let endless = [b"\x0a\x0c\x08", &[255; 11][..]].concat();
    let mut others = vec![long, below, endless, partial(0, b"a warning")];
    others.extend(["", "\x0a\x00", "OK\n", "{}", "\x00", "\x08\x05"].map(|text| text.into()));
    others.extend([[&good[..], b"\x0a"].concat(), [&good[..], b"\x0b"].concat()]);
    others.extend((1..good.len()).map(|cut| good[..cut].to_vec()));
    for body in others {
        assert_eq!(of(&body)?, None, "{:?}", &body[..body.len().min(40)]);
    }
    Ok(())
}

#[test]
fn exports_that_were_late_fail_the_export() -> Done {
    let (many, long) = ("9".repeat(19), "2".repeat(25));
    for (header, exports) in [
        ("Kotskhin-Late: 2\r\n", 2),
        ("A: b\r\nkotskhin-LATE:2 \r\n", 2),
        (&format!("Kotskhin-Late: {many}\r\n"), many.parse()?),
        ("", 0),
        ("Kotskhin-Late: 0\r\n", 0),
        ("Kotskhin-Late:\r\n", 0),
        ("Kotskhin-Late: two\r\n", 0),
        ("Kotskhin-Late: -2\r\n", 0),
        ("Kotskhin-Late: +2\r\n", 0),
        ("Kotskhin-Late: 2.0\r\n", 0),
        (&format!("Kotskhin-Late: {long}\r\n"), 0),
    ] {
        for body in [
            &b"{\"exports\":3,\"points\":3,\"late\":2}\n"[..],
            &[b'x'; 4 * MOST],
        ] {
            let answer = [b"HTTP/1.1 200 OK\r\n", header.as_bytes(), b"\r\n", body].concat();
            let told = said(answer)?.map_or((0, 0), |found| (found.points, found.exports));
            assert_eq!(told, (0, exports), "{header}");
        }
    }
    let both = b"HTTP/1.1 200 OK\r\nKotskhin-Late: 2\r\n\r\n";
    let told = said([&both[..], &partial(3, b"why")].concat())?;
    assert_eq!(
        told.map(|found| (found.points, found.exports)),
        Some((3, 0))
    );
    Ok(())
}

/// A body comes by its length, by chunks, or up to the end; what does not come whole says nothing.
#[test]
fn bodies_of_each_form_are_read() -> Done {
    let good = partial(3, b"why");
    let told = |head: &str, body: &[u8]| {
        let answer = [b"HTTP/1.1 200 OK\r\n", head.as_bytes(), b"\r\n", body].concat();
        Ok::<_, ExportError>(said(answer)?.map(|found| found.points))
    };
    let chunked = "Transfer-Encoding: chunked\r\n";
    let chunks = |more: &str| {
        let of = |part: &[u8], size: &str| [size.as_bytes(), b"\r\n", part, b"\r\n"].concat();
        [of(&good[..4], "4"), of(&good[4..], "5;a=b"), more.into()].concat()
    };
    assert_eq!(told("", &good)?, Some(3));
    assert_eq!(told("A: b\r\nContent-Length: 9 \r\n", &good)?, Some(3));
    assert_eq!(
        told("Content-Length: 9\r\n", &[&good[..], b"behind"].concat())?,
        Some(3)
    );
    assert_eq!(told(chunked, &chunks("0\r\n\r\n"))?, Some(3));
    assert_eq!(told("Content-Length: 10\r\n", &good)?, None);
    assert_eq!(told("Content-Length: -9\r\n", &good)?, Some(3));
    for more in [
        "",
        "0",
        "what\r\n",
        "ffffffffffffffff\r\n",
        "-1\r\n",
        "10001\r\n",
        "2\r\nab",
    ] {
        assert_eq!(told(chunked, &chunks(more))?, None, "{more}");
    }
    Ok(())
}

#[test]
fn heads_that_are_cut_or_long_say_nothing() -> Done {
    for head in ["HTTP/1.1 200 OK\r\n", "HTTP/1.1 200 OK\r\nA: b"] {
        assert_eq!(said(head.into())?, None);
    }
    let good = partial(3, b"why");
    let headers = "A: b\r\n".repeat(MOST);
    let long = ["HTTP/1.1 200 OK\r\n", &headers, "\r\n"].concat();
    assert_eq!(said([long.as_bytes(), &good[..]].concat())?, None);
    let refused = [b"HTTP/1.1 503 Busy\r\n\r\n", &good[..]].concat();
    assert!(said(refused).is_err());
    Ok(())
}

/// Who does not hang up is waited for no longer than for the end of the body, or as the exporter says.
#[test]
fn an_answer_ends_where_it_says() -> Done {
    let export = provider().collect()?;
    let (stays, short) = (Duration::from_secs(60), Duration::from_secs(3));
    let good = with_length(&partial(3, b"why"));
    let none = b"HTTP/1.1 204 No Content\r\n\r\n".to_vec();
    let open = [b"HTTP/1.1 200 OK\r\n\r\n", &partial(3, b"why")[..]].concat();
    for (answer, timeout, is_taken) in [
        (good, stays, false),
        (none, stays, true),
        (open, short, false),
    ] {
        let server = Server::open(answer, stays)?;
        let began = Instant::now();
        let told = HttpExporter::new(&server.url)?
            .with_timeout(timeout)
            .export(&export);
        assert_eq!(told.is_ok(), is_taken);
        assert!(told.err().is_none_or(|fault| fault.is::<NotTaken>()));
        assert!(began.elapsed() < stays / 2);
    }
    Ok(())
}

/// What an exporter says of an answer that is none of 2xx, behind the address.
fn why(answer: &[u8], stays: Duration) -> Result<String, ExportError> {
    let server = Server::open(answer.to_vec(), stays)?;
    let told = HttpExporter::new(&server.url)?.export(&provider().collect()?);
    let told = told.err().ok_or("it is taken")?.to_string();
    let place = server.url.split('/').nth(2).unwrap_or_default();
    let words = told.strip_prefix(&format!("{place} answered "));
    Ok(words.ok_or(told.clone())?.to_owned())
}

/// A gateway says why it does not take an export: the first line of that is for people.
#[test]
fn a_refusal_has_the_first_line_of_its_body() -> Done {
    let head = "HTTP/1.1 403 Forbidden\r\n";
    let long = "w".repeat(4 * MOST);
    for (rest, wanted) in [
        ("\r\n", ""),
        ("\r\nno such service", ": no such service"),
        (
            "\r\nno\u{1b}[1m\u{7} such\tservice \r\nX: y",
            ": no[1m suchservice",
        ),
        ("Content-Length: 4\r\n\r\nnone of this", ": none"),
        ("Content-Length: 0\r\n\r\nnone of this", ""),
        ("Content-Length: 99\r\n\r\ncut", ": cut"),
        (
            "Transfer-Encoding: chunked\r\n\r\n3;a=b\r\nwhy\r\n0\r\n\r\n",
            ": why",
        ),
        ("Transfer-Encoding: chunked\r\n\r\nwhat\r\nwhy", ": why"),
        ("Transfer-Encoding: chunked\r\n\r\n", ""),
        (&format!("\r\n{long}"), &format!(": {}", &long[..1024])),
        (
            &format!("Content-Length: {}\r\n\r\n{long}", long.len()),
            &format!(": {}", &long[..1024]),
        ),
        (&format!("A: {long}\r\n\r\nwhy"), ""),
        ("A: b", ""),
    ] {
        let told = why([head, rest].concat().as_bytes(), Duration::ZERO)?;
        assert_eq!(told, format!("'HTTP/1.1 403 Forbidden'{wanted}"));
    }
    let told = why(b"HTTP/1.1 500 \xff\x07\r\n\r\n\xff\x00!", Duration::ZERO)?;
    assert_eq!(told, "'HTTP/1.1 500 \u{fffd}': \u{fffd}!");
    Ok(())
}

#[test]
fn the_body_of_a_refusal_is_not_waited_for_long() -> Done {
    let (stays, began) = (Duration::from_secs(60), Instant::now());
    for (answer, wanted) in [
        ("HTTP/1.1 403 No\r\n", "'HTTP/1.1 403 No'"),
        ("HTTP/1.1 403 No\r\n\r\nbegun", "'HTTP/1.1 403 No': begun"),
        ("HTTP/1.1 403 No\r\n\r\nwhole\n", "'HTTP/1.1 403 No': whole"),
    ] {
        assert_eq!(why(answer.as_bytes(), stays)?, wanted);
    }
    assert!(began.elapsed() < stays / 2);
    Ok(())
}

#[test]
fn no_other_gateway_is_asked() -> Done {
    let answers = [
        b"HTTP/1.1 503 Busy\r\n\r\n".to_vec(),
        b"HTTP/1.1 200 OK\r\nKotskhin-Late: 1\r\n\r\n".to_vec(),
        with_length(b""),
    ];
    let (mut servers, mut gateways) = (Vec::new(), Vec::<Box<dyn PushExporter>>::new());
    for answer in answers {
        let server = Server::open(answer, Duration::ZERO)?;
        gateways.push(Box::new(HttpExporter::new(&server.url)?.with_own_bytes()));
        servers.push(server);
    }
    let (mut all, export) = (FirstOf::new(gateways), provider().collect()?);
    for turn in 1..3 {
        let fault = all.export(&export).err();
        let told = fault.and_then(|fault| fault.downcast::<NotTaken>().ok());
        assert_eq!(told.map(|found| found.exports), Some(1));
        let asked: Vec<_> = servers.iter().map(Server::asked).collect();
        assert_eq!(asked, [1, turn, 0]);
    }
    Ok(())
}

/// A reader counts it among what failed, and tells its hook.
#[test]
fn a_reader_tells_what_was_not_taken() -> Done {
    let server = Server::open(with_length(&partial(1, b"LATE")), Duration::ZERO)?;
    let failed = Arc::new(Mutex::new(Vec::new()));
    let told = Arc::clone(&failed);
    let reader = PeriodicReader::builder(HttpExporter::new(&server.url)?).with_interval(NEVER);
    let reader = reader.on_failed(move |why| {
        if let SdkError::Export { error, .. } = why {
            let why = error.downcast_ref::<NotTaken>();
            told.lock().unwrap().extend(why.map(|found| found.points));
        }
    });
    let builder = SdkMeterProvider::builder().with_reader(reader.build());
    let provider = builder.build();
    let meter = provider.meter("app");
    meter.u64_counter("requests").build().add(7, &[]);
    let fault = provider.force_flush().err().map(|fault| fault.to_string());
    assert!(fault.is_some_and(|text| text.contains("1 points were not taken: LATE")));
    match provider.shutdown() {
        Err(SdkError::Export { error, unsent }) => {
            assert!(error.is::<NotTaken>());
            assert_eq!(total(&unsent)?, "7");
        }
        other => return Err(format!("{other:?}").into()),
    }
    assert_eq!(*failed.lock().unwrap(), [1, 1]);
    assert_eq!(provider.failed(), 2);
    Ok(())
}

fn total(export: &Export) -> Result<String, ExportError> {
    let mut gateway = Gateway::open(1)?;
    gateway.take(export)?;
    let table = gateway.table(&Ask::sum("app", "requests", "", true)?)?;
    Ok(table
        .split_whitespace()
        .last()
        .unwrap_or_default()
        .to_owned())
}

#[test]
fn what_it_says() {
    let mut told = NotTaken::default();
    told.points = 3;
    assert_eq!(told.to_string(), "3 points were not taken");
    told.message = "LATE".to_owned();
    assert_eq!(told.to_string(), "3 points were not taken: LATE");
    let mut told = NotTaken::default();
    told.exports = 2;
    assert_eq!(told.to_string(), "2 exports came late, and were not taken");
}
