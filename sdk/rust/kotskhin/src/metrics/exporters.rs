//! Exporters: tables, a file, and HTTP.
use super::answers::{MOST, NotTaken, not_taken};
use super::bodies::{parse_body, parse_first_line, parse_late};
use super::files;
use crate::ask::Ask;
use crate::export::Export;
use crate::gateway::Gateway;
use crate::logging::strip_controls;
use crate::streams::Stream;
use std::fmt;
use std::io::{self, ErrorKind, Read, Write};
use std::net::{TcpStream, ToSocketAddrs};
use std::path::PathBuf;
use std::time::{Duration, Instant};

/// Why an exporter failed, in its own words.
pub type ExportError = Box<dyn std::error::Error + Send + Sync>;

/// What brings exports to where they are taken (OpenTelemetry Metrics SDK, "Push Metric Exporter"). A closure is one.
///
/// Its calls come one after another, on a thread of the reader's. A call is to end by itself: bound the time of what it waits for.
pub trait PushExporter: Send {
    /// Brings an export. One that fails is not tried again: exports are cumulative, so the next one covers it.
    fn export(&mut self, export: &Export) -> Result<(), ExportError>;

    /// Brings what was not brought yet, where the exporter keeps anything.
    fn force_flush(&mut self) -> Result<(), ExportError> {
        Ok(())
    }

    /// Ends it. No call comes after this.
    fn shutdown(&mut self) -> Result<(), ExportError> {
        Ok(())
    }
}

impl<F> PushExporter for F
where
    F: FnMut(&Export) -> Result<(), ExportError> + Send,
{
    fn export(&mut self, export: &Export) -> Result<(), ExportError> {
        self(export)
    }
}

/// How an export goes as bytes.
type Encode = Box<dyn Fn(&Export) -> Result<Vec<u8>, ExportError> + Send>;

/// The kit's own bytes (docs/design/BYTES.md).
fn own_bytes() -> Encode {
    Box::new(|export| Ok(export.encode()?))
}

/// A request of OTLP.
fn otlp() -> Encode {
    Box::new(|export| Ok(export.otlp()?))
}

/// Writes a table of each stream of an export: to the standard output, or where else is said.
pub struct ConsoleExporter(Box<dyn Write + Send>);

impl fmt::Debug for ConsoleExporter {
    fn fmt(&self, f: &mut fmt::Formatter<'_>) -> fmt::Result {
        write!(f, "ConsoleExporter")
    }
}

impl Default for ConsoleExporter {
    fn default() -> ConsoleExporter {
        ConsoleExporter::new(io::stdout())
    }
}

impl ConsoleExporter {
    pub fn new(into: impl Write + Send + 'static) -> ConsoleExporter {
        ConsoleExporter(Box::new(into))
    }
}

impl PushExporter for ConsoleExporter {
    fn export(&mut self, export: &Export) -> Result<(), ExportError> {
        let mut gateway = Gateway::open(0)?;
        gateway.take(export)?;
        let streams = gateway.streams()?;
        for (number, stream) in streams.all()?.iter().enumerate() {
            let table = gateway.table(&Ask::stream(&streams, number)?)?;
            let Stream {
                scope, name, unit, ..
            } = stream;
            write!(self.0, "{scope} {name} {unit}\n{table}")?;
        }
        Ok(self.0.flush()?)
    }
}

/// Writes each export into one file, in the place of the one before, which it covers. Who reads the file finds a whole one at any time: it
/// is written beside it under a name of its own, and put into its place then. Its mode is what the process' umask leaves of 0666.
pub struct FileExporter {
    path: PathBuf,
    encode: Encode,
}

impl fmt::Debug for FileExporter {
    fn fmt(&self, f: &mut fmt::Formatter<'_>) -> fmt::Result {
        write!(f, "FileExporter({:?})", self.path)
    }
}

impl FileExporter {
    pub fn new(path: impl Into<PathBuf>) -> FileExporter {
        FileExporter {
            path: path.into(),
            encode: own_bytes(),
        }
    }

    /// Requests of OTLP, and not the kit's own bytes.
    pub fn with_otlp(mut self) -> FileExporter {
        self.encode = otlp();
        self
    }

    /// Other bytes than the kit's own.
    pub fn with_encoding(
        mut self,
        encode: impl Fn(&Export) -> Result<Vec<u8>, ExportError> + Send + 'static,
    ) -> FileExporter {
        self.encode = Box::new(encode);
        self
    }
}

impl PushExporter for FileExporter {
    fn export(&mut self, export: &Export) -> Result<(), ExportError> {
        let bytes = (self.encode)(export)?;
        Ok(files::replace(&self.path, &bytes)?)
    }
}

/// How long a request may take where nothing else is said (OTLP exporters, "Timeout").
const DEFAULT_TIMEOUT: Duration = Duration::from_secs(10);
/// The most that is read of an answer's first line.
const LINE: usize = 1024;
/// How long the body of a refusal is waited for: it is for people.
const REFUSAL: Duration = Duration::from_secs(1);
/// The most that is read of an answer, with its headers.
const ANSWER: usize = 2 * MOST;

/// Sends each export as the body of a POST, over plain HTTP/1.1, by a connection of its own: a request of OTLP, as a Collector takes it at
/// `/v1/metrics`. An answer other than 2xx is a failure, which has the first line of what it says. One that says that some of the export was
/// not taken fails as a [`NotTaken`].
///
/// `https` is not spoken: a proxy on the same machine does that.
///
/// ```
/// # use kotskhin::metrics::{HttpExporter, PeriodicReader};
/// let exporter = HttpExporter::new("http://localhost:4318/v1/metrics")?;
/// let reader = PeriodicReader::builder(exporter).build();
/// # Ok::<(), std::io::Error>(())
/// ```
pub struct HttpExporter {
    host: String,
    port: u16,
    path: String,
    content_type: String,
    headers: Vec<(String, String)>,
    timeout: Duration,
    encode: Encode,
}

impl fmt::Debug for HttpExporter {
    fn fmt(&self, f: &mut fmt::Formatter<'_>) -> fmt::Result {
        write!(f, "HttpExporter({}:{}{})", self.host, self.port, self.path)
    }
}

fn invalid(why: impl Into<String>) -> io::Error {
    io::Error::new(ErrorKind::InvalidInput, why.into())
}

/// Whether a text may stand in a line of a request.
fn is_line(text: &str) -> bool {
    text.chars().all(|c| !c.is_control())
}

impl HttpExporter {
    /// Of a URL: `http://HOST[:PORT][/PATH]`. Refused, as invalid input: any other.
    pub fn new(url: &str) -> io::Result<HttpExporter> {
        let rest = url
            .strip_prefix("http://")
            .ok_or_else(|| invalid(format!("'{url}' does not begin with http://")))?;
        if !is_line(url) || url.contains(' ') || url.contains('@') {
            return Err(invalid(format!("'{url}' has characters that none has")));
        }
        let end = rest.find(['/', '?']).unwrap_or(rest.len());
        let (place, path) = rest.split_at(end);
        // (an address of IPv6 stands in brackets, and has colons itself)
        let (host, port) = match place.rsplit_once(':') {
            Some((host, port)) if !port.ends_with(']') => {
                let port = port.parse().ok().filter(|port| *port > 0);
                (
                    host,
                    port.ok_or_else(|| invalid(format!("'{url}' has no port")))?,
                )
            }
            _ => (place, 80),
        };
        if host.is_empty() {
            return Err(invalid(format!("'{url}' has no host")));
        }
        Ok(HttpExporter {
            host: host.to_owned(),
            port,
            path: match path.strip_prefix('/') {
                Some(_) => path.to_owned(),
                None => format!("/{path}"),
            },
            content_type: "application/x-protobuf".to_owned(),
            headers: Vec::new(),
            timeout: DEFAULT_TIMEOUT,
            encode: otlp(),
        })
    }

    /// How long a request may take, from the look-up of the host to the end of the answer: 10 s where nothing is said. (The system bounds
    /// the look-up itself.)
    pub fn with_timeout(mut self, timeout: Duration) -> HttpExporter {
        self.timeout = timeout;
        self
    }

    /// A header more. Refused, as invalid input: one with a control character, or a name with a colon or a blank.
    pub fn with_header(mut self, name: &str, value: &str) -> io::Result<HttpExporter> {
        if !is_line(name) || !is_line(value) || name.is_empty() || name.contains([':', ' ']) {
            return Err(invalid(format!("'{name}: {value}' is no header")));
        }
        self.headers.push((name.to_owned(), value.to_owned()));
        Ok(self)
    }

    /// The kit's own bytes, and not OTLP: as `application/vnd.kotskhin.export`.
    pub fn with_own_bytes(mut self) -> HttpExporter {
        self.content_type = "application/vnd.kotskhin.export".to_owned();
        self.encode = own_bytes();
        self
    }

    /// Other bytes than OTLP, and their type.
    pub fn with_encoding(
        mut self,
        content_type: &str,
        encode: impl Fn(&Export) -> Result<Vec<u8>, ExportError> + Send + 'static,
    ) -> io::Result<HttpExporter> {
        if !is_line(content_type) {
            return Err(invalid(format!("'{content_type}' is no type")));
        }
        self.content_type = content_type.to_owned();
        self.encode = Box::new(encode);
        Ok(self)
    }

    fn write_head(&self, len: usize) -> String {
        let mut head = format!(
            "POST {} HTTP/1.1\r\nHost: {}:{}\r\nContent-Type: {}\r\nContent-Length: {len}\r\nConnection: close\r\n",
            self.path, self.host, self.port, self.content_type
        );
        for (name, value) in &self.headers {
            head.push_str(name);
            head.push_str(": ");
            head.push_str(value);
            head.push_str("\r\n");
        }
        head.push_str("\r\n");
        head
    }

    fn connect(&self, until: Instant) -> io::Result<TcpStream> {
        let mut fault = invalid(format!("'{}' has no address", self.host));
        let host = self.host.trim_matches(['[', ']']);
        for address in (host, self.port).to_socket_addrs()? {
            match TcpStream::connect_timeout(&address, time_left(until)?) {
                Ok(stream) => return Ok(stream),
                Err(why) => fault = why,
            }
        }
        Err(fault)
    }

    /// Sends a body, and answers what is answered.
    fn post(&self, body: &[u8]) -> io::Result<Answer> {
        let until = Instant::now() + self.timeout.min(Duration::from_secs(1 << 30));
        let mut stream = self.connect(until)?;
        let head = self.write_head(body.len());
        for part in [head.as_bytes(), body] {
            send_all(&mut stream, part, until)?;
        }
        let mut received = Vec::new();
        while !received.contains(&b'\n') && received.len() < LINE {
            if !read_more(&mut stream, &mut received, until)? {
                return Err(ErrorKind::UnexpectedEof.into());
            }
        }
        let line = String::from_utf8_lossy(&received);
        let line = line.lines().next().unwrap_or_default().to_owned();
        let mut words = line.split(' ');
        let is_http = words.next().is_some_and(|word| word.starts_with("HTTP/1."));
        let code = words.next().and_then(|word| word.parse::<u16>().ok());
        let is_good = is_http && matches!(code, Some(200..300));
        let body = match (is_good, is_http) {
            (true, _) => read_body(&mut stream, &mut received, until),
            (false, true) => read_line(&mut stream, &mut received, until),
            _ => Vec::new(),
        };
        Ok(Answer {
            line,
            is_good,
            late: parse_late(&received).unwrap_or(0),
            body,
        })
    }
}

/// An answer: its first line, whether it is one of 2xx, and then how many exports were late, and its body: else the first line of that.
struct Answer {
    line: String,
    is_good: bool,
    late: u64,
    body: Vec<u8>,
}

impl Answer {
    /// What it says, where it is none of 2xx.
    fn describe(&self) -> String {
        let line = strip_controls(&self.line);
        match strip_controls(&String::from_utf8_lossy(&self.body)).trim() {
            "" => format!("answered '{line}'"),
            why => format!("answered '{line}': {why}"),
        }
    }
}

/// The rest of an answer, up to the end of its body. (What was sent is taken: a body that does not come whole says nothing.)
fn read_body(stream: &mut TcpStream, received: &mut Vec<u8>, until: Instant) -> Vec<u8> {
    while received.len() <= ANSWER {
        if let Some(body) = parse_body(received, false) {
            return body;
        }
        if !matches!(read_more(stream, received, until), Ok(true)) {
            return parse_body(received, true).unwrap_or_default();
        }
    }
    Vec::new()
}

/// The first line of an answer's body, as far as it comes soon.
fn read_line(stream: &mut TcpStream, received: &mut Vec<u8>, until: Instant) -> Vec<u8> {
    let until = until.min(Instant::now() + REFUSAL);
    loop {
        let (line, is_whole) = parse_first_line(received, LINE);
        if is_whole || received.len() > ANSWER {
            return line.to_vec();
        }
        if !matches!(read_more(stream, received, until), Ok(true)) {
            return parse_first_line(received, LINE).0.to_vec();
        }
    }
}

/// Reads on, and tells whether anything came before the end.
fn read_more(stream: &mut TcpStream, received: &mut Vec<u8>, until: Instant) -> io::Result<bool> {
    let mut piece = [0; 4096];
    loop {
        stream.set_read_timeout(Some(time_left(until)?))?;
        match stream.read(&mut piece) {
            Ok(many) => {
                received.extend_from_slice(&piece[..many]);
                return Ok(many > 0);
            }
            Err(why) if why.kind() == ErrorKind::Interrupted => (),
            Err(why) => return Err(as_timeout(why)),
        }
    }
}

fn send_all(stream: &mut TcpStream, mut bytes: &[u8], until: Instant) -> io::Result<()> {
    while !bytes.is_empty() {
        stream.set_write_timeout(Some(time_left(until)?))?;
        match stream.write(bytes) {
            Ok(0) => return Err(ErrorKind::WriteZero.into()),
            Ok(many) => bytes = &bytes[many..],
            Err(why) if why.kind() == ErrorKind::Interrupted => (),
            Err(why) => return Err(as_timeout(why)),
        }
    }
    Ok(())
}

/// How long there is still. Refused where there is nothing left.
fn time_left(until: Instant) -> io::Result<Duration> {
    let left = until.saturating_duration_since(Instant::now());
    match left.is_zero() {
        true => Err(ErrorKind::TimedOut.into()),
        false => Ok(left),
    }
}

/// A socket that waited for too long says that it would block.
fn as_timeout(why: io::Error) -> io::Error {
    match why.kind() {
        ErrorKind::WouldBlock => ErrorKind::TimedOut.into(),
        _ => why,
    }
}

impl PushExporter for HttpExporter {
    fn export(&mut self, export: &Export) -> Result<(), ExportError> {
        let body = (self.encode)(export)?;
        let answer = self.post(&body)?;
        if !answer.is_good {
            return Err(format!("{}:{} {}", self.host, self.port, answer.describe()).into());
        }
        match not_taken(&answer.body, answer.late) {
            Some(why) => Err(why.into()),
            None => Ok(()),
        }
    }
}

/// Brings each export by one of several exporters, as to gateways of which any may take it: by the one that took the last one, and where
/// that fails by the next. It fails where all did, and at once by a [`NotTaken`]: others would say the same. Each bounds the time of its
/// own calls.
///
/// ```
/// use kotskhin::metrics::{FirstOf, HttpExporter, PeriodicReader, PushExporter};
///
/// let mut gateways: Vec<Box<dyn PushExporter>> = Vec::new();
/// for host in ["gateway-1", "gateway-2"] {
///     let url = format!("http://{host}:9464/v1/metrics");
///     gateways.push(Box::new(HttpExporter::new(&url)?));
/// }
/// let reader = PeriodicReader::builder(FirstOf::new(gateways)).build();
/// # Ok::<(), std::io::Error>(())
/// ```
pub struct FirstOf {
    exporters: Vec<Box<dyn PushExporter>>,
    last: usize,
}

impl fmt::Debug for FirstOf {
    fn fmt(&self, f: &mut fmt::Formatter<'_>) -> fmt::Result {
        write!(f, "FirstOf({})", self.exporters.len())
    }
}

impl FirstOf {
    pub fn new(exporters: Vec<Box<dyn PushExporter>>) -> FirstOf {
        FirstOf { exporters, last: 0 }
    }
}

impl PushExporter for FirstOf {
    fn export(&mut self, export: &Export) -> Result<(), ExportError> {
        let count = self.exporters.len();
        let mut failed: ExportError = "there is no exporter".into();
        for turn in 0..count {
            let at = (self.last + turn) % count;
            match self.exporters[at].export(export) {
                Err(error) if !error.is::<NotTaken>() => failed = error,
                answered => {
                    self.last = at;
                    return answered;
                }
            }
        }
        Err(failed)
    }

    fn shutdown(&mut self) -> Result<(), ExportError> {
        // (each is ended, also behind one that fails)
        let mut ended = Ok(());
        for exporter in &mut self.exporters {
            ended = ended.and(exporter.shutdown());
        }
        ended
    }
}
