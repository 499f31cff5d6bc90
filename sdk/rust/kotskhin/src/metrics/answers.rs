//! What the answers to exports say was not taken.
use std::error::Error;
use std::fmt;

/// The most bytes of an answer that are looked at.
pub(super) const MOST: usize = 64 << 10;

/// An export was answered by 2xx, and some of it was not taken all the same: as by a gateway that took its writer for dead. Sent again it
/// would be answered likewise, and so would the next one.
///
/// It is found in an [`ExportError`](super::ExportError) by `downcast_ref`:
///
/// ```
/// use kotskhin::metrics::{NotTaken, PeriodicReader, SdkError};
///
/// let reader = PeriodicReader::builder(kotskhin::metrics::ConsoleExporter::default()).on_failed(|why| {
///     if let SdkError::Export { error, .. } = why {
///         if let Some(told) = error.downcast_ref::<NotTaken>() {
///             eprintln!("begin anew: {told}");
///         }
///     }
/// });
/// ```
#[derive(Clone, Debug, Default, PartialEq, Eq)]
#[non_exhaustive]
pub struct NotTaken {
    /// How many points were not taken: 0 where what was posted is the kit's own bytes.
    pub points: u64,
    /// How many exports were not taken, where what was posted is the kit's own bytes: 0 where it is OTLP.
    pub exports: u64,
    /// What the answer says of it; empty where it says nothing.
    pub message: String,
}

impl fmt::Display for NotTaken {
    fn fmt(&self, f: &mut fmt::Formatter<'_>) -> fmt::Result {
        match self {
            NotTaken { exports: 1.., .. } => {
                write!(f, "{} exports came late, and were not taken", self.exports)
            }
            NotTaken { message, .. } if message.is_empty() => {
                write!(f, "{} points were not taken", self.points)
            }
            _ => write!(f, "{} points were not taken: {}", self.points, self.message),
        }
    }
}

impl Error for NotTaken {}

/// What an answer of 2xx says: one to OTLP by its body, and a gateway's to the kit's own bytes by a header, of how many exports were late.
/// Other servers may answer anything, which says nothing. (How exports go as bytes may be a closure's, so an answer is read either way.)
pub(super) fn not_taken(body: &[u8], late: u64) -> Option<NotTaken> {
    let exports = NotTaken {
        exports: late,
        ..NotTaken::default()
    };
    points_not_taken(body).or((late > 0).then_some(exports))
}

/// Types of fields in Protocol Buffers.
const NUMBER: u64 = 0;
const BYTES: u64 = 2;

/// A field of a message: its number, its type, and what it has.
struct Field<'a> {
    number: u64,
    wire: u64,
    value: u64,
    bytes: &'a [u8],
}

/// A number of 1 to 10 bytes, and what stands behind it.
fn read_number(from: &[u8]) -> Option<(u64, &[u8])> {
    let mut value = 0;
    for (turn, byte) in from.iter().take(10).enumerate() {
        value |= u64::from(byte & 127) << (7 * turn);
        if *byte < 128 {
            return Some((value, &from[turn + 1..]));
        }
    }
    None
}

/// The field that bytes begin with, and what stands behind it.
fn read_field(from: &[u8]) -> Option<(Field<'_>, &[u8])> {
    let (tag, rest) = read_number(from)?;
    let (value, size, rest) = match tag & 7 {
        NUMBER => read_number(rest).map(|(value, rest)| (value, 0, rest))?,
        BYTES => read_number(rest).map(|(size, rest)| (0, size, rest))?,
        1 => (0, 8, rest),
        5 => (0, 4, rest),
        _ => return None,
    };
    let (bytes, rest) = rest.split_at_checked(usize::try_from(size).ok()?)?;
    let (number, wire) = (tag >> 3, tag & 7);
    let field = Field {
        number,
        wire,
        value,
        bytes,
    };
    (1..1 << 29).contains(&number).then_some((field, rest))
}

/// What an `ExportMetricsServiceResponse` says. One that rejects no point and has a message is a warning alone, as the protocol has it. A
/// field that is not known is passed over, and of one that comes twice the last counts.
fn points_not_taken(mut answer: &[u8]) -> Option<NotTaken> {
    if answer.len() > MOST {
        return None;
    }
    let mut not_taken = NotTaken::default();
    while !answer.is_empty() {
        let (outer, rest) = read_field(answer)?;
        answer = rest;
        let mut partial = match (outer.number, outer.wire) {
            (1, BYTES) => outer.bytes,
            _ => continue,
        };
        while !partial.is_empty() {
            let (field, rest) = read_field(partial)?;
            partial = rest;
            match (field.number, field.wire) {
                (1, NUMBER) => not_taken.points = field.value,
                (2, BYTES) => not_taken.message = String::from_utf8_lossy(field.bytes).into_owned(),
                _ => (),
            }
        }
    }
    // (what is above is a number below 0)
    (1..1 << 63)
        .contains(&not_taken.points)
        .then_some(not_taken)
}
