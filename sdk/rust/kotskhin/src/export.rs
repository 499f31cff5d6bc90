//! What writers export, and what others bring by OTLP.
use crate::error::{Error, check, check_at};
use crate::handle::Handle;
use crate::streams::Streams;
use kotskhin_sys::{
    self as sys, kit_bytes_copy, kit_export_decode, kit_export_encode, kit_export_otlp,
    kit_export_read, kit_export_service, kit_export_streams, kit_exports_len, kit_exports_of_otlp,
    kit_exports_read, kit_text_copy,
};

/// What a call copies out into a room, of which it tells the whole length, once the room is enough.
pub(crate) fn copy_by(
    mut call: impl FnMut(&mut [u8], &mut usize) -> i32,
) -> Result<Vec<u8>, Error> {
    let mut bytes = vec![0; 1024];
    loop {
        let mut len = 0;
        check(call(&mut bytes, &mut len))?;
        let is_whole = len <= bytes.len();
        bytes.resize(len, 0);
        if is_whole {
            return Ok(bytes);
        }
    }
}

/// The text that a handle has.
pub(crate) fn copy_text(text: &Handle<sys::Text>) -> Result<String, Error> {
    // SAFETY: the text is lent, and the room is a slice's.
    let bytes = copy_by(|room, len| unsafe {
        kit_text_copy(text.read().at(), room.as_mut_ptr(), room.len(), len)
    })?;
    // (the library's texts are UTF-8)
    String::from_utf8(bytes).map_err(|fault| Error::NotText {
        at: fault.utf8_error().valid_up_to() as u64,
    })
}

/// The bytes that a handle has.
pub(crate) fn copy_bytes(bytes: &Handle<sys::Bytes>) -> Result<Vec<u8>, Error> {
    // SAFETY: the bytes are lent, and the room is a slice's.
    copy_by(|room, len| unsafe {
        kit_bytes_copy(bytes.read().at(), room.as_mut_ptr(), room.len(), len)
    })
}

/// What stands on an export: whose it is, from when to when, and how many points it has.
#[derive(Clone, Debug, PartialEq, Eq)]
pub struct ExportHead {
    pub service: String,
    pub instance: u128,
    pub start: u64,
    pub time: u64,
    pub points: usize,
}

/// The points of one collection: all that the writer recorded since its start. A gateway may take it, and so may others.
#[derive(Debug)]
pub struct Export(pub(crate) Handle<sys::Export>);

impl Export {
    /// Whose it is, from when to when, and how many points it has.
    pub fn head(&self) -> Result<ExportHead, Error> {
        let (mut high, mut low, mut start, mut time, mut points) = (0, 0, 0, 0, 0);
        // SAFETY: the export is lent.
        check(unsafe {
            kit_export_read(
                self.0.read().at(),
                &mut high,
                &mut low,
                &mut start,
                &mut time,
                &mut points,
            )
        })?;
        // SAFETY: the export is lent, and the room is a slice's.
        let service = copy_by(|room, len| unsafe {
            kit_export_service(self.0.read().at(), room.as_mut_ptr(), room.len(), len)
        })?;
        Ok(ExportHead {
            service: String::from_utf8_lossy(&service).into_owned(),
            instance: u128::from(high) << 64 | u128::from(low),
            start,
            time,
            points,
        })
    }

    /// The streams of its points, each once, in the order of the points. Refused: `NoMemory`.
    pub fn streams(&self) -> Result<Streams, Error> {
        let mut streams = Handle::empty();
        // SAFETY: the export is lent, and the streams are ours alone.
        check(unsafe { kit_export_streams(self.0.read().at(), streams.change()) })?;
        Ok(Streams(streams))
    }

    /// Its bytes, for another process: each export has one form. Refused: `NoMemory`.
    pub fn encode(&self) -> Result<Vec<u8>, Error> {
        let mut bytes = Handle::empty();
        // SAFETY: the export is lent, and the bytes are ours alone; they are two.
        check(unsafe { kit_export_encode(self.0.read().at(), bytes.change()) })?;
        copy_bytes(&bytes)
    }

    /// The request of OTLP that brings it to a Collector: the body of a POST to `/v1/metrics`, with `Content-Type:
    /// application/x-protobuf`. Refused: `OtlpBounds`, `TooLong`, `NoMemory`.
    pub fn otlp(&self) -> Result<Vec<u8>, Error> {
        let (mut bytes, mut place) = (Handle::empty(), 0);
        // SAFETY: the export is lent, and the bytes are ours alone; they are two.
        let code = unsafe { kit_export_otlp(self.0.read().at(), bytes.change(), &mut place) };
        check_at(code, place)?;
        copy_bytes(&bytes)
    }

    /// The export of bytes that `encode` made. Refused, for the first thing that is wrong: `Truncated`, `BadMagic`, `BadVersion`,
    /// `NotCanonical`, `NotText`, `BadChecksum`, `BadExport`; and `NoMemory`.
    pub fn decode(bytes: &[u8]) -> Result<Export, Error> {
        let (mut export, mut place) = (Handle::empty(), 0);
        // SAFETY: the handle is ours alone, and the bytes are a slice's pointer and length.
        let code =
            unsafe { kit_export_decode(export.change(), bytes.as_ptr(), bytes.len(), &mut place) };
        check_at(code, place)?;
        Ok(Export(export))
    }

    /// The exports that the body of a POST to `/v1/metrics` brings (OTLP, with `Content-Type: application/x-protobuf`). Who made the bytes
    /// is not known here: [`head`](Self::head) tells of whom each export is. Refused: `Request`, `NotText`, `TooLongText`, `TooManyAttributes`,
    /// `ReservedPoint`, `NoMemory`.
    pub fn of_otlp(bytes: &[u8]) -> Result<Vec<Export>, Error> {
        let (mut exports, mut place) = (Handle::<sys::Exports>::empty(), 0);
        // SAFETY: the handle is ours alone, and the bytes are a slice's pointer and length.
        let code = unsafe {
            kit_exports_of_otlp(exports.change(), bytes.as_ptr(), bytes.len(), &mut place)
        };
        check_at(code, place)?;
        let mut count = 0;
        // SAFETY: the exports are lent.
        check(unsafe { kit_exports_len(exports.read().at(), &mut count) })?;
        let export = |number| {
            let mut export = Handle::empty();
            // SAFETY: the exports are lent, and the export is ours alone.
            check(unsafe { kit_exports_read(exports.read().at(), number, export.change()) })?;
            Ok(Export(export))
        };
        (0..count).map(export).collect()
    }
}
