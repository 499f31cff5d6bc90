//! Gateways.
use crate::ask::Ask;
use crate::error::{Error, check, check_at};
use crate::export::{Export, copy_by, copy_bytes, copy_text};
use crate::handle::Handle;
use crate::incarnations::{Incarnation, read_incarnations};
use crate::message::Message;
use crate::rows::Rows;
use crate::streams::Streams;
use kotskhin_sys::{
    self as sys, kit_gateway_encode, kit_gateway_hand, kit_gateway_incarnations, kit_gateway_merge,
    kit_gateway_merge_bytes, kit_gateway_newest, kit_gateway_open, kit_gateway_openmetrics,
    kit_gateway_prometheus, kit_gateway_read, kit_gateway_rows, kit_gateway_same, kit_gateway_send,
    kit_gateway_service, kit_gateway_streams, kit_gateway_take,
};
use std::ptr;

/// A call that makes a page.
type Page =
    unsafe extern "C" fn(*mut sys::Gateway, bool, *const u8, usize, bool, *mut sys::Text) -> i32;

/// The newest points of all writers that were brought to it, in whatever order and however often.
///
/// It shows no point that a tombstone names, and forgets such points: so it gives back the memory of incarnations that an
/// [`Archive`](crate::Archive) adopted. It tells other gateways what changed, by [`Message`]s.
#[derive(Debug)]
pub struct Gateway(pub(crate) Handle<sys::Gateway>);

/// What stands on a gateway: its id, how many points it holds, and the number of keys at whose time different values came, since two writers
/// recorded under one identity.
#[derive(Clone, Copy, Debug, PartialEq, Eq)]
pub struct GatewayHead {
    pub id: u32,
    pub points: usize,
    pub conflicts: u64,
}

/// What became of an export that a gateway took.
#[derive(Clone, Copy, Debug, PartialEq, Eq)]
pub enum Taking {
    /// The points of so many keys changed, of at least one.
    Taken(u64),
    /// Nothing changed: all that the export has was held, or newer.
    Stale,
    /// A tombstone that was held names the export's incarnation: of its points at most tombstones were taken.
    Late,
}

impl Taking {
    /// The number of keys whose points changed.
    pub fn changed(self) -> u64 {
        match self {
            Taking::Taken(changed) => changed,
            Taking::Stale | Taking::Late => 0,
        }
    }
}

impl Gateway {
    /// A gateway without points, under an id. Gateways that exchange messages have distinct ids, and one that comes back from its bytes has
    /// an id that was never used. Refused: `NoMemory`.
    pub fn open(id: u32) -> Result<Gateway, Error> {
        let mut gateway = Handle::empty();
        // SAFETY: the handle is ours alone.
        check(unsafe { kit_gateway_open(gateway.change(), id) })?;
        Ok(Gateway(gateway))
    }

    /// Takes an export, and forgets what a tombstone names then. Refused: `NoMemory`.
    pub fn take(&mut self, export: &Export) -> Result<Taking, Error> {
        let (mut changed, mut late) = (0, false);
        let (at, mut export) = (self.0.change(), export.0.read());
        // SAFETY: the gateway is ours alone, and the export is lent; they are two.
        check(unsafe { kit_gateway_take(at, export.at(), &mut changed, &mut late) })?;
        Ok(match (late, changed) {
            (true, _) => Taking::Late,
            (false, 0) => Taking::Stale,
            (false, _) => Taking::Taken(changed),
        })
    }

    /// Joins what another gateway holds, forgets what a tombstone names then, and answers the number of keys whose points the join changed.
    /// Refused: `NoMemory`.
    pub fn merge(&mut self, other: &Gateway) -> Result<u64, Error> {
        let mut changed = 0;
        // SAFETY: this one is ours alone, and the other is lent; a `&mut` and a `&` are of two.
        check(unsafe { kit_gateway_merge(self.0.change(), other.0.read().at(), &mut changed) })?;
        Ok(changed)
    }

    /// The same of the bytes that [`encode`](Self::encode) made of a gateway, or [`Message::encode`] of a message. Who made them is not
    /// known here. Refused as [`Message::decode`] is.
    pub fn merge_bytes(&mut self, bytes: &[u8]) -> Result<u64, Error> {
        let (mut changed, mut place) = (0, 0);
        let (at, len) = (bytes.as_ptr(), bytes.len());
        // SAFETY: the gateway is ours alone, and the bytes are a slice's pointer and length.
        let code =
            unsafe { kit_gateway_merge_bytes(self.0.change(), at, len, &mut changed, &mut place) };
        check_at(code, place)?;
        Ok(changed)
    }

    /// A message to the gateway of an id: what changed since the last one that it answered. Refused: `NoMemory`.
    pub fn send(&self, to: u32) -> Result<Message, Error> {
        let mut message = Handle::empty();
        // SAFETY: the gateway is lent, and the message is ours alone; they are two.
        check(unsafe { kit_gateway_send(self.0.read().at(), to, message.change()) })?;
        Ok(Message(message))
    }

    /// Takes in a message, forgets what a tombstone names then, and gives the answer to its sender, if there is one. Refused:
    /// `NotAddressed`, `NoMemory`.
    pub fn hand(&mut self, message: &Message) -> Result<Option<Message>, Error> {
        let (mut answer, mut answered) = (Handle::empty(), false);
        let (at, mut message) = (self.0.change(), message.0.read());
        // SAFETY: the gateway and the answer are ours alone, and the message is lent; they are three.
        check(unsafe { kit_gateway_hand(at, message.at(), answer.change(), &mut answered) })?;
        Ok(answered.then_some(Message(answer)))
    }

    /// What stands on it.
    pub fn head(&self) -> Result<GatewayHead, Error> {
        let (mut id, mut points, mut conflicts) = (0, 0, 0);
        let mut lent = self.0.read();
        // SAFETY: the gateway is lent.
        check(unsafe { kit_gateway_read(lent.at(), &mut id, &mut points, &mut conflicts) })?;
        Ok(GatewayHead {
            id,
            points,
            conflicts,
        })
    }

    /// The streams of which it holds points, each once. Refused: `NoMemory`.
    pub fn streams(&self) -> Result<Streams, Error> {
        let mut streams = Handle::empty();
        // SAFETY: the gateway is lent, and the streams are ours alone.
        check(unsafe { kit_gateway_streams(self.0.read().at(), streams.change()) })?;
        Ok(Streams(streams))
    }

    /// Of whom it holds points. Refused: `NoMemory`.
    pub fn incarnations(&self) -> Result<Vec<Incarnation>, Error> {
        let mut list = Handle::empty();
        // SAFETY: the gateway is lent, and the list is ours alone.
        check(unsafe { kit_gateway_incarnations(self.0.read().at(), list.change()) })?;
        read_incarnations(&list)
    }

    /// The services of which it holds points, each once.
    pub fn services(&self) -> Result<Vec<String>, Error> {
        let mut services = Vec::new();
        loop {
            // SAFETY: the gateway is lent, and the room is a slice's.
            let service = copy_by(|room, len| unsafe {
                let (into, size) = (room.as_mut_ptr(), room.len());
                kit_gateway_service(self.0.read().at(), services.len(), into, size, len)
            });
            match service {
                Ok(service) => services.push(String::from_utf8_lossy(&service).into_owned()),
                Err(Error::NoItem) => return Ok(services),
                Err(other) => return Err(other),
            }
        }
    }

    /// The page of what it holds, in OpenMetrics 1.0: of one service, or of all where none is said. It answers a request that accepts
    /// `application/openmetrics-text`, with `Content-Type: application/openmetrics-text; version=1.0.0; charset=utf-8`.
    ///
    /// Refused: `NoMemory`.
    pub fn openmetrics(&self, service: Option<&str>) -> Result<String, Error> {
        self.render_page(service, false, kit_gateway_openmetrics)
    }

    /// The same page in Prometheus' text format 0.0.4, with `Content-Type: text/plain; version=0.0.4; charset=utf-8`. Refused: `NoMemory`.
    pub fn prometheus(&self, service: Option<&str>) -> Result<String, Error> {
        self.render_page(service, false, kit_gateway_prometheus)
    }

    /// The page of [`openmetrics`](Self::openmetrics) with the tombstones of archives: a row for each incarnation that one adopted.
    pub fn openmetrics_with_tombstones(&self, service: Option<&str>) -> Result<String, Error> {
        self.render_page(service, true, kit_gateway_openmetrics)
    }

    /// The page of [`prometheus`](Self::prometheus) with the tombstones of archives.
    pub fn prometheus_with_tombstones(&self, service: Option<&str>) -> Result<String, Error> {
        self.render_page(service, true, kit_gateway_prometheus)
    }

    fn render_page(
        &self,
        service: Option<&str>,
        tombstones: bool,
        call: Page,
    ) -> Result<String, Error> {
        let (mut text, only) = (Handle::empty(), service.is_some());
        let service = service.unwrap_or_default();
        let (at, len) = (service.as_ptr(), service.len());
        // SAFETY: the gateway is lent, the text is ours alone, and the service is a slice's pointer and length.
        check(unsafe { call(self.0.read().at(), only, at, len, tombstones, text.change()) })?;
        copy_text(&text)
    }

    /// Its points as bytes, to be kept. [`merge_bytes`](Self::merge_bytes) brings them back. Refused: `NoMemory`.
    pub fn encode(&self) -> Result<Vec<u8>, Error> {
        let mut bytes = Handle::empty();
        // SAFETY: the gateway is lent, and the bytes are ours alone.
        check(unsafe { kit_gateway_encode(self.0.read().at(), bytes.change()) })?;
        copy_bytes(&bytes)
    }

    /// The greatest time held of the incarnation of a service's instance that began at `start`: what was collected up to it has
    /// come. Refused: `NoPoint` where nothing of it is held; `NoMemory`.
    pub fn newest(&self, service: &str, instance: u128, start: u64) -> Result<u64, Error> {
        let mut time = 0;
        // SAFETY: the gateway is lent, and the text is a slice's pointer and length.
        check(unsafe {
            kit_gateway_newest(
                self.0.read().at(),
                service.as_ptr(),
                service.len(),
                (instance >> 64) as u64,
                instance as u64,
                start,
                &mut time,
            )
        })?;
        Ok(time)
    }

    /// Whether both hold equal points; ids are not compared.
    pub fn same(&self, other: &Gateway) -> Result<bool, Error> {
        if ptr::eq(self, other) {
            return Ok(true);
        }
        let mut same = false;
        // SAFETY: both are lent.
        check(unsafe { kit_gateway_same(self.0.read().at(), other.0.read().at(), &mut same) })?;
        Ok(same)
    }

    /// The rows that answer an ask, in the order of their attribute sets. Refused: `NoMemory`.
    pub fn rows(&self, ask: &Ask) -> Result<Rows, Error> {
        let mut rows = Handle::empty();
        // SAFETY: the rows are ours alone, the gateway and the ask are lent; they are three.
        check(unsafe { kit_gateway_rows(self.0.read().at(), ask.0.read().at(), rows.change()) })?;
        Ok(Rows(rows))
    }

    /// The table that answers an ask: a line for each row below a header. Refused: `NoMemory`.
    pub fn table(&self, ask: &Ask) -> Result<String, Error> {
        self.rows(ask)?.table()
    }
}
