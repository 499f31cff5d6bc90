//! What gateways tell each other.
use crate::error::{Error, check, check_at};
use crate::export::copy_bytes;
use crate::handle::Handle;
use crate::incarnations::{Incarnation, read_incarnations};
use kotskhin_sys::{
    self as sys, kit_message_decode, kit_message_encode, kit_message_incarnations, kit_message_read,
};

/// What one gateway tells another ([`Gateway::send`](crate::Gateway::send)). It may be lost, come late or come twice.
#[derive(Debug)]
pub struct Message(pub(crate) Handle<sys::Message>);

/// From which id to which a message goes, and how many points it carries: an answer carries none.
#[derive(Clone, Copy, Debug, PartialEq, Eq)]
pub struct Envelope {
    pub from: u32,
    pub to: u32,
    pub points: usize,
}

impl Message {
    /// Its bytes, for a gateway in another process: each message has one form. Refused: `NoMemory`.
    pub fn encode(&self) -> Result<Vec<u8>, Error> {
        let mut bytes = Handle::empty();
        // SAFETY: the message is lent, and the bytes are ours alone; they are two.
        check(unsafe { kit_message_encode(self.0.read().at(), bytes.change()) })?;
        copy_bytes(&bytes)
    }

    /// The message of bytes that `encode` made. Refused as `Export::decode` is, `BadExport` where a point is none that an export
    /// brings.
    pub fn decode(bytes: &[u8]) -> Result<Message, Error> {
        let (mut message, mut place) = (Handle::empty(), 0);
        // SAFETY: the handle is ours alone, and the bytes are a slice's pointer and length.
        let code = unsafe {
            kit_message_decode(message.change(), bytes.as_ptr(), bytes.len(), &mut place)
        };
        check_at(code, place)?;
        Ok(Message(message))
    }

    /// Of whom it carries points: who receives it compares them with those of which its sender may speak. Refused: `NoMemory`.
    pub fn incarnations(&self) -> Result<Vec<Incarnation>, Error> {
        let mut list = Handle::empty();
        // SAFETY: the message is lent, and the list is ours alone.
        check(unsafe { kit_message_incarnations(self.0.read().at(), list.change()) })?;
        read_incarnations(&list)
    }

    /// What stands on it.
    pub fn envelope(&self) -> Result<Envelope, Error> {
        let (mut from, mut to, mut points) = (0, 0, 0);
        // SAFETY: the message is lent.
        check(unsafe { kit_message_read(self.0.read().at(), &mut from, &mut to, &mut points) })?;
        Ok(Envelope { from, to, points })
    }
}
