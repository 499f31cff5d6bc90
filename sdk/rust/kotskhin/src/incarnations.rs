//! Of whom there are points.
use crate::error::{Error, check};
use crate::export::copy_by;
use crate::handle::Handle;
use kotskhin_sys::{
    self as sys, kit_incarnations_len, kit_incarnations_read, kit_incarnations_service,
};

/// A service's instance from a start on, of which there are points.
#[derive(Clone, Debug, PartialEq, Eq)]
pub struct Incarnation {
    pub service: String,
    pub instance: u128,
    pub start: u64,
    /// The greatest time of its points.
    pub newest: u64,
    pub points: usize,
}

/// Those of a list: all of a service are side by side.
pub(crate) fn read_incarnations(
    list: &Handle<sys::Incarnations>,
) -> Result<Vec<Incarnation>, Error> {
    let mut count = 0;
    // SAFETY: the list is lent.
    check(unsafe { kit_incarnations_len(list.read().at(), &mut count) })?;
    (0..count)
        .map(|number| read_incarnation(list, number))
        .collect()
}

fn read_incarnation(list: &Handle<sys::Incarnations>, number: usize) -> Result<Incarnation, Error> {
    let (mut high, mut low, mut start, mut newest, mut points) = (0, 0, 0, 0, 0);
    // SAFETY: the list is lent, here and below, and the room is a slice's.
    check(unsafe {
        kit_incarnations_read(
            list.read().at(),
            number,
            &mut high,
            &mut low,
            &mut start,
            &mut newest,
            &mut points,
        )
    })?;
    let service = copy_by(|room, len| unsafe {
        kit_incarnations_service(list.read().at(), number, room.as_mut_ptr(), room.len(), len)
    })?;
    Ok(Incarnation {
        service: String::from_utf8_lossy(&service).into_owned(),
        instance: u128::from(high) << 64 | u128::from(low),
        start,
        newest,
        points,
    })
}
