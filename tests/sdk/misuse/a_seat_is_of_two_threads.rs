// error[E0596]
use kotskhin::{Attributes, Error, Seat};
use std::thread;

pub fn two(seat: &Seat, set: &Attributes) -> Result<(), Error> {
    thread::scope(|scope| {
        scope.spawn(|| seat.measure(0, set, 1));
    });
    Ok(())
}
