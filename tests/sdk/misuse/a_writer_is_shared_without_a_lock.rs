// error[E0596]
use kotskhin::{Attributes, Error, Writer};
use std::sync::Arc;

pub fn record(writer: Arc<Writer>, set: &Attributes) -> Result<(), Error> {
    writer.measure(0, set, 1)
}
