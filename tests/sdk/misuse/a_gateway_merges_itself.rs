// error[E0502]
use kotskhin::{Error, Gateway};

pub fn merge(gateway: &mut Gateway) -> Result<u64, Error> {
    Gateway::merge(gateway, &*gateway)
}
