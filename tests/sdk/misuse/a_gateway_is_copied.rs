// error[E0599]
use kotskhin::Gateway;

pub fn two(gateway: Gateway) -> [Gateway; 2] {
    [gateway.clone(), gateway]
}
