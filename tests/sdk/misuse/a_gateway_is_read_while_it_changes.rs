// error[E0502]
use kotskhin::{Ask, Export, Gateway};
use std::thread;

pub fn both(gateway: &mut Gateway, export: &Export, ask: &Ask) {
    thread::scope(|scope| {
        scope.spawn(|| gateway.table(ask));
        scope.spawn(|| gateway.take(export));
    });
}
