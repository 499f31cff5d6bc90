// error[E0499]
use kotskhin::{Attributes, Recorder};
use std::thread;

pub fn two(recorder: &mut Recorder, set: &Attributes) {
    thread::scope(|scope| {
        scope.spawn(|| recorder.measure(0, set, 1));
        scope.spawn(|| recorder.measure(0, set, 1));
    });
}
