//! Lines on the standard error, for hosts that have no hooks.
use std::fmt;
use std::fs::File;
use std::io::{self, Write};
use std::os::fd::AsFd;

/// The most characters of a line.
const MOST: usize = 2048;

pub(crate) fn strip_controls(text: &str) -> String {
    text.chars().filter(|c| !c.is_control()).collect()
}

/// Writes one line. It goes by the descriptor: the lock that std has for the standard error may be one that is never given back, in a child
/// of a fork.
pub(crate) fn log(what: &impl fmt::Display) {
    let text: String = strip_controls(&what.to_string())
        .chars()
        .take(MOST)
        .collect();
    if let Ok(descriptor) = io::stderr().as_fd().try_clone_to_owned() {
        let _ = File::from(descriptor).write_all(format!("kotskhin: {text}\n").as_bytes());
    }
}

/// Logs failures, of each reason in a row the first.
#[derive(Default)]
pub(crate) struct Failures {
    last: Option<String>,
}

impl Failures {
    pub fn log(&mut self, why: &impl fmt::Display) {
        let reason = why.to_string();
        if self.last.as_ref() != Some(&reason) {
            log(&reason);
            self.last = Some(reason);
        }
    }

    /// It went well: the next failure is a new one.
    pub fn end(&mut self) {
        self.last = None;
    }
}
