//! Who is told of a run while it goes on. What cannot be told is no reason to end one.
use std::io::{IsTerminal, Write};

/// Lines on standard error, as they are.
pub fn put(lines: &str) {
    let _ = std::io::stderr().write_all(lines.as_bytes());
}

/// One line on standard error.
pub fn say(text: &str) {
    put(&format!("phuyurik: {text}\n"));
}

pub fn note(text: &str) {
    say(&format!("note: {text}"));
}

pub trait Watch {
    fn note(&mut self, text: &str);
    fn progress(&mut self, retired: u64, budget: u64, burnt: usize);
    fn end(&mut self);
}

/// Notes go to standard error; progress too, if it is a terminal.
pub struct Terminal {
    is_terminal: bool,
}

impl Terminal {
    pub fn new() -> Terminal {
        Terminal {
            is_terminal: std::io::stderr().is_terminal(),
        }
    }

    fn put(&self, text: &str) {
        if self.is_terminal {
            let mut err = std::io::stderr();
            let _ = write!(err, "\r\x1b[K{text}").and_then(|()| err.flush());
        }
    }
}

impl Watch for Terminal {
    fn note(&mut self, text: &str) {
        note(text);
    }

    fn progress(&mut self, retired: u64, budget: u64, burnt: usize) {
        self.put(&format!(
            "{retired} of {budget} retired, {burnt} words burnt, saved"
        ));
    }

    fn end(&mut self) {
        self.put("");
    }
}
