//! `phuyurik status`: the runs and rows of a folder, what is wrong, and what to type next. Nothing
//! is changed, and no lock file is made.
pub mod found;
mod pending;
mod rows;
mod runs;

use super::error::{Error, Kind};
use super::files::Lock;
use super::ways::typed;
use found::Found;
use std::path::Path;

/// A line for a run, a row or a slots file.
#[derive(Default)]
struct Report {
    line: String,
    note: String,
    wrong: Vec<String>,
    /// What to type, the first choice first.
    next: Vec<String>,
}

impl Report {
    fn new(line: impl ToString) -> Report {
        Report {
            line: line.to_string(),
            ..Report::default()
        }
    }

    fn is_wrong(&mut self, why: impl ToString, next: impl IntoIterator<Item = String>) {
        self.wrong.push(why.to_string());
        for command in next {
            if !self.next.contains(&command) {
                self.next.push(command);
            }
        }
    }

    /// What is wrong may only be half done: then whoever holds one of these locks is at it.
    fn unless_busy(mut self, of: &[&Path]) -> Report {
        let is_held = |of: &&Path| matches!(Lock::look(of), Err(Error::Of(Kind::Busy, ..)));
        let is_calm = self.wrong.is_empty() && self.note.is_empty();
        match !is_calm && of.iter().any(is_held) {
            true => {
                self.line += " (a run is at work on it; look again when it is done)";
                Report::new(self.line)
            }
            false => self,
        }
    }

    fn text(&self, indent: &str) -> String {
        let mut text = format!("{indent}{}\n", self.line);
        if !self.note.is_empty() {
            text += &format!("{indent}  note: {}\n", self.note);
        }
        for why in &self.wrong {
            text += &format!("{indent}  wrong: {why}\n");
        }
        for (number, command) in self.next.iter().enumerate() {
            let which = if number == 0 { "next" } else { "or" };
            text += &format!("{indent}  {which}: {command}\n");
        }
        text
    }
}

pub fn status(folder: &Path) -> Result<String, Error> {
    let found = Found::in_folder(folder)?;
    let mut text = String::new();
    let mut wrong = 0;
    let mut add = |report: Report, indent: &str| {
        wrong += report.wrong.len();
        text += &report.text(indent);
    };
    for slots_path in &found.slots {
        let (head, slots) = runs::reports(&found, slots_path);
        add(head, "");
        for report in slots {
            add(report, "  ");
        }
    }
    for row_path in &found.rows {
        add(rows::report(&found, row_path), "");
    }
    if found.slots.is_empty() && found.rows.is_empty() {
        text += &format!("no run and no row in {}\n", typed::name(&found.folder));
    }
    for path in &found.set_aside {
        text += &format!("{}: set aside, and used by nothing\n", typed::name(path));
    }
    Ok(text
        + &match wrong {
            0 => "nothing is wrong\n".to_string(),
            1 => "1 thing is wrong\n".to_string(),
            many => format!("{many} things are wrong\n"),
        })
}
