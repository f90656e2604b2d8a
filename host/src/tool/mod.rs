//! The commands. Each gives a text for standard output and an exit code, or one error.
mod args;
mod assemble;
mod demo;
mod elf;
mod end;
mod error;
mod files;
#[cfg(test)]
mod files_tests;
mod going;
mod help;
mod image;
mod journal;
#[cfg(test)]
mod journal_tests;
mod known;
mod listing;
mod masks;
mod place;
mod row_file;
mod run;
#[cfg(test)]
mod run_tests;
mod sealed;
mod settling;
mod show;
mod slot;
mod status;
mod view;
mod watch;
mod ways;

use args::Command;
use end::End;
use error::{Error, Kind};
use std::ffi::OsString;
use std::io::{ErrorKind, Write};
use std::process::ExitCode;

/// What a command that came to its end has to say.
pub struct Answer {
    pub text: String,
    pub code: u8,
    /// The end of a run that it tells of.
    pub end: Option<End>,
}

impl Answer {
    pub fn of(text: String, code: u8) -> Answer {
        let end = None;
        Answer { text, code, end }
    }

    pub fn good(text: String) -> Answer {
        Answer::of(text, 0)
    }
}

pub fn main(words: Vec<OsString>) -> ExitCode {
    let code = match answer(words).and_then(print) {
        Ok(code) => code,
        Err(error) => {
            match &error {
                // Editors find a place that stands first in its line.
                Error::Line(_, told) => watch::put(told),
                other => watch::say(&other.to_string()),
            }
            error.exit_code()
        }
    };
    ExitCode::from(code)
}

fn answer(words: Vec<OsString>) -> Result<Answer, Error> {
    match args::parse(words)? {
        Command::Help(text) => Ok(Answer::good(text)),
        Command::Version => Ok(Answer::good(format!(
            "phuyurik {}\n",
            env!("CARGO_PKG_VERSION")
        ))),
        Command::List { image, until } => listing::list(&image, until).map(Answer::good),
        Command::Text { image, until } => listing::text(&image, until).map(Answer::good),
        Command::Assemble(order) => assemble::assemble(&order).map(Answer::good),
        Command::Row(file, masks) => show::row(&file, masks).map(Answer::good),
        Command::Slot(file, k) => show::slot(&file, k).map(Answer::good),
        Command::Status(folder) => status::status(&folder).map(Answer::good),
        Command::Forget { slots, k, yes } => ways::forget(&slots, k, yes),
        Command::Adopt { slots, k, row, yes } => ways::adopt(&slots, k, &row, yes),
        Command::Settle { row, discard, yes } => ways::settle(&row, discard, yes),
        Command::Mend { slots, yes } => ways::mend(&slots, yes),
        Command::Demo => demo::demo().map(Answer::good),
        Command::Run(order) => {
            let done = run::run(&order, &mut watch::Terminal::new())?;
            let stop = done
                .state
                .stop()
                .map_err(|unknown| Error::of_library(&order.slots, unknown.into()))?;
            Ok(Answer {
                text: show::facts(&done),
                code: show::stop_code(stop),
                end: done.end,
            })
        }
    }
}

/// A reader that went away early (`| head`) is no error, but nothing was told.
fn print(answer: Answer) -> Result<u8, Error> {
    let mut out = std::io::stdout().lock();
    let done = out.write_all(answer.text.as_bytes());
    match done.and_then(|()| out.flush()) {
        Err(why) if why.kind() != ErrorKind::BrokenPipe => {
            let why = format!("{why}; what was asked for is done");
            return Err(Error::of(Kind::Output, "standard output".as_ref(), why));
        }
        Err(_) => {}
        Ok(()) => answer.end.iter().for_each(End::was_told),
    }
    Ok(answer.code)
}
