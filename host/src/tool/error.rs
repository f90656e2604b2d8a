//! Why a command failed: one line, but for a line of a text, and an exit code.
use super::sealed::Broken;
use phuyurik::Refusal;
use std::fmt;
use std::path::{Path, PathBuf};

/// What is wrong with a file, as far as a script has to tell it apart.
#[derive(Clone, Copy, Debug, PartialEq, Eq)]
pub enum Kind {
    /// It cannot be read or written, or may not be.
    File = 3,
    Busy = 4,
    Damaged = 5,
    Missing = 6,
    OtherRun = 7,
    Output = 8,
    /// It has forgotten a word that is known to be burnt.
    Forgotten = 9,
}

impl Kind {
    pub const ALL: [Kind; 7] = [
        Kind::File,
        Kind::Busy,
        Kind::Damaged,
        Kind::Missing,
        Kind::OtherRun,
        Kind::Output,
        Kind::Forgotten,
    ];

    pub fn code(self) -> u8 {
        self as u8
    }

    pub fn words(self) -> &'static str {
        match self {
            Kind::File => "a file cannot be read or written, or may not be",
            Kind::Busy => "busy: another run holds a file; try again",
            Kind::Damaged => "a file is damaged",
            Kind::Missing => "a file or a run is missing",
            Kind::OtherRun => "a file is of another run",
            Kind::Output => "the output could not be written; what was asked for is done",
            Kind::Forgotten => "a word that is known to be burnt is blank or other in a row",
        }
    }
}

#[derive(Debug)]
pub enum Error {
    /// The command line is wrong, or lacks the flag that says yes.
    Usage(String),
    Of(Kind, PathBuf, String),
    /// The proved library refused what a file holds.
    Refused(PathBuf, Refusal),
    /// It refused something in particular of what a file holds: which, and why.
    RefusedFor(PathBuf, Refusal, String),
    /// It refused a record that a file holds: its number, which record, and what stands there.
    Record(PathBuf, Refusal, String),
    /// It refused a line of a text, which is told with the line itself.
    Line(Refusal, String),
    /// The demo saw something else than it promises.
    Fact(String),
}

impl Error {
    pub fn of(kind: Kind, path: &Path, why: impl ToString) -> Error {
        Error::Of(kind, path.to_path_buf(), why.to_string())
    }

    pub fn file(path: &Path, why: impl ToString) -> Error {
        Error::of(Kind::File, path, why)
    }

    pub fn damaged(path: &Path, why: impl ToString) -> Error {
        Error::of(Kind::Damaged, path, why)
    }

    pub fn missing(path: &Path, why: impl ToString) -> Error {
        Error::of(Kind::Missing, path, why)
    }

    pub fn other_run(path: &Path, why: impl ToString) -> Error {
        Error::of(Kind::OtherRun, path, why)
    }

    pub fn forgotten(path: &Path, why: impl ToString) -> Error {
        Error::of(Kind::Forgotten, path, why)
    }

    /// A file of the tool's own that is not what the tool wrote, and the way on.
    pub fn broken(path: &Path, broken: Broken, way_on: &str) -> Error {
        match broken {
            Broken::Damaged => Error::damaged(path, format!("damaged: {way_on}")),
            Broken::Version => Error::file(path, "written by another version of this tool"),
        }
    }

    /// What the library said of what a file holds.
    pub fn of_library(path: &Path, error: phuyurik::Error) -> Error {
        match error.refusal() {
            Some(refusal) => Error::Refused(path.to_path_buf(), refusal),
            None => Error::file(path, error),
        }
    }

    pub fn exit_code(&self) -> u8 {
        match self {
            Error::Fact(_) => 1,
            Error::Usage(_) => 2,
            Error::Of(kind, ..) => kind.code(),
            Error::Refused(_, refusal)
            | Error::RefusedFor(_, refusal, _)
            | Error::Record(_, refusal, _)
            | Error::Line(refusal, _) => refusal_code(*refusal),
        }
    }
}

pub fn refusal_code(refusal: Refusal) -> u8 {
    30 + refusal.number() as u8
}

impl fmt::Display for Error {
    fn fmt(&self, f: &mut fmt::Formatter) -> fmt::Result {
        match self {
            Error::Usage(why) => write!(f, "{why} (see phuyurik --help)"),
            Error::Of(_, path, why) | Error::Record(path, _, why) => {
                write!(f, "{}: {why}", path.display())
            }
            Error::Refused(path, refusal) => write!(f, "{}: {refusal}", path.display()),
            Error::RefusedFor(path, refusal, why) => {
                write!(f, "{}: {refusal} ({why})", path.display())
            }
            Error::Line(_, told) => f.write_str(told),
            Error::Fact(what) => write!(f, "demo: {what}"),
        }
    }
}
