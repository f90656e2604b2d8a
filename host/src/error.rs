//! Why a call failed, and the one way in which the archive is asked.
use crate::{Argument, Refusal, UnknownNumber, VERSION};
use phuyurik_sys as sys;
use std::fmt;

/// Why a call failed. Nothing that was lent to it has changed.
///
/// ```
/// use phuyurik::{text_of_word, Error, Refusal};
/// let error = text_of_word(0).unwrap_err();
/// assert_eq!(error, Error::Refused(Refusal::NoInstruction));
/// assert_eq!(error.to_string(), "refusal 7: no legal instruction in the given bits");
/// ```
#[non_exhaustive]
#[derive(Clone, Copy, Debug, PartialEq, Eq, Hash)]
pub enum Error {
    /// The library refused what it was given.
    Refused(Refusal),
    /// The library refused a line of a text, the first that is at fault.
    Line {
        /// What is wrong with the line.
        refusal: Refusal,
        /// The line, counted from 0.
        line: usize,
        /// The byte within that line, counted from 0.
        byte: usize,
    },
    /// The library refused a record of a row, with [`Refusal::RowRecord`].
    RowRecord {
        /// The lowest word, 0 to 63, whose record breaks the rules.
        word: usize,
    },
    /// A number that this wrapper has no name for.
    UnknownNumber(u32),
    /// The archive that was linked is not of the wrapper's version, and was asked for nothing.
    Version {
        /// This package's version, as [`VERSION`](crate::VERSION) has it.
        wrapper: u32,
        /// The archive's version, as [`archive_version`] gives it.
        archive: u32,
    },
}

impl Error {
    /// The refusal, if it is one. A refusal that tells more than its number is a case of its own, and
    /// later versions may have more of them: programs ask here which it was.
    ///
    /// ```
    /// use phuyurik::{assemble, Error, Refusal};
    /// assert_eq!(Error::Refused(Refusal::Slot).refusal(), Some(Refusal::Slot));
    /// let line = assemble(b"ecall\naddi x5,x0,007\n").unwrap_err();
    /// assert_eq!(line.refusal(), Some(Refusal::NumberNotAllowed));
    /// assert_eq!(Error::UnknownNumber(99).refusal(), None);
    /// ```
    pub const fn refusal(self) -> Option<Refusal> {
        match self {
            Error::Refused(refusal) | Error::Line { refusal, .. } => Some(refusal),
            Error::RowRecord { .. } => Some(Refusal::RowRecord),
            _ => None,
        }
    }

    /// The same with the place that the archive wrote, where it is the refusal that has one. Whatever
    /// else a refusal tells is put into its error so: by what it is a refusal of, after the call.
    pub(crate) fn in_line(self, line: usize, byte: usize) -> Error {
        match self {
            Error::Refused(refusal) if refusal.argument() == Argument::Text => Error::Line {
                refusal,
                line,
                byte,
            },
            other => other,
        }
    }

    /// The same with the word that the archive wrote, where it is the refusal that has one.
    pub(crate) fn of_word(self, word: usize) -> Error {
        match self {
            Error::Refused(Refusal::RowRecord) => Error::RowRecord { word },
            other => other,
        }
    }
}

impl From<Refusal> for Error {
    fn from(refusal: Refusal) -> Error {
        Error::Refused(refusal)
    }
}

impl From<UnknownNumber> for Error {
    fn from(unknown: UnknownNumber) -> Error {
        Error::UnknownNumber(unknown.number())
    }
}

/// A version as people write it.
struct Dotted(u32);

impl fmt::Display for Dotted {
    fn fmt(&self, f: &mut fmt::Formatter) -> fmt::Result {
        write!(f, "{}.{}.{}", self.0 >> 16, self.0 >> 8 & 255, self.0 & 255)
    }
}

impl fmt::Display for Error {
    fn fmt(&self, f: &mut fmt::Formatter) -> fmt::Result {
        match self {
            Error::Refused(refusal) => refusal.fmt(f),
            Error::Line {
                refusal,
                line,
                byte,
            } => write!(f, "line {line}, byte {byte}: {refusal}"),
            Error::RowRecord { word } => {
                let number = Refusal::RowRecord.number();
                write!(
                    f,
                    "refusal {number}: record of word {word} breaks its rules"
                )
            }
            Error::UnknownNumber(number) => write!(f, "{number} is not a number known here"),
            Error::Version { wrapper, archive } => {
                let (wrapper, archive) = (Dotted(*wrapper), Dotted(*archive));
                write!(f, "the archive is of version {archive}, not {wrapper}")
            }
        }
    }
}

impl std::error::Error for Error {}

/// The version of the archive that was linked, as [`VERSION`](crate::VERSION) is this package's.
///
/// ```
/// assert_eq!(phuyurik::archive_version(), phuyurik::VERSION);
/// ```
pub fn archive_version() -> u32 {
    // SAFETY: it is lent nothing.
    unsafe { sys::phuyurik_version() }
}

/// Asks the archive, if it is of this version. The call answers 0 or a refusal's number.
#[inline]
pub(crate) fn ask(call: impl FnOnce() -> u32) -> Result<(), Error> {
    same_version(VERSION, archive_version())?;
    checked(call())
}

#[inline]
fn same_version(wrapper: u32, archive: u32) -> Result<(), Error> {
    match wrapper == archive {
        true => Ok(()),
        false => Err(Error::Version { wrapper, archive }),
    }
}

#[inline]
fn checked(number: u32) -> Result<(), Error> {
    match number {
        0 => Ok(()),
        _ => Err(Refusal::try_from(number)?.into()),
    }
}

#[cfg(test)]
mod tests {
    use super::*;

    #[test]
    fn answers_are_nothing_a_refusal_or_unknown() {
        assert_eq!(checked(0), Ok(()));
        for refusal in Refusal::ALL {
            assert_eq!(checked(refusal.number()), Err(Error::Refused(*refusal)));
        }
        let after_the_last = Refusal::ALL.len() as u32 + 1;
        for unknown in [after_the_last, 256, u32::MAX] {
            assert_eq!(checked(unknown), Err(Error::UnknownNumber(unknown)));
        }
    }

    #[test]
    fn only_a_refusal_that_tells_more_has_it() {
        for refusal in Refusal::ALL {
            let error = Error::Refused(*refusal).in_line(2, 8).of_word(17);
            assert_eq!(error.refusal(), Some(*refusal));
            let told = match refusal.number() {
                3 => "refusal 3: record of word 17 breaks its rules".to_string(),
                10..=12 => format!("line 2, byte 8: {refusal}"),
                _ => refusal.to_string(),
            };
            assert_eq!(error.to_string(), told);
        }
        let unknown = Error::UnknownNumber(99);
        assert_eq!(unknown.in_line(2, 8).of_word(17), unknown);
    }

    #[test]
    fn an_archive_of_another_version_is_an_error() {
        assert_eq!(same_version(0x102, 0x102), Ok(()));
        let error = same_version(0x200, 0x1_02ff).unwrap_err();
        let (wrapper, archive) = (0x200, 0x1_02ff);
        assert_eq!(error, Error::Version { wrapper, archive });
        let words = "the archive is of version 1.2.255, not 0.2.0";
        assert_eq!(error.to_string(), words);
    }
}
