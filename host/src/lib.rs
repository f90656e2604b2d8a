//! A proved emulator for trim recipes: RV32IMC programs that can touch only their own memory and the
//! 64 one-time words of the part in the socket.
//!
//! Everything here hands its arguments to the proved library, which checks them, and puts the answer
//! into Rust's types. A refusal is an [`Error`] that carries the paper's number and words and says
//! which argument is at fault; whatever was lent keeps its bytes.
//!
//! ```
//! use phuyurik::{Board, Error, Row, State, Stop, Word};
//! // addi x5,x0,7; lui x6,524288; sw x5,0(x6); ecall
//! let mut memory = [0x9D, 0x42, 0x37, 0x03, 0x00, 0x80, 0x23, 0x20, 0x53, 0x00, 0x73, 0, 0, 0];
//! let mut row = Row::default();
//! let mut state = State::fresh();
//! let retired = Board::new(&mut memory, &mut row).run(&mut state, 100)?;
//! assert_eq!((retired, state.stop()), (3, Ok(Stop::Ecall)));
//! assert_eq!(row.word(0), Word::Burnt(7));
//! # Ok::<(), Error>(())
//! ```
//!
//! Two recipes may take turns on one row, each with words of its own: [`Board::shared`].
#![warn(missing_docs)]

mod answers;
mod assembly;
mod board;
mod codes;
mod error;
mod operation;
mod row;
mod slots;
mod state;
mod texts;
mod words;

pub use answers::{Argument, Refusal, Stop, UnknownNumber};
pub use assembly::{assemble, assemble_into};
pub use board::Board;
pub use codes::{chart, decode, encode, expand, shorten, Instruction};
pub use error::{archive_version, Error};
pub use operation::Operation;
pub use row::{Row, Word};
pub use slots::Slots;
pub use state::State;
pub use texts::{
    lines, list, listing, put_text_of, put_text_of_half, put_text_of_word, text_of, text_of_half,
    text_of_word, Lines,
};
pub use words::{Masks, UnreadableWords, Words};

/// This package's version as one number, major * 65536 + minor * 256 + patch. A call of an archive
/// that has another is [`Error::Version`].
///
/// ```
/// assert_eq!(phuyurik::VERSION, phuyurik::archive_version());
/// ```
pub const VERSION: u32 = phuyurik_sys::VERSION;
/// Main memory has at most this many bytes.
///
/// ```
/// use phuyurik::{Board, Refusal, Row, State, LONGEST_MEMORY};
/// let (mut memory, mut row) = (vec![0; LONGEST_MEMORY + 1], Row::default());
/// let refused = Board::new(&mut memory, &mut row).run(&mut State::fresh(), 1);
/// assert_eq!(refused, Err(Refusal::MemoryTooLong.into()));
/// ```
pub const LONGEST_MEMORY: usize = 65_536;
/// The bytes of a fuse row: 64 records of 8.
///
/// ```
/// use phuyurik::{Row, ROW};
/// assert!(Row::try_from(&[0; ROW][..]).is_ok());
/// ```
pub const ROW: usize = 512;
/// The words of a fuse row.
///
/// ```
/// assert_eq!(phuyurik::Row::default().words().count(), phuyurik::WORDS);
/// ```
pub const WORDS: usize = 64;
/// The bytes of a state's record in a slot.
///
/// ```
/// assert_eq!(phuyurik::State::fresh().to_bytes().len(), phuyurik::RECORD);
/// ```
pub const RECORD: usize = 144;
/// The least room for a text.
///
/// ```
/// use phuyurik::{put_text_of_word, Refusal, ROOM};
/// assert_eq!(put_text_of_word(0x73, &mut [0; ROOM]), Ok(5));
/// let refused = put_text_of_word(0x73, &mut [0; ROOM - 1]);
/// assert_eq!(refused, Err(Refusal::Room.into()));
/// ```
pub const ROOM: usize = 24;
/// The longest line of a listing, its newline included.
///
/// ```
/// let mut room = [0; phuyurik::LINE];
/// let (length, next) = phuyurik::list(&[0x01, 0x00], 0, &mut room)?;
/// assert_eq!((&room[..length], next), (&b"00000000 0001 c:addi x0,x0,0\n"[..], 2));
/// # Ok::<(), phuyurik::Error>(())
/// ```
pub const LINE: usize = 38;
