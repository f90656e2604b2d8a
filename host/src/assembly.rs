//! The assembler.
use crate::error::{ask, Error};
use phuyurik_sys as sys;

/// Puts the instructions of a text at the front of the room, one after another; their length. A text
/// has lines as the disassembler writes them, each with its newline. A line with `c:` gives the
/// smallest halfword. The first line at fault is refused, with its place ([`Error::Line`]), then a
/// room that is shorter than the whole output.
///
/// ```
/// use phuyurik::{assemble_into, Refusal};
/// let mut room = [0xEE; 8];
/// assert_eq!(assemble_into(b"c:addi x5,x0,7\necall\n", &mut room), Ok(6));
/// assert_eq!(room, [0x9D, 0x42, 0x73, 0, 0, 0, 0xEE, 0xEE]);
/// let refused = assemble_into(b"ecall\n", &mut [0; 3]);
/// assert_eq!(refused, Err(Refusal::OutputRoom.into()));
/// ```
pub fn assemble_into(text: &[u8], room: &mut [u8]) -> Result<usize, Error> {
    let (mut length, mut line, mut byte) = (0, 0, 0);
    // SAFETY: the text is only read; the room and the places are lent for the call alone.
    let done = ask(|| unsafe {
        sys::phuyurik_assemble(
            text.as_ptr(),
            text.len(),
            room.as_mut_ptr(),
            room.len(),
            &mut length,
            &mut line,
            &mut byte,
        )
    });
    done.map_err(|error| error.in_line(line, byte))?;
    Ok(length)
}

/// The instructions of a text, as [`assemble_into`] gives them. The first line at fault is refused.
///
/// ```
/// use phuyurik::{assemble, Error, Refusal};
/// assert_eq!(assemble(b"c:addi x5,x0,7\n")?, [0x9D, 0x42]);
/// let error = assemble(b"ecall\naddi x5,x0,99999\n").unwrap_err();
/// let refusal = Refusal::NumberNotAllowed;
/// assert_eq!(error, Error::Line { refusal, line: 1, byte: 11 });
/// let words = "line 1, byte 11: refusal 11: a number or offset not allowed";
/// assert_eq!(error.to_string(), words);
/// # Ok::<(), Error>(())
/// ```
pub fn assemble(text: &[u8]) -> Result<Vec<u8>, Error> {
    // Every line is longer than its instruction.
    let mut room = vec![0; text.len()];
    let length = assemble_into(text, &mut room)?;
    room.truncate(length);
    Ok(room)
}
