//! Texts and listings.
use crate::error::{ask, Error};
use crate::{Instruction, ROOM};
use phuyurik_sys as sys;

/// The bytes of a page of a listing: some hundred lines.
const PAGE: usize = 4096;

/// The text of 32 bits. Bits of no legal instruction are refused.
///
/// ```
/// assert_eq!(phuyurik::text_of_word(0x00A0_0513)?, "addi x10,x0,10");
/// # Ok::<(), phuyurik::Error>(())
/// ```
pub fn text_of_word(bits: u32) -> Result<String, Error> {
    written(|room| put_text_of_word(bits, room))
}

/// The text of 16 bits: that of what they stand for, with `c:` in front. Bits of no legal instruction
/// are refused.
///
/// ```
/// assert_eq!(phuyurik::text_of_half(0x429D)?, "c:addi x5,x0,7");
/// # Ok::<(), phuyurik::Error>(())
/// ```
pub fn text_of_half(bits: u16) -> Result<String, Error> {
    written(|room| put_text_of_half(bits, room))
}

/// The text of an instruction. One with a field out of range is refused.
///
/// ```
/// let inst = phuyurik::expand(0x9002)?;
/// assert_eq!(phuyurik::text_of(inst)?, "ebreak");
/// # Ok::<(), phuyurik::Error>(())
/// ```
pub fn text_of(inst: Instruction) -> Result<String, Error> {
    written(|room| put_text_of(inst, room))
}

/// What is put into a room that has place for every text.
fn written(put: impl FnOnce(&mut [u8]) -> Result<usize, Error>) -> Result<String, Error> {
    let mut room = [0; ROOM];
    let length = put(&mut room)?;
    Ok(string(&room[..length]))
}

/// Texts and listings are ASCII by their definition, so that nothing is lost here.
fn string(bytes: &[u8]) -> String {
    String::from_utf8_lossy(bytes).into_owned()
}

/// Puts the text of 32 bits at the front of the room; its length. The room, then the bits may be
/// refused.
///
/// ```
/// let mut room = [0; phuyurik::ROOM];
/// let length = phuyurik::put_text_of_word(0x0000_0073, &mut room)?;
/// assert_eq!(&room[..length], b"ecall");
/// # Ok::<(), phuyurik::Error>(())
/// ```
pub fn put_text_of_word(bits: u32, room: &mut [u8]) -> Result<usize, Error> {
    let mut length = 0;
    // SAFETY: the room and the place are lent for the call alone.
    ask(|| unsafe {
        sys::phuyurik_text_of_word(bits, room.as_mut_ptr(), room.len(), &mut length)
    })?;
    Ok(length)
}

/// Puts the text of 16 bits at the front of the room; its length. The room, then the bits may be
/// refused.
///
/// ```
/// let mut room = [0; phuyurik::ROOM];
/// let length = phuyurik::put_text_of_half(0x9002, &mut room)?;
/// assert_eq!(&room[..length], b"c:ebreak");
/// # Ok::<(), phuyurik::Error>(())
/// ```
pub fn put_text_of_half(bits: u16, room: &mut [u8]) -> Result<usize, Error> {
    let mut length = 0;
    // SAFETY: as above.
    ask(|| unsafe {
        sys::phuyurik_text_of_half(bits, room.as_mut_ptr(), room.len(), &mut length)
    })?;
    Ok(length)
}

/// Puts the text of an instruction at the front of the room; its length. The room, then the
/// instruction may be refused.
///
/// ```
/// use phuyurik::{decode, put_text_of, Refusal};
/// let inst = decode(0x0000_0073)?;
/// assert_eq!(put_text_of(inst, &mut [0; 24]), Ok(5));
/// assert_eq!(put_text_of(inst, &mut [0; 23]), Err(Refusal::Room.into()));
/// # Ok::<(), phuyurik::Error>(())
/// ```
pub fn put_text_of(inst: Instruction, room: &mut [u8]) -> Result<usize, Error> {
    let mut length = 0;
    // SAFETY: as above; an `Instruction` is laid out as the C interface's.
    ask(|| unsafe {
        sys::phuyurik_text_of(inst.lent(), room.as_mut_ptr(), room.len(), &mut length)
    })?;
    Ok(length)
}

/// Puts whole lines of an image's listing at the front of the room, from the address `from` on, while
/// the room has place for the longest: the bytes written, and the address after the last line. There
/// is no line, and the first number is 0, at the image's end and in a room under
/// [`LINE`](crate::LINE) bytes.
///
/// ```
/// let (image, mut room) = ([0x9D, 0x42, 0x73, 0, 0, 0], [0; phuyurik::LINE]);
/// let (mut from, mut text) = (0, Vec::new());
/// loop {
///     let (length, next) = phuyurik::list(&image, from, &mut room)?;
///     if length == 0 {
///         break;
///     }
///     text.extend_from_slice(&room[..length]);
///     from = next;
/// }
/// assert_eq!(text, b"00000000 429d c:addi x5,x0,7\n00000002 00000073 ecall\n");
/// # Ok::<(), phuyurik::Error>(())
/// ```
pub fn list(image: &[u8], from: usize, room: &mut [u8]) -> Result<(usize, usize), Error> {
    let (mut length, mut next) = (0, 0);
    // SAFETY: as above; the image is only read.
    ask(|| unsafe {
        sys::phuyurik_list(
            image.as_ptr(),
            image.len(),
            from,
            room.as_mut_ptr(),
            room.len(),
            &mut length,
            &mut next,
        )
    })?;
    Ok((length, next))
}

/// A page of a listing from an address on, empty at the image's end, and the address after it.
fn page(image: &[u8], from: usize) -> Result<(String, usize), Error> {
    let mut room = [0; PAGE];
    let (length, next) = list(image, from, &mut room)?;
    Ok((string(&room[..length]), next))
}

/// The whole listing of an image, each line with its newline. An image over 65,536 bytes has the one
/// line `too long`.
///
/// ```
/// let text = phuyurik::listing(&[0x9D, 0x42, 0xFF])?;
/// assert_eq!(text, "00000000 429d c:addi x5,x0,7\n00000002 ff ?\n");
/// # Ok::<(), phuyurik::Error>(())
/// ```
pub fn listing(image: &[u8]) -> Result<String, Error> {
    let (mut text, mut from) = (String::new(), 0);
    loop {
        let (page, next) = page(image, from)?;
        if page.is_empty() {
            return Ok(text);
        }
        text += &page;
        from = next;
    }
}

/// The lines of an image's listing, without their newlines. They are made as they are asked for.
///
/// ```
/// let mut lines = phuyurik::lines(&[0x9D, 0x42, 0xFF]);
/// assert_eq!(lines.next(), Some(Ok("00000000 429d c:addi x5,x0,7".to_string())));
/// assert_eq!(lines.next(), Some(Ok("00000002 ff ?".to_string())));
/// assert_eq!(lines.next(), None);
/// ```
pub fn lines(image: &[u8]) -> Lines<'_> {
    Lines {
        image,
        page: String::new(),
        at: 0,
        from: 0,
        failed: false,
    }
}

/// The lines of a listing; [`lines`] gives them. It holds one page of them at a time, and ends after
/// an error.
///
/// ```
/// let image = [0x9D, 0x42].repeat(1000);
/// let lines: Result<Vec<String>, phuyurik::Error> = phuyurik::lines(&image).collect();
/// assert_eq!(lines?.len(), 1000);
/// # Ok::<(), phuyurik::Error>(())
/// ```
#[derive(Clone, Debug)]
pub struct Lines<'a> {
    image: &'a [u8],
    page: String,
    /// How much of the page has been given.
    at: usize,
    /// The address after the page.
    from: usize,
    failed: bool,
}

impl Iterator for Lines<'_> {
    type Item = Result<String, Error>;

    fn next(&mut self) -> Option<Result<String, Error>> {
        if self.at == self.page.len() && !self.failed {
            match page(self.image, self.from) {
                Ok((page, next)) => (self.page, self.at, self.from) = (page, 0, next),
                Err(error) => {
                    self.failed = true;
                    return Some(Err(error));
                }
            }
        }
        let (line, _) = self.page[self.at..].split_once('\n')?;
        self.at += line.len() + 1;
        Some(Ok(line.to_string()))
    }
}

impl std::iter::FusedIterator for Lines<'_> {}
