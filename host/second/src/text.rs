//! The text of instructions, and the listing of an image.

use crate::encode::{checked_shape, Shape};
use crate::{decode, refusal, short, Inst};

/// No text is longer than 24 bytes, and no line of a listing than 38.
const ROOM: usize = 24;
const LINE: usize = 38;
const LONGEST_IMAGE: usize = 65_536;

pub(crate) const NAMES: [&str; 48] = [
    "lui", "auipc", "jal", "jalr", "beq", "bne", "blt", "bge", "bltu", "bgeu", "lb", "lh", "lw",
    "lbu", "lhu", "sb", "sh", "sw", "addi", "slti", "sltiu", "xori", "ori", "andi", "slli", "srli",
    "srai", "add", "sub", "sll", "slt", "sltu", "xor", "srl", "sra", "or", "and", "fence", "ecall",
    "ebreak", "mul", "mulh", "mulhsu", "mulhu", "div", "divu", "rem", "remu",
];

/// Writes the text of 32 bits into the room; refusals 6 and 7.
pub fn text_of_word(bits: u32, room: &mut [u8]) -> Result<usize, u32> {
    room_suffices(room)?;
    Ok(put(&text(decode::decode(bits)?)?, room))
}

/// Writes the text of 16 bits into the room, with `c:` in front; refusals 6 and 7.
pub fn text_of_half(bits: u16, room: &mut [u8]) -> Result<usize, u32> {
    room_suffices(room)?;
    Ok(put(&short_text(short::expand(bits)?)?, room))
}

/// Writes the text of an instruction into the room; refusals 6 and 8.
pub fn text_of(i: Inst, room: &mut [u8]) -> Result<usize, u32> {
    room_suffices(room)?;
    Ok(put(&text(i)?, room))
}

fn room_suffices(room: &[u8]) -> Result<(), u32> {
    if room.len() < ROOM {
        return Err(refusal::ROOM);
    }
    Ok(())
}

fn put(text: &str, room: &mut [u8]) -> usize {
    room[..text.len()].copy_from_slice(text.as_bytes());
    text.len()
}

fn short_text(i: Inst) -> Result<String, u32> {
    Ok(format!("c:{}", text(i)?))
}

fn text(i: Inst) -> Result<String, u32> {
    let shape = checked_shape(i)?;
    let name = NAMES[i.operation as usize];
    let (rd, rs1, rs2, field, number) = (i.rd, i.rs1, i.rs2, i.imm, i.imm as i32);
    Ok(match shape {
        Shape::Upper => format!("{name} x{rd},{field}"),
        Shape::Jump => format!("{name} x{rd},{number}"),
        Shape::Indexed => format!("{name} x{rd},{number}(x{rs1})"),
        Shape::Branch => format!("{name} x{rs1},x{rs2},{number}"),
        Shape::Store => format!("{name} x{rs2},{number}(x{rs1})"),
        Shape::Immediate => format!("{name} x{rd},x{rs1},{number}"),
        Shape::Shift | Shape::Fence => format!("{name} x{rd},x{rs1},{field}"),
        Shape::Register => format!("{name} x{rd},x{rs1},x{rs2}"),
        Shape::Alone => name.to_string(),
    })
}

/// Writes whole lines of the listing from address `from` on, while there are bytes to list and
/// room for the longest line. Answers the length written and the next address.
pub fn list(image: &[u8], from: usize, room: &mut [u8]) -> (usize, usize) {
    let (mut written, mut next) = (0, from);
    while next < image.len() && room.len() - written >= LINE {
        let (text, after) = line(image, next);
        written += put(&text, &mut room[written..]);
        next = after;
    }
    (written, next)
}

/// The whole listing, as the listing program writes it.
pub fn listing(image: &[u8]) -> String {
    let (mut lines, mut next) = (String::new(), 0);
    while next < image.len() {
        let (text, after) = line(image, next);
        lines.push_str(&text);
        next = after;
    }
    lines
}

/// The line at an address within the image, and the address of the line after it.
fn line(image: &[u8], at: usize) -> (String, usize) {
    if image.len() > LONGEST_IMAGE {
        return ("too long\n".to_string(), image.len());
    }
    match image[at..] {
        [byte] => (format!("{at:08x} {byte:02x} ?\n"), at + 1),
        [a, b, ref rest @ ..] => {
            let low = u16::from_le_bytes([a, b]);
            if let Some((word, text)) = long_text(low, rest) {
                return (format!("{at:08x} {word:08x} {text}\n"), at + 4);
            }
            let text = short::expand(low).and_then(short_text);
            let text = text.unwrap_or_else(|_| "?".to_string());
            (format!("{at:08x} {low:04x} {text}\n"), at + 2)
        }
        [] => (String::new(), at),
    }
}

/// The 4-byte instruction that begins with this halfword, if it fits and is legal.
fn long_text(low: u16, rest: &[u8]) -> Option<(u32, String)> {
    let high = u16::from_le_bytes(*rest.first_chunk()?);
    let word = u32::from(high) << 16 | u32::from(low);
    Some((word, text(decode::word(word)?).ok()?))
}
