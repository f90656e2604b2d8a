//! Lines of text to the bytes of their instructions.
//!
//! A line is read from the left by the bytes that may stand next. What follows a name depends on the
//! operation alone, so at every place one set of bytes is allowed, and the first byte outside of it
//! is the one that cannot continue a readable line.

use crate::encode::{encode, immediate_fits, shape, Shape};
use crate::text::NAMES;
use crate::{refusal, shorten, Inst};
use std::ops::Range;

/// A refusal's number, and the refused line with the byte in it, both from 0; no place for 13, which
/// is not about a line.
#[derive(Clone, Copy, Debug, PartialEq, Eq)]
pub struct Fault {
    pub number: u32,
    pub place: Option<(usize, usize)>,
}

/// Writes the instructions of the lines one after another into the room, and answers their length.
pub fn assemble(text: &[u8], room: &mut [u8]) -> Result<usize, Fault> {
    let mut code = Vec::new();
    let lines = text.split_inclusive(|byte| *byte == b'\n');
    for (line, bytes) in lines.enumerate() {
        let fault = |(number, byte)| Fault {
            number,
            place: Some((line, byte)),
        };
        code.extend(code_of(bytes).map_err(fault)?);
    }
    let no_room = Fault {
        number: refusal::OUTPUT_ROOM,
        place: None,
    };
    let front = room.get_mut(..code.len()).ok_or(no_room)?;
    front.copy_from_slice(&code);
    Ok(code.len())
}

/// The bytes of one line's instruction, or the refusal's number and the byte of the line.
fn code_of(line: &[u8]) -> Result<Vec<u8>, (u32, usize)> {
    let read = read(line).map_err(|at| (refusal::UNREADABLE, at))?;
    let inst = instruction(line, &read).map_err(|at| (refusal::NUMBER, at))?;
    if read.is_short {
        let half = shorten(inst).map_err(|_| (refusal::NO_SHORT_LINE, 0))?;
        return Ok(half.to_le_bytes().to_vec());
    }
    let word = encode(inst).expect("every number of the line was checked");
    Ok(word.to_le_bytes().to_vec())
}

/// A readable line: where its numbers stand, from the left, and which operand each of them is.
struct Read {
    is_short: bool,
    operation: u32,
    shape: Shape,
    numbers: Vec<(u8, Range<usize>)>,
}

/// How the operands of a shape are written: `d`, `1` and `2` are the registers rd, rs1 and rs2, `i`
/// is the immediate, and other bytes are themselves.
fn pattern(shape: Shape) -> &'static [u8] {
    match shape {
        Shape::Upper | Shape::Jump => b"d,i\n",
        Shape::Indexed => b"d,i(1)\n",
        Shape::Store => b"2,i(1)\n",
        Shape::Branch => b"1,2,i\n",
        Shape::Immediate | Shape::Shift | Shape::Fence => b"d,1,i\n",
        Shape::Register => b"d,1,2\n",
        Shape::Alone => b"",
    }
}

/// A line as it is read, or the first byte that cannot continue a readable line.
fn read(line: &[u8]) -> Result<Read, usize> {
    let mut reader = Reader { line, at: 0 };
    let is_short = reader.mark()?;
    let (operation, shape) = reader.name()?;
    let mut numbers = Vec::new();
    for &byte in pattern(shape) {
        match byte {
            b'd' | b'1' | b'2' => numbers.push((byte, reader.register()?)),
            b'i' => numbers.push((byte, reader.number()?)),
            _ => reader.take(|next| next == byte)?,
        }
    }
    Ok(Read {
        is_short,
        operation,
        shape,
        numbers,
    })
}

/// Every function answers the place of the first byte that is not allowed.
struct Reader<'a> {
    line: &'a [u8],
    at: usize,
}

impl Reader<'_> {
    fn take(&mut self, is_allowed: impl Fn(u8) -> bool) -> Result<(), usize> {
        match self.line.get(self.at) {
            Some(byte) if is_allowed(*byte) => {
                self.at += 1;
                Ok(())
            }
            _ => Err(self.at),
        }
    }

    /// Whether the line begins with `c:`. No name begins with `c`, so after it the colon must stand.
    fn mark(&mut self) -> Result<bool, usize> {
        if self.take(|byte| byte == b'c').is_err() {
            return Ok(false);
        }
        self.take(|byte| byte == b':').map(|()| true)
    }

    /// The operation whose name stands here, together with the byte that ends the name.
    fn name(&mut self) -> Result<(u32, Shape), usize> {
        let mut possible: Vec<Name> = names().collect();
        for place in 0.. {
            let at = self.at;
            self.take(|byte| possible.iter().any(|name| name.byte(place) == Some(byte)))?;
            possible.retain(|name| name.byte(place) == Some(self.line[at]));
            // No name with its end begins another, so one that has ended is the only one left.
            if let [name] = possible[..] {
                if name.byte(place + 1).is_none() {
                    return Ok((name.operation, name.shape));
                }
            }
        }
        unreachable!("every name has an end")
    }

    /// The place of a register's number, which begins after the x.
    fn register(&mut self) -> Result<Range<usize>, usize> {
        self.take(|byte| byte == b'x')?;
        self.digits(self.at)
    }

    /// The place of a number, its minus with it.
    fn number(&mut self) -> Result<Range<usize>, usize> {
        let start = self.at;
        let _ = self.take(|byte| byte == b'-');
        self.digits(start)
    }

    /// One digit or more, from here on, of a number that has begun at `start`.
    fn digits(&mut self, start: usize) -> Result<Range<usize>, usize> {
        self.take(|byte| byte.is_ascii_digit())?;
        while self.take(|byte| byte.is_ascii_digit()).is_ok() {}
        Ok(start..self.at)
    }
}

/// An operation by its name in a line.
#[derive(Clone, Copy)]
struct Name {
    operation: u32,
    shape: Shape,
    letters: &'static [u8],
}

impl Name {
    /// A letter of the name, or the byte that ends it: a space before operands, else the newline.
    fn byte(&self, place: usize) -> Option<u8> {
        let end: &[u8] = match self.shape {
            Shape::Alone => b"\n",
            _ => b" ",
        };
        self.letters.iter().chain(end).nth(place).copied()
    }
}

fn names() -> impl Iterator<Item = Name> {
    (0..).zip(NAMES).map(|(operation, letters)| Name {
        operation,
        shape: shape(operation).expect("there are as many operations as names"),
        letters: letters.as_bytes(),
    })
}

/// The instruction of a readable line, or the first byte of its leftmost wrong number.
fn instruction(line: &[u8], read: &Read) -> Result<Inst, usize> {
    let mut inst = Inst {
        operation: read.operation,
        ..Inst::default()
    };
    for (operand, place) in &read.numbers {
        let value = canonical(&line[place.clone()]).ok_or(place.start)?;
        let (field, fits) = match operand {
            b'i' => (&mut inst.imm, immediate_fits(read.shape, value)),
            b'd' => (&mut inst.rd, value <= 31),
            b'1' => (&mut inst.rs1, value <= 31),
            _ => (&mut inst.rs2, value <= 31),
        };
        if !fits {
            return Err(place.start);
        }
        *field = value;
    }
    Ok(inst)
}

/// The number that is written so and not otherwise; none that an operand can hold needs more than 32
/// bits. A negative one is its bits, as an instruction has it.
fn canonical(spelling: &[u8]) -> Option<u32> {
    let spelling = std::str::from_utf8(spelling).ok()?;
    let number: i32 = spelling.parse().ok()?;
    (number.to_string() == spelling).then_some(number as u32)
}
