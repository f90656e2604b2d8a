//! Lines read: those of all legal instructions, damaged ones, and rooms around what is needed.

use crate::damage::{self, LIMITS};
use crate::lent::Lent;
use crate::tally::{number, Check, Difference, Tally};
use phuyurik::{Error, Operation};
use second::{refusal, Fault};
use testing::Random;

/// The operands of every shape that a line can have.
const OPERANDS: [&str; 5] = [
    "",
    " x10,-12",
    " x10,-12(x21)",
    " x10,x21,-12",
    " x10,x21,x30",
];

pub fn round(tally: &mut Tally, random: &mut Random) -> Check {
    for _ in 0..200 {
        word_and_back(tally, damage::any_legal_word(random))?;
    }
    for _ in 0..300 {
        let text = damage::text(random);
        in_rooms(tally, random, &text)?;
    }
    // now and then more than the 65,536 bytes that the program takes
    let longest = if random.once_in(16) { 8000 } else { 100 };
    let count = random.length(0, longest);
    let lines: Vec<Vec<u8>> = (0..count).map(|_| damage::good_line(random)).collect();
    in_rooms(tally, random, &lines.concat())
}

/// The lines of every legal halfword and of the word that it stands for.
pub fn all_halfwords(tally: &mut Tally) -> Check {
    for bits in 0..=u16::MAX {
        let Ok(inst) = second::expand(bits) else {
            continue;
        };
        let (half, word) = (second::shorten(inst), second::encode(inst));
        let half = half.expect("it is the short form of one");
        let text = phuyurik::text_of_half(bits);
        back(tally, text, &half.to_le_bytes())?;
        word_and_back(tally, word.expect("it was expanded"))?;
    }
    Ok(())
}

fn word_and_back(tally: &mut Tally, bits: u32) -> Check {
    back(tally, phuyurik::text_of_word(bits), &bits.to_le_bytes())
}

/// What the library wrote for legal bits gives these bytes.
fn back(tally: &mut Tally, text: Result<String, Error>, bytes: &[u8]) -> Check {
    let refused = |error| Difference(format!("the text of legal bits: {error}"));
    let line = format!("{}\n", text.map_err(refused)?);
    compare(tally, line.as_bytes(), &[b'.'; 8])?;
    let proved = phuyurik::assemble(line.as_bytes()).map_err(number);
    let call = || format!("assemble({line:?}), read back");
    tally.same(call, proved, Ok(bytes.to_vec()))
}

/// Every name with operands of every shape, whether they are its own or not.
pub fn all_shapes(tally: &mut Tally) -> Check {
    for name in Operation::ALL {
        for (mark, operands) in ["", "c:"].iter().flat_map(|m| OPERANDS.map(|o| (m, o))) {
            let line = format!("{mark}{name}{operands}\n").into_bytes();
            for length in 0..line.len() {
                compare(tally, &line[..length], &[])?;
            }
            compare(tally, &line, &[b'.'; 8])?;
            if is_readable(&line) {
                every_byte(tally, &line)?;
                every_limit(tally, &line)?;
            }
        }
    }
    Ok(())
}

fn is_readable(line: &[u8]) -> bool {
    let answer = second::assemble(line, &mut [0; 8]);
    answer.map_or_else(|fault| fault.number != refusal::UNREADABLE, |_| true)
}

/// Every byte at every place of a line.
fn every_byte(tally: &mut Tally, line: &[u8]) -> Check {
    let mut changed = line.to_vec();
    for (place, old) in line.iter().enumerate() {
        for byte in 0..=u8::MAX {
            changed[place] = byte;
            compare(tally, &changed, &[b'.'; 8])?;
        }
        changed[place] = *old;
    }
    Ok(())
}

/// Numbers up to each limit and beyond it, in right and in wrong spellings, in place of every number
/// of a line, with its newline and without.
fn every_limit(tally: &mut Tally, line: &[u8]) -> Check {
    for number in damage::numbers(line) {
        let values = LIMITS.iter().flat_map(|limit| limit - 2..=limit + 2);
        for (value, before) in values.flat_map(|v| ["", "-", "0", "-0"].map(|b| (v, b))) {
            let mut changed = line.to_vec();
            let new = format!("{before}{value}");
            changed.splice(number.clone(), new.into_bytes());
            compare(tally, &changed, &[b'.'; 8])?;
            compare(tally, &changed[..changed.len() - 1], &[])?;
        }
    }
    Ok(())
}

/// A text in rooms shorter and longer than what is needed; in any room where it is refused.
fn in_rooms(tally: &mut Tally, random: &mut Random, text: &[u8]) -> Check {
    let size = random.length(0, text.len());
    compare(tally, text, &random.bytes(size))?;
    if let Ok(needed) = second::assemble(text, &mut vec![0; text.len()]) {
        for size in needed.saturating_sub(5)..=needed + 5 {
            compare(tally, text, &random.bytes(size))?;
        }
    }
    Ok(())
}

/// Compares two answers, the places that they tell and the rooms as they were left; a refusal must
/// leave the room as it was, and every answer the text.
fn compare(tally: &mut Tally, text: &[u8], room: &[u8]) -> Check {
    let (mut lent_text, mut lent) = (Lent::new(text, room.len()), Lent::new(room, text.len()));
    let mut other = room.to_vec();
    let proved = phuyurik::assemble_into(lent_text.content(), lent.content()).map_err(fault);
    let second = second::assemble(text, &mut other);
    tally.note_refusal(&second.map_err(|fault| fault.number));
    tally.note_place(text, second);
    let call = || {
        let text = String::from_utf8_lossy(text);
        format!("assemble({text:?}) in a room of {}", room.len())
    };
    tally.same(call, proved, second)?;
    let left = lent.back()?;
    tally.same_bytes(call, &left, &other)?;
    tally.same_bytes(call, &lent_text.back()?, text)?;
    if second.is_err() {
        tally.same_bytes(|| format!("{}, refused", call()), &left, room)?;
    }
    Ok(())
}

/// A refusal with its place, as the second assembler answers it.
fn fault(error: Error) -> Fault {
    let place = match error {
        Error::Line { line, byte, .. } => Some((line, byte)),
        _ => None,
    };
    Fault {
        number: number(error),
        place,
    }
}
