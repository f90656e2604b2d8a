//! Texts to be read: good lines, and lines in which something is wrong.

use crate::{program, words};
use std::ops::Range;
use testing::Random;

/// Numbers at which some operand, or some way of counting, comes to its end.
pub const LIMITS: [i128; 12] = [
    0,
    10,
    31,
    64,
    1 << 11,
    1 << 12,
    1 << 19,
    1 << 20,
    1 << 31,
    1 << 32,
    1 << 63,
    1 << 64,
];

/// Some lines, in most cases with damage to one or more of them, also twice to the same, or with the
/// text cut short.
pub fn text(random: &mut Random) -> Vec<u8> {
    let count = random.length(0, 6);
    let mut lines: Vec<Vec<u8>> = (0..count).map(|_| good_line(random)).collect();
    let mut place = random.length(0, count);
    for _ in 0..random.below(4) {
        if random.once_in(2) {
            place = random.length(0, count);
        }
        if let Some(line) = lines.get_mut(place) {
            damage(random, line);
        }
    }
    let mut text = lines.concat();
    if random.once_in(8) {
        text.truncate(random.length(0, text.len()));
    }
    text
}

/// The line of a legal halfword or word, as the disassembler writes it.
pub fn good_line(random: &mut Random) -> Vec<u8> {
    let text = match random.below(3) {
        0 => phuyurik::text_of_half(program::legal_half(random)),
        1 => phuyurik::text_of_word(program::legal_word(random)),
        _ => phuyurik::text_of_word(any_legal_word(random)),
    };
    let text = text.expect("the bits are legal");
    format!("{text}\n").into_bytes()
}

pub fn any_legal_word(random: &mut Random) -> u32 {
    loop {
        let bits = words::any_word(random);
        if second::decode(bits).is_ok() {
            return bits;
        }
    }
}

fn damage(random: &mut Random, line: &mut Vec<u8>) {
    let (end, place) = (line.len(), random.length(0, line.len()));
    let one = place..end.min(place + 1);
    let (old, new) = match random.below(14) {
        0 => (one, vec![any_byte(random)]),
        1 => (place..place, vec![any_byte(random)]),
        2 => (one, vec![]),
        3 => (place..end, vec![]),
        4 => (0..0, b"c:".to_vec()),
        5 => (0..end, no_line(random).to_vec()),
        6 => (end.saturating_sub(1)..end, b"\r\n".to_vec()),
        7 => (place..end, good_line(random).split_off(random.length(0, 5))),
        _ => {
            let number = any_number(random, line);
            let new = strange_number(random, &line[number.clone()]);
            (number, new.into_bytes())
        }
    };
    line.splice(old, new);
}

fn no_line(random: &mut Random) -> &'static [u8] {
    random.pick(&[b"\n", b"\r\n", b"?\n", b" \n", b"c:\n"])
}

/// A byte of those that lines have, or any.
fn any_byte(random: &mut Random) -> u8 {
    match random.below(4) {
        0 => random.word() as u8,
        1 => random.pick(b"0123456789"),
        2 => random.pick(b" ,()-:xc\n\r+\t"),
        _ => random.pick(b"abcdefhijlmnopqrstuvwx"),
    }
}

/// Where one of the line's numbers stands; nothing at its front where it has none.
fn any_number(random: &mut Random, line: &[u8]) -> Range<usize> {
    match numbers(line) {
        numbers if numbers.is_empty() => 0..0,
        numbers => numbers[random.length(0, numbers.len() - 1)].clone(),
    }
}

/// Where the numbers of a line stand, a minus before one with it.
pub fn numbers(line: &[u8]) -> Vec<Range<usize>> {
    let mut numbers: Vec<Range<usize>> = Vec::new();
    for (at, byte) in line.iter().enumerate() {
        let goes_on = numbers.last().is_some_and(|number| number.end == at);
        match (byte, goes_on) {
            (b'0'..=b'9', true) => numbers.last_mut().expect("there is one").end += 1,
            (b'0'..=b'9' | b'-', _) => numbers.push(at..at + 1),
            _ => {}
        }
    }
    numbers
}

/// Another number, or another spelling of this one.
fn strange_number(random: &mut Random, old: &[u8]) -> String {
    let old = String::from_utf8_lossy(old);
    // what has too many digits for this has been made strange before
    let value: i128 = old.parse().unwrap_or_default();
    let near = i128::from(random.within(-2, 2));
    match random.below(8) {
        0 => format!("-{old}"),
        1 => format!("0{old}"),
        2 => format!("{}0{}", ["", "-"][usize::from(value < 0)], value.abs()),
        3 => random.pick(&["-0", "00", "-00", "", "-"]).to_string(),
        4 => (value + near).to_string(),
        5 => (random.pick(&LIMITS) * random.pick(&[1, -1]) + near).to_string(),
        // equal to the old one where only the low bits are looked at
        6 => (value + (near << random.pick(&[16, 32, 64]))).to_string(),
        _ => digits(random),
    }
}

fn digits(random: &mut Random) -> String {
    let count = random.length(1, 60);
    let digits = (0..count).map(|_| char::from(random.pick(b"0123456789")));
    digits.collect()
}

#[cfg(test)]
mod tests {
    use super::*;

    #[test]
    fn numbers_are_found_with_their_minus() {
        assert_eq!(numbers(b"c:sw x10,-128(x2)\n"), [6..8, 9..13, 15..16]);
        assert_eq!(numbers(b"x--5 -\n"), [1..2, 2..4, 5..6]);
        assert_eq!(numbers(b"ecall\n"), []);
    }
}
