//! The text of bits and instructions in rooms of any length, and the listing of images.

use crate::lent::Lent;
use crate::program::{self, Temper};
use crate::tally::{Check, Difference, Tally};
use crate::words;
use second::Inst;
use testing::Random;

pub fn round(tally: &mut Tally, random: &mut Random) -> Check {
    for _ in 0..500 {
        let length = random.length(0, 60);
        let room = random.bytes(length);
        word(tally, words::any_word(random), &room)?;
        half(tally, random.word() as u16, &room)?;
        instruction(tally, words::any_instruction(random), &room)?;
    }
    for _ in 0..6 {
        let image = image(random);
        whole_listing(tally, random, &image)?;
        for _ in 0..20 {
            let from = any_place(random, image.len());
            let length = random.length(0, 200);
            page(tally, &image, from, &random.bytes(length))?;
        }
    }
    Ok(())
}

/// The text of every halfword, in a room that is long enough.
pub fn all_halfwords(tally: &mut Tally) -> Check {
    for bits in 0..=u16::MAX {
        half(tally, bits, &[b'.'; 30])?;
    }
    Ok(())
}

pub fn word(tally: &mut Tally, bits: u32, room: &[u8]) -> Check {
    let call = || format!("text_of_word({bits:#010x}) in a room of {}", room.len());
    let proved = |room: &mut [u8]| phuyurik::put_text_of_word(bits, room);
    let second = |room: &mut [u8]| second::text_of_word(bits, room);
    text(tally, call, room, proved, second)
}

pub fn half(tally: &mut Tally, bits: u16, room: &[u8]) -> Check {
    let call = || format!("text_of_half({bits:#06x}) in a room of {}", room.len());
    let proved = |room: &mut [u8]| phuyurik::put_text_of_half(bits, room);
    let second = |room: &mut [u8]| second::text_of_half(bits, room);
    text(tally, call, room, proved, second)
}

pub fn instruction(tally: &mut Tally, inst: Inst, room: &[u8]) -> Check {
    let call = || format!("text_of({inst:x?}) in a room of {}", room.len());
    let proved = |room: &mut [u8]| phuyurik::put_text_of(words::to_proved(inst), room);
    let second = |room: &mut [u8]| second::text_of(inst, room);
    text(tally, call, room, proved, second)
}

/// Compares two answers and the rooms as they were left; a refusal must leave the room as it was.
fn text(
    tally: &mut Tally,
    call: impl Fn() -> String,
    room: &[u8],
    proved: impl FnOnce(&mut [u8]) -> Result<usize, phuyurik::Error>,
    second: impl FnOnce(&mut [u8]) -> Result<usize, u32>,
) -> Check {
    let (mut lent, mut other) = (Lent::new(room, room.len()), room.to_vec());
    let (answer, second) = (proved(lent.content()), second(&mut other));
    let left = lent.back()?;
    let refused = second.is_err();
    tally.same_answer(&call, answer, second)?;
    tally.same(&call, &left, &other)?;
    if refused {
        tally.same(|| format!("{}, refused", call()), &left[..], room)?;
    }
    Ok(())
}

fn image(random: &mut Random) -> Vec<u8> {
    let length = match random.below(24) {
        0 => random.length(65_530, 65_536),
        1 => random.length(65_537, 65_600),
        2..=6 => random.length(0, 9),
        _ => random.length(10, 1500),
    };
    if random.once_in(3) {
        return random.bytes(length);
    }
    let mut image = program::code(random, length, Temper::Wild(10));
    image.truncate(length);
    image
}

fn any_place(random: &mut Random, length: usize) -> usize {
    match random.below(6) {
        0 => random.pick(&[length, length + 1, usize::MAX, 65_536, 1 << 32, 1 << 63]),
        1 => length.saturating_sub(random.length(0, 5)),
        _ => random.length(0, length),
    }
}

fn page(tally: &mut Tally, image: &[u8], from: usize, room: &[u8]) -> Check {
    let (mut proved, mut second) = (Lent::new(room, room.len()), room.to_vec());
    let answer = phuyurik::list(image, from, proved.content());
    let other = second::list(image, from, &mut second);
    let (length, size) = (image.len(), room.len());
    let call = || format!("list of {length} bytes from {from} in a room of {size}");
    tally.same(call, answer, Ok(other))?;
    tally.same_bytes(call, &proved.back()?, &second)
}

/// The listing as one text, and the same in pages of any length.
fn whole_listing(tally: &mut Tally, random: &mut Random, image: &[u8]) -> Check {
    let call = || format!("listing of {} bytes", image.len());
    let broken = |error: phuyurik::Error| Difference(format!("{}: {error}", call()));
    let second = second::listing(image);
    let proved = phuyurik::listing(image).map_err(broken)?;
    tally.same_bytes(call, proved.as_bytes(), second.as_bytes())?;
    let (mut pages, mut next) = (Vec::new(), 0);
    while next < image.len() {
        let length = random.length(38, 400);
        let room = random.bytes(length);
        page(tally, image, next, &room)?;
        let mut room = room;
        let (written, after) = phuyurik::list(image, next, &mut room).map_err(broken)?;
        pages.extend_from_slice(&room[..written]);
        next = after;
    }
    tally.same_bytes(call, &pages, second.as_bytes())
}
