//! Every one of the 2^32 words through decode and encode, on all processors.
//!
//! The words are divided into sixteen parts by the exclusive or of their eight hexadecimal digits.
//! Whatever seven of the digits are, each part has one word with them: so a single part has words of
//! every operation but ecall and ebreak, which are one word each and always compared.

use crate::tally::{grouped, number, Check, Difference, Tally};
use crate::words::{to_proved, to_second};
use std::num::NonZero;
use std::ops::Range;
use std::sync::atomic::{AtomicUsize, Ordering};
use std::thread;
use std::time::Instant;
use testing::mix;

const PARTS: u32 = 16;
/// Into so many pieces a part is cut for the processors to share.
const PIECES: u32 = 64;
const PIECE: u32 = (1 << 28) / PIECES;

/// ecall and ebreak.
const LONE: [u32; 2] = [0x0000_0073, 0x0010_0073];

/// All parts, or the one that the seed chooses.
pub fn parts(all: bool, seed: u64) -> Range<u32> {
    let chosen = (mix(seed) % u64::from(PARTS)) as u32;
    match all {
        true => 0..PARTS,
        false => chosen..chosen + 1,
    }
}

/// Compares the words of these parts, and tells how many there were.
pub fn compare(parts: Range<u32>) -> Check {
    let start = Instant::now();
    let pieces = parts.flat_map(|part| (0..PIECES).map(move |piece| (part, piece)));
    let pieces: Vec<(u32, u32)> = pieces.collect();
    let legal = shared(&pieces)?;
    for lone in LONE {
        compare_word(&mut Tally::default(), lone)?;
    }
    let words = pieces.len() as u64 * u64::from(PIECE);
    println!(
        "compare: {} of the 2^32 words, {} of them legal, decoded and encoded in {:.1} s",
        grouped(words),
        grouped(legal),
        start.elapsed().as_secs_f64()
    );
    Ok(())
}

/// The pieces' legal words, each piece compared by whichever processor comes to it.
fn shared(pieces: &[(u32, u32)]) -> Result<u64, Difference> {
    let next = AtomicUsize::new(0);
    let work = || -> Result<u64, Difference> {
        let mut legal = 0;
        while let Some((part, piece)) = pieces.get(next.fetch_add(1, Ordering::Relaxed)) {
            // after a difference nobody needs to begin another piece
            legal += compare_piece(*part, *piece)
                .inspect_err(|_| next.store(pieces.len(), Ordering::Relaxed))?;
        }
        Ok(legal)
    };
    let panicked = || Err(Difference("a panic, see above".to_string()));
    thread::scope(|scope| {
        let workers = thread::available_parallelism().map_or(1, NonZero::get);
        let workers: Vec<_> = (0..workers).map(|_| scope.spawn(work)).collect();
        let answers = workers.into_iter().map(|worker| worker.join());
        answers
            .map(|answer| answer.unwrap_or_else(|_| panicked()))
            .sum()
    })
}

/// How many words of a piece are legal.
fn compare_piece(part: u32, piece: u32) -> Result<u64, Difference> {
    let mut tally = Tally::default();
    let mut legal = 0;
    for upper in PIECE * piece..PIECE * (piece + 1) {
        legal += u64::from(compare_word(&mut tally, word(part, upper))?);
    }
    Ok(legal)
}

/// The one word of a part that begins with these 28 bits.
fn word(part: u32, upper: u32) -> u32 {
    let pairs = upper ^ upper >> 16;
    let digits = pairs ^ pairs >> 8;
    upper << 4 | (digits ^ digits >> 4 ^ part) & 15
}

/// Whether the word is legal; then it must come back.
fn compare_word(tally: &mut Tally, bits: u32) -> Result<bool, Difference> {
    let second = second::decode(bits);
    let proved = phuyurik::decode(bits).map(to_second).map_err(number);
    tally.same(|| format!("decode({bits:#010x})"), proved, second)?;
    let Ok(inst) = second else {
        return Ok(false);
    };
    let call = || format!("encode({inst:x?}), of {bits:#010x}");
    let proved = phuyurik::encode(to_proved(inst)).map_err(number);
    tally.same(call, proved, second::encode(inst))?;
    tally.same(call, proved, Ok(bits))?;
    Ok(true)
}

#[cfg(test)]
mod tests {
    use super::*;
    use testing::Random;

    #[test]
    fn every_word_is_in_one_part() {
        let mut random = Random::new(1);
        for upper in (0..1000).map(|_| random.word() >> 4) {
            let mut last: Vec<u32> = (0..PARTS).map(|part| word(part, upper)).collect();
            last.sort_unstable();
            assert!(last.into_iter().eq(upper << 4..=upper << 4 | 15));
        }
        assert_eq!(PIECES * PIECE, 1 << 28);
    }

    #[test]
    fn no_part_leaves_a_field_out() {
        let part_of = |bits: u32| (0..PARTS).find(|part| word(*part, bits >> 4) == bits);
        for (bits, digit) in (0..8).flat_map(|digit| [(0x8765_4321, digit), (0, digit)]) {
            let parts = (0..16).map(|other| part_of(bits ^ other << (4 * digit)));
            let mut parts: Vec<Option<u32>> = parts.collect();
            parts.sort_unstable();
            assert!(parts.into_iter().eq((0..PARTS).map(Some)));
        }
    }

    #[test]
    fn the_seed_chooses_one_part() {
        assert_eq!(parts(true, 7), 0..PARTS);
        let mut chosen: Vec<u32> = (0..1000).map(|seed| parts(false, seed).start).collect();
        chosen.sort_unstable();
        chosen.dedup();
        assert!(chosen.into_iter().eq(0..PARTS));
        assert_eq!(parts(false, 7).len(), 1);
    }
}
