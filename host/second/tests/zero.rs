//! Stores of zero into the row: cards from the words of the second change request, and which row
//! records break their rules.

use second::*;

const WINDOW: u32 = 0x8000_0000;
const SB: u32 = 0x0020_8023; // sb x2,0(x1)
const SH: u32 = 0x0020_9023; // sh x2,0(x1)
const SW: u32 = 0x0020_a023; // sw x2,0(x1)
const SW_X0: u32 = 0x0000_a023; // sw x0,0(x1)
const LW: u32 = 0x0000_a183; // lw x3,0(x1)

/// Values of which only one byte is not zero, and others.
const OTHERS: [u32; 7] = [1, 0x80, 0x100, 0x1_0000, 0x8000_0000, 0xffff_fffa, u32::MAX];

/// A row with these words burnt, and all others blank.
fn row(burnt: &[(usize, u32)]) -> [u8; 512] {
    let mut row = [0; 512];
    for (word, value) in burnt {
        row[8 * word..][..4].copy_from_slice(&value.to_le_bytes());
        row[8 * word + 4] = 1;
    }
    row
}

/// The address of a word of the row.
fn at(word: usize) -> u32 {
    WINDOW + 4 * word as u32
}

/// A state at 0 with these in x1 and x2, and 5 in x3.
fn with(x1: u32, x2: u32) -> State {
    let mut s = State::fresh();
    (s.x[0], s.x[1], s.x[2], s.count) = (x1, x2, 5, 40);
    s
}

/// One step of the bits, as one instruction of 32 or of 16 bits, which leaves memory alone.
fn stepped(bits: &[u8], mut s: State, row: &mut [u8]) -> State {
    let mut mem = bits.to_vec();
    step(&mut s, &mut mem, row).unwrap();
    assert_eq!(mem, bits);
    s
}

/// The step completes, and but for pc and the count the state is as it was.
fn completes(bits: &[u8], before: State, row: &mut [u8]) {
    let expected = State {
        pc: bits.len() as u32,
        count: before.count + 1,
        ..before.clone()
    };
    assert_eq!(stepped(bits, before, row), expected);
}

/// The step stops so, and the row is as it was.
fn stops(bits: &[u8], before: State, row: &[u8], stop: u8) {
    let expected = State {
        stop,
        address: before.x[0],
        ..before.clone()
    };
    let mut row_after = row.to_vec();
    assert_eq!(stepped(bits, before, &mut row_after), expected);
    assert_eq!(row_after, row);
}

#[test]
fn zero_to_a_blank_word_completes_counts_and_leaves_the_row() {
    let every_other: Vec<_> = (0..64).step_by(2).map(|word| (word, 9)).collect();
    for word in (1..64).step_by(2) {
        for (before, bits) in [([0; 512], SW), (row(&every_other), SW_X0)] {
            let mut after = before;
            completes(&bits.to_le_bytes(), with(at(word), 0), &mut after);
            assert_eq!(after, before);
        }
    }
}

#[test]
fn a_short_store_of_zero_is_no_pulse_either() {
    // c.swsp x0,12(x2) and c.sw x9,12(x8)
    for half in [0xc602_u16, 0xc444] {
        let mut s = with(0, WINDOW);
        (s.x[7], s.x[8]) = (WINDOW, 0);
        let mut blank = [0; 512];
        completes(&half.to_le_bytes(), s.clone(), &mut blank);
        assert_eq!(blank, [0; 512]);
        let mut burnt = row(&[(3, 1)]);
        let stopped = stepped(&half.to_le_bytes(), s, &mut burnt);
        assert_eq!((stopped.stop, stopped.address), (9, at(3)));
        assert_eq!(burnt, row(&[(3, 1)]));
    }
}

#[test]
fn the_part_still_reads_as_blank() {
    let mut image = [SW_X0, LW].map(u32::to_le_bytes).concat();
    let (mut s, mut blank) = (with(at(5), 0), [0; 512]);
    assert_eq!(run(&mut s, &mut image, &mut blank, 2), Ok(2));
    assert_eq!((s.x[2], s.stop, blank), (0, 0, [0; 512]));
}

#[test]
fn a_recipe_that_clears_before_it_trims_keeps_the_word() {
    for value in OTHERS {
        let image = [SW_X0, SW_X0, SW, SW_X0].map(u32::to_le_bytes).concat();
        let (mut s, mut mem, mut trimmed) = (with(at(63), value), image, [0; 512]);
        assert_eq!(run(&mut s, &mut mem, &mut trimmed, 9), Ok(3));
        assert_eq!((s.stop, s.address, s.pc), (9, at(63), 12));
        assert_eq!(trimmed, row(&[(63, value)]));
    }
}

#[test]
fn zero_to_a_burnt_word_still_stops_with_9() {
    for (word, value) in [0, 1, 31, 63].iter().flat_map(|k| OTHERS.map(|v| (*k, v))) {
        for bits in [SW, SW_X0].map(u32::to_le_bytes) {
            stops(&bits, with(at(word), 0), &row(&[(word, value)]), 9);
        }
        let again = with(at(word), value);
        stops(&SW.to_le_bytes(), again, &row(&[(word, value)]), 9);
    }
}

#[test]
fn other_values_are_burnt_as_before() {
    for (word, value) in [0, 1, 31, 63].iter().flat_map(|k| OTHERS.map(|v| (*k, v))) {
        let mut after = [0; 512];
        completes(&SW.to_le_bytes(), with(at(word), value), &mut after);
        assert_eq!(after, row(&[(word, value)]));
    }
}

#[test]
fn zero_is_misaligned_or_outside_as_any_value() {
    for row in [[0; 512], row(&[(0, 7), (1, 7)])] {
        stops(&SW.to_le_bytes(), with(WINDOW + 2, 0), &row, 7);
        stops(&SH.to_le_bytes(), with(WINDOW + 1, 0), &row, 7);
        stops(&SH.to_le_bytes(), with(WINDOW, 0), &row, 8);
        stops(&SB.to_le_bytes(), with(WINDOW, 0), &row, 8);
        stops(&SW.to_le_bytes(), with(WINDOW + 256, 0), &row, 8);
        stops(&SW.to_le_bytes(), with(WINDOW - 4, 0), &row, 8);
    }
}

/// Over any sequence of runs and new starts on one row; which word and value comes from a small
/// generator, and a third of the values are zero.
#[test]
fn newly_burnt_are_as_many_as_completed_stores_of_other_values() {
    let (mut random, mut row) = (1_u32, [0; 512]);
    let (mut of_zero, mut of_others, mut stopped) = (0, 0, 0);
    for _ in 0..500 {
        random = random.wrapping_mul(1_664_525).wrapping_add(1_013_904_223);
        let value = if random.is_multiple_of(3) { 0 } else { random };
        let s = with(at(random as usize >> 26), value);
        let after = stepped(&SW.to_le_bytes(), s, &mut row);
        match (after.stop, value) {
            (0, 0) => of_zero += 1,
            (0, _) => of_others += 1,
            _ => stopped += 1,
        }
        let burnt = row.chunks_exact(8).filter(|record| record[4] == 1);
        assert_eq!(burnt.count(), of_others);
    }
    assert!(of_zero > 5 && of_others > 40 && stopped > 100);
}

/// All that takes a row: what each answers, one after the other; nothing may change by it.
fn answers(row: &[u8; 512]) -> [Result<(), Refused>; 3] {
    let (mut s, mut mem, mut after, mut slots) = (State::fresh(), [0; 4], *row, [0; 144]);
    let all = [
        step(&mut s.clone(), &mut mem, &mut after),
        run(&mut s, &mut mem, &mut after, 0).map(|_| ()),
        run_slot(&mut mem, &mut after, &mut slots, 0, 0).map(|_| ()),
    ];
    assert_eq!((s, mem, after), (State::fresh(), [0; 4], *row));
    assert_eq!(slots, [0; 144]);
    all
}

/// Refusal 3, which tells this word.
fn refused(word: usize) -> Result<(), Refused> {
    Err(Refused {
        number: 3,
        word: Some(word),
    })
}

#[test]
fn a_mark_of_1_with_value_0_is_refused_with_3() {
    for word in 0..64 {
        assert_eq!(answers(&row(&[(word, 0)])), [refused(word); 3]);
        for value in OTHERS {
            assert_eq!(answers(&row(&[(word, value)])), [Ok(()); 3]);
        }
    }
}

/// Each record with a byte of its value, a mark and a byte after it: blank, burnt, or refused.
#[test]
fn records_are_blank_or_burnt() {
    for (place, mark) in (0..4).flat_map(|place| [0, 1, 2, 128, 255].map(|m| (place, m))) {
        for (value, zero) in [(0, 0), (0, 1), (128, 0), (128, 1), (1, 0), (1, 128)] {
            for last in 5..8 {
                let mut row = [0; 512];
                (row[16 + place], row[20], row[16 + last]) = (value, mark, zero);
                let is_sound = zero == 0 && matches!((value, mark), (0, 0) | (1.., 1));
                let answer = if is_sound { Ok(()) } else { refused(2) };
                assert_eq!(answers(&row), [answer; 3], "{:?}", &row[16..24]);
            }
        }
    }
}
