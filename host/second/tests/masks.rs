//! Words that are not a recipe's own: cards from the words of the sixth change request.

use second::*;

const WINDOW: u32 = 0x8000_0000;
const LB: u32 = 0x0000_8183; // lb x3,0(x1)
const LH: u32 = 0x0000_9183; // lh x3,0(x1)
const LW: u32 = 0x0000_a183; // lw x3,0(x1)
const LW_X0: u32 = 0x0000_a003; // lw x0,0(x1)
const SB: u32 = 0x0020_8023; // sb x2,0(x1)
const SH: u32 = 0x0020_9023; // sh x2,0(x1)
const SW: u32 = 0x0020_a023; // sw x2,0(x1)

/// The address of a word of the row.
fn at(word: u32) -> u32 {
    WINDOW + 4 * word
}

/// A row with this word burnt, or with none.
fn row(burnt: Option<u32>) -> [u8; 512] {
    let mut row = [0; 512];
    if let Some(word) = burnt {
        (row[8 * word as usize], row[8 * word as usize + 4]) = (9, 1);
    }
    row
}

/// A state at 0 with these in x1 and x2.
fn with(x1: u32, x2: u32) -> State {
    let mut s = State::fresh();
    (s.x[0], s.x[1], s.count) = (x1, x2, 40);
    s
}

/// One step of the bits by a recipe with these masks: the state after it, in a row that it may change.
fn stepped(bits: u32, mut s: State, row: &mut [u8], masks: Masks) -> State {
    let mut mem = bits.to_le_bytes();
    assert_eq!(step_masked(&mut s, &mut mem, row, masks), Ok(()));
    assert_eq!(mem, bits.to_le_bytes());
    s
}

/// The step stops so at the address in x1, and changes nothing else.
fn stops(bits: u32, before: State, row: &[u8], masks: Masks, stop: u8) {
    let mut after = row.to_vec();
    let expected = State {
        stop,
        address: before.x[0],
        ..before.clone()
    };
    let stopped = stepped(bits, before, &mut after, masks);
    assert_eq!(stopped, expected, "{bits:08x} with {masks:x?}");
    assert_eq!(after, row);
}

/// Every word with every other one, its own or not: bit k is word k, the lowest is word 0.
#[test]
fn a_word_is_its_own_by_its_bit() {
    for (owned, word) in (0..64).flat_map(|owned| (0..64).map(move |word| (owned, word))) {
        let masks = Masks {
            own: 1 << owned,
            other: !(1 << owned),
        };
        let mut trimmed = row(None);
        let loaded = stepped(LW, with(at(word), 7), &mut trimmed, masks);
        let stored = stepped(SW, with(at(word), 7), &mut trimmed, masks);
        let ends = if owned == word { (0, 41) } else { (11, 40) };
        assert_eq!((loaded.stop, loaded.count), ends);
        assert_eq!((stored.stop, stored.count), ends);
        assert_eq!(trimmed != row(None), owned == word);
    }
}

/// Loads, also into x0, and stores, also of zero, of blank words and of burnt ones: the other's, and
/// those of neither.
#[test]
fn whatever_the_word_holds() {
    for word in [0, 1, 31, 32, 62, 63] {
        let all_but_it = !(1_u64 << word);
        for (own, other) in [(all_but_it, !all_but_it), (all_but_it, 0), (0, !0), (0, 0)] {
            let masks = Masks { own, other };
            for (bits, value) in [(LW, 0), (LW_X0, 0), (SW, 0), (SW, 7)] {
                stops(bits, with(at(word), value), &row(None), masks, 11);
                stops(bits, with(at(word), value), &row(Some(word)), masks, 11);
            }
        }
    }
}

/// A misaligned access and one of a byte or a half stop as before, whoever owns the word.
#[test]
fn misaligned_and_outside_come_first() {
    for (own, other) in [(0, 0), (0, u64::MAX), (1 << 3, 0)] {
        let masks = Masks { own, other };
        for (bits, address, stop) in [
            (LW, at(3) + 2, 5),
            (LH, at(3) + 1, 5),
            (LH, at(3) + 2, 6),
            (LB, at(3), 6),
            (LW, at(64), 6),
            (LW, at(0) - 4, 6),
            (SW, at(3) + 1, 7),
            (SH, at(3) + 3, 7),
            (SH, at(3), 8),
            (SB, at(3) + 3, 8),
            (SW, at(64), 8),
            (SW, at(0) - 4, 8),
        ] {
            stops(bits, with(address, 7), &row(Some(3)), masks, stop);
        }
    }
}

/// Its own words are loaded, burnt, and stop with 9, as without masks.
#[test]
fn own_words_are_as_without_masks() {
    let masks = Masks {
        own: 1 << 63 | 1 << 4,
        other: 1 << 5,
    };
    for word in [4, 63] {
        let mut trimmed = row(None);
        let burnt = stepped(SW, with(at(word), 9), &mut trimmed, masks);
        assert_eq!((burnt.stop, burnt.count, trimmed), (0, 41, row(Some(word))));
        let read = stepped(LW, with(at(word), 0), &mut trimmed, masks);
        assert_eq!((read.x[2], read.stop, read.count), (9, 0, 41));
        stops(SW, with(at(word), 0), &trimmed, masks, 9);
    }
}

/// Masks say nothing of main memory, nor of what is fetched.
#[test]
fn memory_is_its_own() {
    let masks = Masks { own: 0, other: 0 };
    let read = stepped(LW, with(0, 0), &mut row(None), masks);
    assert_eq!((read.x[2], read.stop, read.count), (LW, 0, 41));
    let mut s = State {
        pc: at(3),
        ..State::fresh()
    };
    let answer = step_masked(&mut s, &mut [0; 4], &mut row(None), masks);
    assert_eq!((answer, s.stop, s.address), (Ok(()), 4, at(3)));
}

/// Burns x2 into the word at x1, loads it back, and loads the one behind it.
fn trim_and_stray() -> Vec<u8> {
    let next = 0x0040_8093; // addi x1,x1,4
    [SW, LW, next, LW].map(u32::to_le_bytes).concat()
}

/// A run, and one in a slot, retire what comes before the stop, and stay stopped.
#[test]
fn runs_stop_there_too() {
    let masks = Masks { own: 1, other: 2 };
    let mut mem = trim_and_stray();
    let (mut s, mut trimmed) = (with(at(0), 9), row(None));
    let mut slots = [0; 144];
    write_slot(&mut slots, 0, &s).unwrap();
    let ran = run_masked(&mut s, &mut mem, &mut trimmed, masks, 99);
    assert_eq!((ran, s.stop, s.address, s.pc), (Ok(3), 11, at(1), 12));
    assert_eq!(trimmed, row(Some(0)));
    let again = run_masked(&mut s, &mut mem, &mut trimmed, masks, 99);
    assert_eq!((again, s.stop, s.count), (Ok(0), 11, 43));
    let mut trimmed = row(None);
    let ran = run_slot_masked(&mut mem, &mut trimmed, &mut slots, 0, masks, 99);
    assert_eq!((ran, trimmed), (Ok(3), row(Some(0))));
    assert_eq!(read_slot(&slots, 0), Ok(s));
}

/// Two recipes take eight turns of a step, in every order: each ends as in one run of as many steps
/// alone on a blank row, and the row has what either burnt.
#[test]
fn turns_end_as_alone() {
    let masks = Masks { own: 1, other: 2 };
    let recipes = [(masks, with(at(0), 7)), (masks.swapped(), with(at(1), 9))];
    for order in 0..1_u32 << 8 {
        let (mut states, mut trimmed) = (recipes.clone().map(|(_, s)| s), row(None));
        for turn in 0..8 {
            let who = (order >> turn & 1) as usize;
            let (s, mut mem) = (&mut states[who], trim_and_stray());
            step_masked(s, &mut mem, &mut trimmed, recipes[who].0).unwrap();
        }
        let turns = [8 - order.count_ones(), order.count_ones()];
        let mut side_by_side = row(None);
        for (who, (masks, mut alone)) in recipes.clone().into_iter().enumerate() {
            let (mut mem, mut own) = (trim_and_stray(), row(None));
            run_masked(&mut alone, &mut mem, &mut own, masks, turns[who].into()).unwrap();
            assert_eq!(states[who], alone, "recipe {who} in {order:08b}");
            side_by_side[8 * who..][..8].copy_from_slice(&own[8 * who..][..8]);
        }
        assert_eq!(trimmed, side_by_side, "{order:08b}");
    }
}

/// Only a shared bit is refused, each of the 64 alone; the order is in `tell_apart.rs`.
#[test]
fn masks_are_refused_for_a_shared_bit_alone() {
    let answer = |own: u64, other: u64| {
        let (mut s, mut mem) = (State::fresh(), [0x01, 0x00]);
        run_masked(&mut s, &mut mem, &mut row(None), Masks { own, other }, 1)
            .map_err(|refused| refused.number)
    };
    for bit in (0..64).map(|word| 1_u64 << word) {
        assert_eq!(answer(bit, bit), Err(16));
        assert_eq!(answer(u64::MAX, bit), Err(16));
        assert_eq!(answer(bit, u64::MAX), Err(16));
        assert_eq!(answer(!bit, bit), Ok(1));
        assert_eq!(answer(bit, !bit), Ok(1));
    }
    assert_eq!((answer(0, 0), answer(0, u64::MAX)), (Ok(1), Ok(1)));
    assert_eq!((answer(u64::MAX, 0), answer(5, 2)), (Ok(1), Ok(1)));
}
