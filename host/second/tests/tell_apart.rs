//! Which refusal a bad record gets, and which word: cards from the words of the fourth change request;
//! and where masks that share a bit come, from those of the sixth.

use second::*;

/// What may be wrong with a call, all of it at once. Nothing is by default.
#[derive(Clone, Copy, Debug, Default)]
struct Faults {
    memory_too_long: bool,
    row_length: bool,
    row_record: bool,
    masks_share: bool,
    no_slot: bool,
    odd_pc: bool,
    stop: u8,
    zero: [u8; 3],
    address: u32,
}

const LOWEST: usize = 17;

impl Faults {
    fn state(self) -> State {
        let mut s = State {
            pc: 2,
            stop: self.stop,
            zero: self.zero,
            address: self.address,
            ..State::fresh()
        };
        s.pc |= u32::from(self.odd_pc);
        s
    }

    fn record(self) -> [u8; 144] {
        let mut record = [0; 144];
        record[0] = 2 | u8::from(self.odd_pc);
        record[136] = self.stop;
        record[137..140].copy_from_slice(&self.zero);
        record[140..].copy_from_slice(&self.address.to_le_bytes());
        record
    }

    fn memory(self) -> Vec<u8> {
        vec![0x01; if self.memory_too_long { 65_537 } else { 65_536 }]
    }

    fn row(self) -> Vec<u8> {
        let mut row = vec![0; if self.row_length { 520 } else { 512 }];
        if self.row_record {
            // a mark with the value 0, a value without its mark, a byte that should be zero
            (row[8 * LOWEST + 4], row[8 * 18], row[8 * 63 + 7]) = (1, 1, 1);
        }
        row
    }

    fn masks(self) -> Masks {
        Masks {
            own: 1 << 63 | 1,
            other: if self.masks_share { u64::MAX } else { 2 },
        }
    }

    fn slot(self) -> usize {
        usize::from(self.no_slot)
    }

    /// Refusals 5, 14 and 15, in this order.
    fn of_state(self) -> Option<u32> {
        let has_no_address = matches!(self.stop, 0 | 1 | 2 | 10);
        let breaks_15 = self.zero != [0; 3] || has_no_address && self.address != 0;
        let faults = [(self.odd_pc, 5), (self.stop > 11, 14), (breaks_15, 15)];
        first(&faults)
    }

    fn of_slot(self) -> Option<u32> {
        first(&[(self.no_slot, 4)])
    }

    fn of_masks(self) -> Option<u32> {
        first(&[(self.masks_share, 16)])
    }

    fn of_board(self) -> Option<u32> {
        let faults = [
            (self.memory_too_long, 1),
            (self.row_length, 2),
            (self.row_record, 3),
        ];
        first(&faults)
    }
}

fn first(faults: &[(bool, u32)]) -> Option<u32> {
    faults.iter().find(|(is, _)| *is).map(|(_, number)| *number)
}

/// What is answered where this is the first refusal: its number, and the word with 3 alone.
fn answer(refusal: Option<u32>) -> Result<(), Refused> {
    match refusal {
        None => Ok(()),
        Some(number) => Err(Refused {
            number,
            word: (number == 3).then_some(LOWEST),
        }),
    }
}

/// Every entry on a call with these faults: it refuses so, and changes nothing where it refuses.
fn are_told(faults: Faults) {
    let (state, board) = (faults.of_state(), faults.of_board());
    let (s, mem, row) = (faults.state(), faults.memory(), faults.row());
    let (mut after, mut mem_after, mut row_after) = (s.clone(), mem.clone(), row.clone());
    let expected = answer(board.or(state));
    let stepped = step(&mut after, &mut mem_after, &mut row_after);
    assert_eq!(stepped, expected, "step: {faults:?}");
    assert!(stepped.is_ok() || after == s);
    let mut after = s.clone();
    let ran = run(&mut after, &mut mem_after, &mut row_after, 0).map(|_| ());
    assert_eq!((ran, after), (expected, s.clone()), "run: {faults:?}");
    let mut slots = faults.record();
    let ran = run_slot(&mut mem_after, &mut row_after, &mut slots, faults.slot(), 0).map(|_| ());
    let expected = answer(board.or(faults.of_slot()).or(state));
    assert_eq!((ran, slots), (expected, faults.record()), "{faults:?}");
    masked_are_told(faults, &mut mem_after, &mut row_after);
    assert!((mem_after, row_after) == (mem, row));
    let expected = answer(faults.of_slot().or(state));
    let read = read_slot(&slots, faults.slot()).map(|read| assert_eq!(read, s));
    assert_eq!(read.map_err(Refused::from), expected, "read: {faults:?}");
    let mut slots = [0xee; 144];
    let written = write_slot(&mut slots, faults.slot(), &s);
    assert_eq!(written.map_err(Refused::from), expected, "{faults:?}");
    let written = if expected.is_ok() {
        faults.record()
    } else {
        [0xee; 144]
    };
    assert_eq!(slots, written);
}

/// As above, of the entries that have masks: 16 comes after 3, and before 4, 5, 14 and 15.
fn masked_are_told(faults: Faults, mem: &mut [u8], row: &mut [u8]) {
    let (s, masks) = (faults.state(), faults.masks());
    let board = faults.of_board().or(faults.of_masks());
    let expected = answer(board.or(faults.of_state()));
    let mut after = s.clone();
    let stepped = step_masked(&mut after, mem, row, masks);
    assert_eq!(stepped, expected, "step_masked: {faults:?}");
    assert!(stepped.is_ok() || after == s);
    let mut after = s.clone();
    let ran = run_masked(&mut after, mem, row, masks, 0).map(|_| ());
    assert_eq!((ran, after), (expected, s), "run_masked: {faults:?}");
    let (mut slots, k) = (faults.record(), faults.slot());
    let ran = run_slot_masked(mem, row, &mut slots, k, masks, 0).map(|_| ());
    let expected = answer(board.or(faults.of_slot()).or(faults.of_state()));
    assert_eq!((ran, slots), (expected, faults.record()), "{faults:?}");
}

/// An odd pc or not, with every stop number, and with each byte after it, or none.
#[test]
fn a_state_is_refused_with_5_then_14_then_15() {
    for (stop, odd_pc) in (0..=255).flat_map(|stop| [false, true].map(|odd| (stop, odd))) {
        for place in 137..=144 {
            let mut bytes = [0; 8];
            bytes[place - 137] = 128;
            are_told(Faults {
                odd_pc,
                stop,
                zero: [bytes[0], bytes[1], bytes[2]],
                address: u32::from_le_bytes([bytes[3], bytes[4], bytes[5], bytes[6]]),
                ..Faults::default()
            });
        }
    }
}

/// Every set of faults: 1, 2, 3, 16, 4, 5, 14, and 15 by a byte that should be zero and by an address.
#[test]
fn the_first_of_all_faults_is_told() {
    for set in 0..1_u32 << 9 {
        let is = |place: u32| set >> place & 1 == 1;
        are_told(Faults {
            memory_too_long: is(0),
            row_length: is(1),
            row_record: is(2),
            no_slot: is(3),
            odd_pc: is(4),
            stop: if is(5) { 12 } else { 10 },
            zero: [0, 0, u8::from(is(6))],
            address: u32::from(is(7)),
            masks_share: is(8),
        });
    }
}

/// The word that each entry tells of a row; nothing changes by it.
fn told(row: &[u8]) -> [Option<usize>; 3] {
    let (mut s, mut mem, mut after, mut slots) = (State::fresh(), [0; 4], row.to_vec(), [0; 144]);
    let refused = [
        step(&mut s, &mut mem, &mut after).unwrap_err(),
        run(&mut s, &mut mem, &mut after, 9).unwrap_err(),
        run_slot(&mut mem, &mut after, &mut slots, 0, 9).unwrap_err(),
    ];
    assert_eq!((s, mem, &after[..]), (State::fresh(), [0; 4], row));
    assert_eq!(slots, [0; 144]);
    refused.map(|refused| {
        assert_eq!(refused.number, 3);
        refused.word
    })
}

/// Each word alone, and with any one above it; words below are blank, or burnt as they should be.
#[test]
fn the_lowest_word_is_told_from_0_on() {
    for (lowest, higher) in (0..64).flat_map(|low| (low..64).map(move |high| (low, high))) {
        let mut row = [0; 512];
        for word in (0..64).step_by(3) {
            (row[8 * word], row[8 * word + 4]) = (9, 1);
        }
        for word in [lowest, higher] {
            row[8 * word..][..8].copy_from_slice(&[0, 0, 0, 0, 1, 0, 0, 0]);
        }
        assert_eq!(told(&row), [Some(lowest); 3]);
    }
}
