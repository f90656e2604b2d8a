//! Where a step stopped: cards from the words of the first change request, and which addresses are
//! refused.

use second::*;

// What the cards step, by its bits.
const LB: u32 = 0x0000_8183; // lb x3,0(x1)
const LH: u32 = 0x0000_9183; // lh x3,0(x1)
const LW_8_BEFORE: u32 = 0xff80_a183; // lw x3,-8(x1)
const SB: u32 = 0x0020_8023; // sb x2,0(x1)
const SH: u32 = 0x0020_9023; // sh x2,0(x1)
const SW: u32 = 0x0020_a023; // sw x2,0(x1)
const SW_4_BEHIND: u32 = 0x0020_a223; // sw x2,4(x1)
const ECALL: u32 = 0x0000_0073;
const EBREAK: u32 = 0x0010_0073;
/// A branch of funct3 2.
const ILLEGAL: u32 = 0x0000_2063;

const WINDOW: u32 = 0x8000_0000;

/// Steps the state once on a row with only its last word burnt. It has to stop with this number at
/// this address, and to change nothing else.
fn stops(mut s: State, mem: &[u8], stop: u8, address: u32) {
    let mut row = [0; 512];
    (row[504], row[508]) = (1, 1);
    let (mut mem_after, mut row_after) = (mem.to_vec(), row);
    let before = s.clone();
    step(&mut s, &mut mem_after, &mut row_after).unwrap();
    let expected = State {
        stop,
        address,
        ..before
    };
    assert_eq!((s, &mem_after[..], row_after), (expected, mem, row));
}

/// As `stops`, for a word at 8 in 32 bytes of memory, with x1 as given.
fn word_stops(word: u32, x1: u32, stop: u8, address: u32) {
    let mut mem = [0; 32];
    mem[8..12].copy_from_slice(&word.to_le_bytes());
    let mut s = at(8);
    s.x[0] = x1;
    stops(s, &mem, stop, address);
}

fn at(pc: u32) -> State {
    State {
        pc,
        ..State::fresh()
    }
}

#[test]
fn an_illegal_instruction_is_at_pc() {
    word_stops(ILLEGAL, 0, 3, 8);
    word_stops(0x0000_0000, 0, 3, 8);
    word_stops(0xffff_ffff, 0, 3, 8);
    // low five bits 11111, and no second halfword
    stops(at(2), &[0x01, 0x00, 0xff, 0xff], 3, 2);
    stops(at(0), &[0x00, 0x00], 3, 0);
}

#[test]
fn a_fetch_is_outside_at_pc_or_at_the_second_halfword() {
    for pc in [16, 18, 0x1_0000, WINDOW, 0xffff_fffe] {
        stops(at(pc), &[0x01; 16], 4, pc);
    }
    stops(at(0), &[], 4, 0);
    stops(at(14), &[0x01; 15], 4, 14);
    // the first halfword of lb x3,0(x1) at the end of memory, and half of the second one
    stops(at(0), &[0x83, 0x81], 4, 2);
    stops(at(2), &[0x01, 0x00, 0x83, 0x81], 4, 4);
    stops(at(0), &[0x83, 0x81, 0x00], 4, 2);
    let mut full = vec![0; 65_536];
    full[65_534..].copy_from_slice(&[0x83, 0x81]);
    stops(at(65_534), &full, 4, 65_536);
}

#[test]
fn a_load_is_at_register_plus_immediate() {
    word_stops(LH, 9, 5, 9);
    word_stops(LH, WINDOW + 1, 5, WINDOW + 1);
    word_stops(LW_8_BEFORE, 10, 5, 2);
    word_stops(LW_8_BEFORE, 1, 5, 0xffff_fff9);
    word_stops(LB, 32, 6, 32);
    word_stops(LB, WINDOW + 3, 6, WINDOW + 3);
    word_stops(LH, WINDOW + 252, 6, WINDOW + 252);
    word_stops(LW_8_BEFORE, 4, 6, 0xffff_fffc);
    word_stops(LW_8_BEFORE, WINDOW + 4, 6, WINDOW - 4);
    word_stops(LW_8_BEFORE, WINDOW + 264, 6, WINDOW + 256);
}

#[test]
fn a_store_is_at_register_plus_immediate() {
    word_stops(SH, 9, 7, 9);
    word_stops(SW_4_BEHIND, u32::MAX, 7, 3);
    word_stops(SW_4_BEHIND, WINDOW + 250, 7, WINDOW + 254);
    word_stops(SB, 32, 8, 32);
    word_stops(SB, WINDOW + 255, 8, WINDOW + 255);
    word_stops(SH, WINDOW, 8, WINDOW);
    word_stops(SW_4_BEHIND, 28, 8, 32);
    word_stops(SW_4_BEHIND, WINDOW + 252, 8, WINDOW + 256);
    word_stops(SW, WINDOW + 252, 9, WINDOW + 252);
    word_stops(SW_4_BEHIND, WINDOW + 248, 9, WINDOW + 252);
}

#[test]
fn the_other_stops_have_none() {
    word_stops(ECALL, 9, 1, 0);
    word_stops(EBREAK, 9, 2, 0);
    let full = State {
        count: u64::MAX,
        ..at(8)
    };
    stops(full.clone(), &[0x01; 16], 10, 0);
    stops(full, &[], 10, 0);
}

/// What a load accessed before is no address of the ecall after it. A state is let go on without its
/// address: with it, it would be refused.
#[test]
fn no_address_comes_from_before() {
    let mut mem = [LB, ECALL].map(u32::to_le_bytes).concat();
    let mut s = State::fresh();
    s.x[0] = 8;
    assert_eq!(run(&mut s, &mut mem, &mut [0; 512], 9), Ok(0));
    assert_eq!((s.stop, s.address, s.pc), (6, 8, 0));
    (s.stop, s.address, s.x[0]) = (0, 0, 7);
    assert_eq!(run(&mut s, &mut mem, &mut [0; 512], 9), Ok(1));
    assert_eq!((s.stop, s.address, s.pc), (1, 0, 4));
}

/// All that takes a state or its record: what each answers, one after the other.
fn answers(s: &State, record: &[u8; 144]) -> [Result<(), u32>; 5] {
    let (mut mem, mut row) = ([0x01; 16], [0; 512]);
    let mut record = *record;
    let number = |refused: Refused| refused.number;
    [
        step(&mut s.clone(), &mut mem, &mut row).map_err(number),
        run(&mut s.clone(), &mut mem, &mut row, 0)
            .map(|_| ())
            .map_err(number),
        write_slot(&mut [0; 144], 0, s),
        read_slot(&record, 0).map(|read| assert_eq!(read, *s)),
        run_slot(&mut mem, &mut row, &mut record, 0, 0)
            .map(|_| ())
            .map_err(number),
    ]
}

#[test]
fn an_address_is_refused_with_a_stop_that_has_none() {
    for (stop, address) in (0..=255).flat_map(|stop| [0, 1, 1 << 31, u32::MAX].map(|a| (stop, a))) {
        let s = State {
            stop,
            address,
            ..at(2)
        };
        let mut record = [0; 144];
        (record[0], record[136]) = (2, stop);
        record[140..].copy_from_slice(&address.to_le_bytes());
        let answer = match stop {
            3..=9 | 11 => Ok(()),
            0 | 1 | 2 | 10 if address == 0 => Ok(()),
            0 | 1 | 2 | 10 => Err(15),
            _ => Err(14),
        };
        assert_eq!(answers(&s, &record), [answer; 5], "{s:?}");
    }
}

#[test]
fn bytes_137_to_139_are_zero_with_every_stop() {
    for (stop, place) in (0..=11).flat_map(|stop| [0, 1, 2].map(|place| (stop, place))) {
        let mut s = State { stop, ..at(2) };
        s.zero[place] = 128;
        let mut record = [0; 144];
        (record[0], record[136], record[137 + place]) = (2, stop, 128);
        assert_eq!(answers(&s, &record), [Err(15); 5]);
    }
}

/// A stopped state keeps whatever address it has, in a run and in a slot.
#[test]
fn a_stopped_state_keeps_its_address() {
    let with_address = (3..=9).chain([11]);
    for (stop, address) in with_address.flat_map(|stop| [0, 6, 0x1234_5678].map(|a| (stop, a))) {
        let s = State {
            stop,
            address,
            ..at(2)
        };
        let (mut after, mut mem, mut row) = (s.clone(), [0x01; 16], [0; 512]);
        assert_eq!(run(&mut after, &mut mem, &mut row, 9), Ok(0));
        assert_eq!(after, s);
        let mut slots = [0xee; 144];
        write_slot(&mut slots, 0, &s).unwrap();
        assert_eq!(slots[136..140], [stop, 0, 0, 0]);
        assert_eq!(slots[140..], address.to_le_bytes());
        assert_eq!(run_slot(&mut mem, &mut row, &mut slots, 0, 9), Ok(0));
        assert_eq!(read_slot(&slots, 0), Ok(s));
    }
}
