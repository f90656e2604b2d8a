//! The paper's further cards, through the wrapper. What is expected is the paper's: the last
//! paragraph of "Bench cards", and from "One step, one run" that a stop changes nothing but the stop
//! number and its address.
use phuyurik::*;

// lw x5,0(x1) and lh x5,0(x1)
const LOAD_WORD: u32 = 0x0000_A283;
const LOAD_HALF: u32 = 0x0000_9283;

// c.srli x8,31, and the same with 32, which is no instruction
const SHIFT_BY_31: u16 = 0x807D;
const SHIFT_BY_32: u16 = 0x9001;

/// A full memory: the instruction at 0, then words that all differ, and none its own address.
fn memory(instruction: u32) -> Vec<u8> {
    let others = (4..LONGEST_MEMORY as u32).step_by(4).map(|at| !at);
    std::iter::once(instruction)
        .chain(others)
        .flat_map(u32::to_le_bytes)
        .collect()
}

/// The fresh state, but for one register.
fn fresh_with(register: usize, value: u32) -> State {
    let mut s = State::fresh();
    s.set_reg(register, value);
    s
}

/// One step of `before`, which has to give `after` and leave a blank row blank.
fn check_step(memory: &mut [u8], before: &State, after: &State) {
    let mut s = *before;
    let mut row = Row::default();
    assert_eq!(Board::new(memory, &mut row).step(&mut s), Ok(()));
    assert_eq!(s, *after, "from {before:?} with M = {}", memory.len());
    assert_eq!(row, Row::default());
}

fn check_stop(memory: &mut [u8], before: &State, stop: Stop, address: u32) {
    let mut after = *before;
    after.set_stop_at(stop, address);
    check_step(memory, before, &after);
}

#[test]
fn lw_at_the_end_of_every_memory() {
    let mut full = memory(LOAD_WORD);
    for size in (4..=LONGEST_MEMORY).step_by(4) {
        let end = size as u32;
        let last = end - 4;
        let before = fresh_with(1, last);
        let mut after = before;
        after.set_reg(5, if last == 0 { LOAD_WORD } else { !last });
        after.pc = 4;
        after.count = 1;
        check_step(&mut full[..size], &before, &after);
        check_stop(
            &mut full[..size],
            &fresh_with(1, end),
            Stop::LoadOutside,
            end,
        );
    }
    assert_eq!(full, memory(LOAD_WORD));
}

#[test]
fn lh_at_every_odd_address() {
    let mut full = memory(LOAD_HALF);
    for address in (1..LONGEST_MEMORY as u32).step_by(2) {
        let before = fresh_with(1, address);
        check_stop(&mut full, &before, Stop::LoadMisaligned, address);
    }
    assert_eq!(full, memory(LOAD_HALF));
}

#[test]
fn short_shift_by_31_and_by_32() {
    let before = fresh_with(8, 0x8000_0000);
    let mut after = fresh_with(8, 1);
    after.pc = 2;
    after.count = 1;
    assert_eq!(text_of_half(SHIFT_BY_31).unwrap(), "c:srli x8,x8,31");
    check_step(&mut SHIFT_BY_31.to_le_bytes(), &before, &after);
    let refused = Error::Refused(Refusal::NoInstruction);
    assert_eq!(expand(SHIFT_BY_32), Err(refused));
    let mut before = before;
    before.pc = 2;
    let mut memory = [[0; 2], SHIFT_BY_32.to_le_bytes()].concat();
    check_stop(&mut memory, &before, Stop::Illegal, 2);
}
