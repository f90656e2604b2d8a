//! States in slots: records of 144 bytes, one after the other.

use crate::machine::{check_masks, check_memory_and_row, check_state, run_checked};
use crate::{refusal, Masks, Refused, State};
use std::ops::Range;

const RECORD: usize = 144;
const COUNT: Range<usize> = 128..136;
const STOP: usize = 136;
const ZERO: Range<usize> = 137..140;
const ADDRESS: Range<usize> = 140..144;

/// Writes a state to slot `k`; refusals 4, 5, 14 and 15.
pub fn write_slot(slots: &mut [u8], k: usize, s: &State) -> Result<(), u32> {
    let place = place(slots.len(), k)?;
    check_state(s)?;
    slots[place].copy_from_slice(&record(s));
    Ok(())
}

/// The state in slot `k`; refusals 4, 5, 14 and 15.
pub fn read_slot(slots: &[u8], k: usize) -> Result<State, u32> {
    state(&slots[place(slots.len(), k)?])
}

/// Runs the state in slot `k`, as `run` does, and writes it back; refusals 1 to 5, 14 and 15.
pub fn run_slot(
    mem: &mut [u8],
    row: &mut [u8],
    slots: &mut [u8],
    k: usize,
    budget: u64,
) -> Result<u64, Refused> {
    run_slot_masked(mem, row, slots, k, Masks::default(), budget)
}

/// As `run_slot`, by a recipe with these masks; refusals 1, 2, 3, 16, 4, 5, 14 and 15.
pub fn run_slot_masked(
    mem: &mut [u8],
    row: &mut [u8],
    slots: &mut [u8],
    k: usize,
    masks: Masks,
    budget: u64,
) -> Result<u64, Refused> {
    check_memory_and_row(mem, row)?;
    check_masks(masks)?;
    let mut s = read_slot(slots, k)?;
    let retired = run_checked(&mut s, mem, row, masks.own, budget);
    write_slot(slots, k, &s)?;
    Ok(retired)
}

/// The bytes of slot `k` in a buffer of this length.
fn place(length: usize, k: usize) -> Result<Range<usize>, u32> {
    if !length.is_multiple_of(RECORD) || k >= length / RECORD {
        return Err(refusal::SLOT);
    }
    Ok(RECORD * k..RECORD * (k + 1))
}

fn record(s: &State) -> [u8; RECORD] {
    let mut record = [0; RECORD];
    record[..4].copy_from_slice(&s.pc.to_le_bytes());
    for (place, value) in record[4..COUNT.start].chunks_exact_mut(4).zip(s.x) {
        place.copy_from_slice(&value.to_le_bytes());
    }
    record[COUNT].copy_from_slice(&s.count.to_le_bytes());
    record[STOP] = s.stop;
    record[ZERO].copy_from_slice(&s.zero);
    record[ADDRESS].copy_from_slice(&s.address.to_le_bytes());
    record
}

fn state(record: &[u8]) -> Result<State, u32> {
    let mut s = State::fresh();
    s.pc = little_endian(&record[..4]) as u32;
    for (value, bytes) in s.x.iter_mut().zip(record[4..COUNT.start].chunks_exact(4)) {
        *value = little_endian(bytes) as u32;
    }
    s.count = little_endian(&record[COUNT]);
    s.stop = record[STOP];
    s.zero.copy_from_slice(&record[ZERO]);
    s.address = little_endian(&record[ADDRESS]) as u32;
    check_state(&s)?;
    Ok(s)
}

fn little_endian(bytes: &[u8]) -> u64 {
    let highest_first = bytes.iter().rev();
    highest_first.fold(0, |number, &byte| number << 8 | u64::from(byte))
}
