//! A slot's record, as the slots file has it.
use super::super::error::Error;
use super::super::files::{self, Action};
use super::super::show;
use phuyurik::{Refusal, Slots, State, Stop, RECORD};
use std::path::Path;

/// The record of a slot, if the slots file is there and has it whole.
pub fn read(slots_path: &Path, k: usize) -> Result<Option<[u8; RECORD]>, Error> {
    let bytes = files::read_if_there(slots_path, usize::MAX)?.unwrap_or_default();
    Ok(in_bytes(&bytes, k))
}

pub fn in_bytes(slots: &[u8], k: usize) -> Option<[u8; RECORD]> {
    let rest = slots.get(k.checked_mul(RECORD)?..)?;
    rest.first_chunk().copied()
}

pub fn writing(slots_path: &Path, k: usize, record: &[u8; RECORD]) -> Action {
    let at = (k * RECORD) as u64;
    Action::WriteAt(slots_path.to_path_buf(), at, record.to_vec())
}

/// Such as `paused at count 5, pc 20 (0x00000014)`.
pub fn text(record: &[u8; RECORD]) -> String {
    match Slots::new(record).read(0) {
        Ok(state) => state_text(&state),
        Err(error) => match error.refusal() {
            Some(why) => format!("no state that a run could have ({})", fault(record, why)),
            None => error.to_string(),
        },
    }
}

/// What stands in a record that the library refuses so.
pub fn fault(record: &[u8; RECORD], refusal: Refusal) -> String {
    let state = State::from_bytes(*record);
    let (stop, address) = (state.stop_number(), state.address());
    match refusal {
        Refusal::StopNumber => format!("stop number {stop}"),
        Refusal::RecordEnd if record[137..140] != [0; 3] => {
            "bytes 137 to 139 are not zero".to_string()
        }
        Refusal::RecordEnd => format!("address 0x{address:08x} with stop {stop}, which has none"),
        other => other.words().to_string(),
    }
}

fn state_text(state: &State) -> String {
    let stop = match state.stop() {
        Ok(Stop::Paused) => "paused".to_string(),
        _ => show::stop_line(state),
    };
    let (count, pc) = (state.count, show::both(state.pc));
    format!("{stop} at count {count}, pc {pc}")
}
