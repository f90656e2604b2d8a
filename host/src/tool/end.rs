//! The end of a run. It is told until standard output has taken it once: a run that was killed after
//! its last save, or whose report could not be written, is not to be started over unheard.
use super::error::Error;
use super::files::{self, Lock};
use super::journal::{self, Memory, Moment};
use super::place::Place;
use std::path::PathBuf;

/// A run that has ended, as its memory file has it.
#[derive(Debug)]
pub struct End {
    place: Place,
    row_path: PathBuf,
    serial: u64,
}

impl End {
    /// The end of this run, if it has come to it.
    pub fn of(moment: &Moment) -> Option<End> {
        let run = &moment.run;
        (!run.is_paused()).then(|| End {
            place: moment.place(),
            row_path: run.row_path.clone(),
            serial: run.serial,
        })
    }

    /// Notes in the memory file that the end was told. Where that cannot be, it is only told once
    /// more.
    pub fn was_told(&self) {
        let _ = self.note();
    }

    /// The run's locks are free by now, so another run may have the slot.
    fn note(&self) -> Result<(), Error> {
        let Place { slots_path, slot } = &self.place;
        let _lock = Lock::take(&journal::slot_name(slots_path, *slot))?;
        let is_ours = |run: &Memory| run.row_path == self.row_path && run.serial == self.serial;
        match Memory::read(slots_path, *slot)? {
            Some(run) if is_ours(&run) && !run.told => {
                let told = Memory { told: true, ..run };
                files::replace(&journal::memory_of(slots_path, *slot), told.to_bytes())
            }
            _ => Ok(()),
        }
    }
}
