//! What was left undone: whether a journal may be carried out, and doing it under the locks.
use super::error::Error;
use super::files::{self, Action, Lock};
use super::journal::{self, Memory, Moment, MOST_SLOTS};
use super::known::{self, Known, Lost};
use super::row_file;
use super::view::View;
use phuyurik::{Refusal, Stop, RECORD};
use std::path::{Path, PathBuf};

/// What is left to do for a journal.
#[derive(Clone, Copy, Debug, PartialEq, Eq)]
pub enum Left {
    All,
    /// It was carried out; only it itself is still there.
    Removal,
}

impl Moment {
    /// Whether this journal may be carried out on the files as they are. It must not take a burnt
    /// word back, nor overwrite what is newer or another run's.
    pub fn may_be_settled(&self, view: &View) -> Result<Left, Error> {
        let row_path = &self.run.row_path;
        let row = view.row(row_path)?;
        let seen = view.seen(row_path)?;
        if let Some(bytes) = &row {
            self.keeps(row_file::burnt_in(row_path, bytes)?)?;
        }
        self.keeps(Known::of(&seen.row))?;
        let memory = view.memory(&self.slots_path, self.slot)?;
        let slots = view.slots(&self.slots_path)?;
        if self.run.serial <= seen.serial {
            return match self.was_carried_out(row, slots, memory) {
                true => Ok(Left::Removal),
                false => Err(self.is_old()),
            };
        }
        self.may_have_the_slot(memory)?;
        let Some(slots) = slots else {
            let row = row_path.display();
            let why = format!("missing, but a save of {row} belongs in it (settle {row})");
            return Err(Error::missing(&self.slots_path, why));
        };
        let end = self.slots_end() as usize;
        if slots.len() % RECORD != 0 || end > slots.len().max(MOST_SLOTS * RECORD) {
            return Err(Error::Refused(self.slots_path.clone(), Refusal::Slot));
        }
        self.may_be_written()?;
        Ok(Left::All)
    }

    fn keeps(&self, burnt: Known) -> Result<(), Error> {
        let lost = burnt.lost_in(&self.run.row);
        match lost.is_empty() {
            true => Ok(()),
            false => Err(self.would_take_back(&lost)),
        }
    }

    fn would_take_back(&self, lost: &[Lost]) -> Error {
        let row = self.run.row_path.display();
        let words = known::text(lost);
        let why = format!(
            "an old save: settling it would take burnt words back, in it {words} \
             (settle {row} --discard sets it aside)"
        );
        Error::forgotten(&journal::journal_of(&self.run.row_path), why)
    }

    fn is_old(&self) -> Error {
        let row = self.run.row_path.display();
        let why = format!(
            "an old copy of a save that was carried out long ago \
             (settle {row} --discard sets it aside)"
        );
        Error::other_run(&journal::journal_of(&self.run.row_path), why)
    }

    fn was_carried_out(
        &self,
        row: Option<Vec<u8>>,
        slots: Option<Vec<u8>>,
        memory: Option<Memory>,
    ) -> bool {
        let end = self.slots_end() as usize;
        let record = slots
            .as_deref()
            .and_then(|slots| slots.get(end - RECORD..end));
        row.as_deref() == Some(self.run.row.as_ref())
            && record == Some(&self.run.record[..])
            && memory.is_some_and(|memory| memory.is_same_save(&self.run))
    }

    fn may_have_the_slot(&self, there: Option<Memory>) -> Result<(), Error> {
        let Some(there) = there else {
            return Ok(());
        };
        if there.row_path == self.run.row_path {
            // One of the same number is this save's own, as far as it was carried out.
            let is_older = there.serial < self.run.serial;
            return match is_older || there.is_same_save(&self.run) {
                true => Ok(()),
                false => Err(self.is_old()),
            };
        }
        match there.is_paused() {
            true => {
                let (slot, row) = (self.slot, there.row_path.display());
                let why =
                    format!("slot {slot} holds a paused run on {row}, which it would overwrite");
                Err(Error::other_run(
                    &journal::journal_of(&self.run.row_path),
                    why,
                ))
            }
            false => Ok(()),
        }
    }

    fn may_be_written(&self) -> Result<(), Error> {
        for path in [&self.slots_path, &self.run.row_path] {
            if path.exists() {
                files::open_in_place(path)?;
            }
        }
        Ok(())
    }

    /// Carries the journal out, as far as it is left. The locks of its row and its slot must be
    /// held.
    pub fn settle(&self) -> Result<(), Error> {
        match self.may_be_settled(&View::default())? {
            Left::Removal => {
                let journal = journal::journal_of(&self.run.row_path);
                files::carry_out(&[Action::Remove(journal)])
            }
            Left::All => {
                files::grow(&self.slots_path, self.slots_end())?;
                files::carry_out(&self.settling())
            }
        }
    }
}

impl Memory {
    pub fn is_paused(&self) -> bool {
        self.state()
            .is_ok_and(|state| state.stop() == Ok(Stop::Paused))
    }
}

/// The locks of a run: of its row and of its slot.
#[derive(Debug)]
pub struct Locks {
    row_path: PathBuf,
    slots_path: PathBuf,
    slot: usize,
    /// For one who only looks: nothing is made or written.
    dry: bool,
    _row: Option<Lock>,
    slot_lock: Option<Lock>,
}

fn lock(of: &Path, dry: bool) -> Result<Option<Lock>, Error> {
    match dry {
        true => Lock::look(of),
        false => Lock::take(of).map(Some),
    }
}

impl Locks {
    pub fn take(
        row_path: &Path,
        slots_path: &Path,
        slot: usize,
        dry: bool,
    ) -> Result<Locks, Error> {
        Ok(Locks {
            row_path: row_path.to_path_buf(),
            slots_path: slots_path.to_path_buf(),
            slot,
            dry,
            _row: lock(row_path, dry)?,
            slot_lock: lock(&journal::slot_name(slots_path, slot), dry)?,
        })
    }

    /// Carries out this row's journal, and that of the row that used this slot last: it may hold a
    /// record that is not in the slot yet. Gives the saves carried out, and the files as they are
    /// then; one who only looks sees them so without anything being done.
    pub fn settle_both(&mut self) -> Result<(View, Vec<Moment>), Error> {
        let mut settled = Vec::new();
        let mut view = View::default();
        if let Some(moment) = journal::pending(&self.row_path)? {
            let ours = moment.slots_path == self.slots_path && moment.slot == self.slot;
            let _other = match ours {
                true => None,
                false => lock(
                    &journal::slot_name(&moment.slots_path, moment.slot),
                    self.dry,
                )?,
            };
            self.settle(moment, &mut view, &mut settled)?;
        }
        let lock = self.slot_lock.as_mut();
        let remark = lock.map_or(Ok(Vec::new()), Lock::remark)?;
        match last_row(&remark, &self.slots_path, self.slot) {
            Some(last) if last != self.row_path => {
                self.settle_for_slot(&last, &mut view, &mut settled)?;
            }
            _ => {}
        }
        self.remember_row()?;
        Ok((view, settled))
    }

    fn settle(
        &self,
        moment: Moment,
        view: &mut View,
        settled: &mut Vec<Moment>,
    ) -> Result<(), Error> {
        match self.dry {
            true => {
                moment.may_be_settled(view)?;
                view.add(moment.clone());
            }
            false => moment.settle()?,
        }
        settled.push(moment);
        Ok(())
    }

    fn settle_for_slot(
        &self,
        last: &Path,
        view: &mut View,
        settled: &mut Vec<Moment>,
    ) -> Result<(), Error> {
        let is_for_us =
            |moment: &Moment| moment.slots_path == self.slots_path && moment.slot == self.slot;
        // One for another slot is left alone: that run may be at work right now.
        if !journal::pending(last)?.is_some_and(|moment| is_for_us(&moment)) {
            return Ok(());
        }
        let _row = lock(last, self.dry)?;
        match journal::pending(last)?.filter(is_for_us) {
            Some(moment) => self.settle(moment, view, settled),
            None => Ok(()),
        }
    }

    /// Only with nothing left to settle for another row may its name be forgotten.
    fn remember_row(&mut self) -> Result<(), Error> {
        let own = journal::path_bytes(&self.row_path);
        let Some(lock) = self.slot_lock.as_mut().filter(|_| !self.dry) else {
            return Ok(());
        };
        match lock.remark()? == own {
            true => Ok(()),
            false => lock.leave_remark(own),
        }
    }
}

/// The row that may have a journal for a slot: the one that its lock file remembers, which holds
/// this remark, or if there is none the one that its memory file names.
pub fn last_row(remark: &[u8], slots_path: &Path, slot: usize) -> Option<PathBuf> {
    let last = journal::path_from(remark);
    if last.is_absolute() {
        return Some(last);
    }
    // A remark that is no canonical path was torn while it was written: then no run had begun. A
    // damaged memory file is told of by whoever needs it.
    let memory = Memory::read(slots_path, slot).ok().flatten();
    memory.map(|memory| memory.row_path)
}
