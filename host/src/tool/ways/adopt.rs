//! `phuyurik adopt`: tells a run, and a save of it that was cut short, where its files are now.
use super::super::error::Error;
use super::super::files;
use super::super::journal::{self, Memory, Moment};
use super::super::known::{self, Known, Seen};
use super::super::place;
use super::super::row_file;
use super::super::settling;
use super::super::view::View;
use super::plan::{Held, Plan, Step};
use super::{record, typed, words};
use phuyurik::Row;
use std::path::{Path, PathBuf};

/// Where a run's files are now.
struct Place<'a> {
    slots_path: &'a Path,
    k: usize,
    row_path: &'a Path,
}

/// What there is of the run.
struct Parts {
    memory: Option<Memory>,
    save: Option<Moment>,
    /// Where the run has its row.
    old_row: PathBuf,
}

/// The journal before the memory file: after a kill in between, the journal cannot be carried out
/// before this command has been given again.
pub fn plan(slots_path: &Path, k: usize, row_path: &Path, held: &mut Held) -> Result<Plan, Error> {
    let place = Place {
        slots_path,
        k,
        row_path,
    };
    // Looked at before the locks: a mistyped name should leave no lock file behind.
    place.parts()?;
    held.hold(row_path)?;
    held.hold_slot(slots_path, k)?;
    let parts = place.parts()?;
    let mut plan = Plan::default();
    let last = settling::last_row(&held.remembered()?, slots_path, k);
    place.is_moved(&parts, last.as_deref())?;
    place.is_its_row(&parts)?;
    place.tell(&mut plan, &parts);
    if plan.is_empty() {
        let row = typed::name(row_path);
        plan.say(format!("the run in slot {k} has its row at {row} already"));
    } else if last.is_some_and(|last| last != row_path) {
        plan.first(Step::Remember(row_path.to_path_buf()));
    }
    Ok(plan)
}

impl Place<'_> {
    fn parts(&self) -> Result<Parts, Error> {
        let memory = Memory::read(self.slots_path, self.k)?;
        let is_ours = |save: &Moment| self.is_of_run(save, memory.as_ref());
        let save = journal::read_journal(self.row_path)?.filter(is_ours);
        let from_save = save.as_ref().map(|save| &save.run.row_path);
        let from_memory = memory.as_ref().map(|run| &run.row_path);
        let moved = |path: &&PathBuf| *path != self.row_path;
        let old_row = from_save.filter(moved).or(from_memory).or(from_save);
        let Some(old_row) = old_row.cloned() else {
            let (k, row) = (self.k, typed::name(self.row_path));
            let why = format!("slot {k} holds no run, and {row} has no save for it");
            return Err(Error::missing(self.slots_path, why));
        };
        Ok(Parts {
            memory,
            save,
            old_row,
        })
    }

    /// A save that is the next moment of the run in the slot, or a new start over an ended one.
    fn is_of_run(&self, save: &Moment, memory: Option<&Memory>) -> bool {
        let is_next = |run: &Memory| {
            let same = run.row_path == save.run.row_path || run.row_path == self.row_path;
            !run.is_paused() || (same && run.serial <= save.run.serial)
        };
        save.slot == self.k && memory.is_none_or(is_next)
    }

    /// A folder that was copied has its files in the old place too: then two runs would burn the
    /// words of one part.
    fn is_moved(&self, parts: &Parts, last: Option<&Path>) -> Result<(), Error> {
        let is_there = |path: &Path| path.symlink_metadata().is_ok();
        let old = &parts.old_row;
        let still = |path: &Path, what: &str| {
            let why = format!("{what} is still there: that was copied, not moved");
            Err(Error::other_run(path, why))
        };
        let is_elsewhere = files::canonical(old).is_ok_and(|old| old != self.row_path);
        if is_elsewhere && is_there(old) {
            return still(old, "the run's row");
        }
        self.has_no_save_elsewhere(old, last)?;
        match &parts.save {
            Some(save) if save.slots_path != self.slots_path && is_there(&save.slots_path) => {
                still(&save.slots_path, "the slots file of the save")
            }
            _ => Ok(()),
        }
    }

    /// No save of the run's row was left in its old place, and none of another row waits for the
    /// slot, whose lock file is the one to know of it.
    fn has_no_save_elsewhere(&self, old: &Path, last: Option<&Path>) -> Result<(), Error> {
        let is_for_slot = |row: &Path| {
            let save = journal::read_journal(row).ok().flatten();
            save.is_some_and(|save| save.slots_path == self.slots_path && save.slot == self.k)
        };
        let has_save = |row: &&Path| match *row == old {
            true => journal::journal_of(row).symlink_metadata().is_ok(),
            false => is_for_slot(row),
        };
        let rows = [Some(old), last].into_iter().flatten();
        let Some(row) = rows.filter(|row| *row != self.row_path).find(has_save) else {
            return Ok(());
        };
        let settle = typed::settle(row);
        let why = format!("a save that was cut short; see to it first ({settle})");
        Err(Error::other_run(&journal::journal_of(row), why))
    }

    /// What the run knows must be in the row, or in the save that the row is about to become.
    fn is_its_row(&self, parts: &Parts) -> Result<(), Error> {
        let mut known = Known::default();
        let is_of_row = |run: &&Memory| [&*parts.old_row, self.row_path].contains(&&*run.row_path);
        if let Some(run) = parts.memory.as_ref().filter(is_of_row) {
            known.add(&run.row);
        }
        if let Ok(seen) = Seen::read(&parts.old_row) {
            known.add(&seen.row);
        }
        let there = row_file::read(self.row_path)?;
        let row = match (&parts.save, &there) {
            (Some(save), _) => save.run.row.clone(),
            (None, Some(bytes)) => row_file::row_in(self.row_path, bytes)?,
            (None, None) => return Err(Error::missing(self.row_path, "missing")),
        };
        if let Some(bytes) = &there {
            row_file::takes_nothing_back(self.row_path, bytes, &row)?;
        }
        let lost = known.lost_in(&row);
        match lost.is_empty() {
            true => Ok(()),
            false => {
                let why = format!("not the row of this run: {}", known::text(&lost));
                Err(Error::forgotten(self.row_path, why))
            }
        }
    }

    fn tell(&self, plan: &mut Plan, parts: &Parts) {
        let (k, slots, row) = (
            self.k,
            typed::name(self.slots_path),
            typed::name(self.row_path),
        );
        if let Some(save) = &parts.save {
            let told = self.with_new_place(save);
            if told != *save {
                let name = typed::name(&journal::journal_of(self.row_path));
                plan.say(format!("{name} is told that it is for slot {k} of {slots}"));
                let journal = journal::journal_of(self.row_path);
                plan.act(files::replacing(&journal, told.to_journal()));
            }
        }
        let is_moved =
            |run: &&Memory| run.row_path == parts.old_row && run.row_path != self.row_path;
        if let Some(run) = parts.memory.as_ref().filter(is_moved) {
            let what = record::text(&run.record);
            plan.say(format!(
                "the run in slot {k} of {slots} ({what}) is told that its row is {row}"
            ));
            // A save that is carried out later writes what was seen, and all that is in it.
            if parts.save.is_none() {
                self.keep(plan, run, &parts.old_row);
            }
            let memory = journal::memory_of(self.slots_path, k);
            plan.act(files::replacing(&memory, self.with_new_row(run).to_bytes()));
        }
    }

    fn with_new_place(&self, save: &Moment) -> Moment {
        let mut told = Moment {
            slots_path: self.slots_path.to_path_buf(),
            run: self.with_new_row(&save.run),
            ..save.clone()
        };
        told.remember_place();
        told
    }

    fn with_new_row(&self, run: &Memory) -> Memory {
        Memory {
            row_path: self.row_path.to_path_buf(),
            ..run.clone()
        }
    }

    /// What was seen of the row in its old place, and was left there, goes with it.
    fn keep(&self, plan: &mut Plan, run: &Memory, old_row: &Path) {
        let old = Seen::read(old_row).unwrap_or_default();
        let mut words = known::burnt_words(&old.row);
        words.extend(known::burnt_words(&run.row));
        let known = Memory {
            serial: run.serial.max(old.serial),
            row: words::with_words(&Row::default(), &words),
            ..self.with_new_row(run)
        };
        let here = place::Place::of(self.slots_path, self.k);
        words::keep(plan, &View::default(), &known, |last| {
            if run.is_paused() {
                last.remember(place::Paused {
                    place: here,
                    own: run.masks.own,
                });
            }
        });
    }
}
