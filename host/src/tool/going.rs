//! A run under way: pieces, and a save after each.
use super::end::End;
use super::error::Error;
use super::files;
use super::journal::Moment;
use super::known::{self, RowKnown};
use phuyurik::{Board, Slots, State};

/// A word burnt since the recipe's start.
#[derive(Clone, Copy, Debug, PartialEq, Eq)]
pub struct Burnt {
    pub index: usize,
    pub value: u32,
    pub in_this_run: bool,
}

/// A moment, and the numbers that were left in its files.
#[derive(Debug)]
pub struct Going {
    moment: Moment,
    /// The words burnt by this call of the tool, a bit for each.
    pub burnt: u64,
    /// The highest number of a save of this row.
    serial: u64,
    /// The number in `ROW.seen`.
    seen: u64,
    /// The number in the memory file, once it is this run's.
    memory: Option<u64>,
    dry_run: bool,
}

impl Going {
    pub fn new(moment: Moment, known: &RowKnown, memory: Option<u64>, dry_run: bool) -> Going {
        Going {
            moment,
            burnt: 0,
            serial: known.serial,
            seen: known.seen,
            memory,
            dry_run,
        }
    }

    pub fn state(&self) -> Result<State, phuyurik::Error> {
        self.moment.run.state()
    }

    /// At most so many steps; the number retired.
    pub fn piece(&mut self, steps: u64) -> Result<u64, phuyurik::Error> {
        let run = &mut self.moment.run;
        let before = run.row.clone();
        let mut slots = Slots::new(&mut run.record);
        let retired = Board::shared(&mut run.bytes, &mut run.row, run.masks)
            .run_slot(&mut slots, 0, steps)?;
        let new = known::mask_of_new(&before, &run.row);
        run.burnt |= new;
        self.burnt |= new;
        Ok(retired)
    }

    pub fn save(&mut self) -> Result<(), Error> {
        if self.dry_run {
            return Ok(());
        }
        self.moment.may_be_saved(self.seen, self.memory)?;
        self.serial += 1;
        self.moment.run.serial = self.serial;
        self.moment.run.told = false;
        self.moment.remember_place();
        files::grow(&self.moment.slots_path, self.moment.slots_end())?;
        files::carry_out(&self.moment.saving())?;
        (self.seen, self.memory) = (self.serial, Some(self.serial));
        Ok(())
    }

    /// The run's end, if it has come to it and that is in its files.
    pub fn end(&self) -> Option<End> {
        End::of(&self.moment).filter(|_| !self.dry_run)
    }

    /// The words burnt since the recipe's start, by whichever call of the tool.
    pub fn words(&self) -> Vec<Burnt> {
        let is_in = |mask: u64, index: usize| mask >> index & 1 == 1;
        let run = &self.moment.run;
        known::burnt_words(&run.row)
            .into_iter()
            .filter(|(index, _)| is_in(run.burnt, *index))
            .map(|(index, value)| Burnt {
                index,
                value,
                in_this_run: is_in(self.burnt, index),
            })
            .collect()
    }
}
