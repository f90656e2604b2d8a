//! `phuyurik settle`: carries a save out that was cut short, or sets it aside.
use super::super::error::{Error, Kind};
use super::super::files::Action;
use super::super::journal::{self, Moment, MOST_SLOTS};
use super::super::known::{self, Known, Seen};
use super::super::row_file;
use super::super::settling::Left;
use super::super::view::View;
use super::plan::{has_folder, Held, Plan, Step};
use super::{mend, record, typed, words};
use phuyurik::{Refusal, Row};
use std::path::Path;

fn nothing(row_path: &Path) -> Plan {
    let mut plan = Plan::default();
    let row = typed::name(row_path);
    plan.say(format!("no save of {row} was cut short"));
    plan
}

pub fn plan(row_path: &Path, held: &mut Held) -> Result<Plan, Error> {
    // Looked at before the lock: a mistyped name should leave no lock file behind.
    if journal::pending(row_path)?.is_none() {
        return Ok(nothing(row_path));
    }
    held.hold(row_path)?;
    let Some(save) = journal::pending(row_path)? else {
        return Ok(nothing(row_path));
    };
    if !has_folder(&save.slots_path) {
        return Err(no_folder(&save));
    }
    if save.slot >= MOST_SLOTS {
        return Err(Error::Refused(save.slots_path, Refusal::Slot));
    }
    held.hold_slot(&save.slots_path, save.slot)?;
    let mut plan = Plan::default();
    match save.may_be_settled(&View::default()) {
        Ok(Left::Removal) => {
            let journal = typed::name(&journal::journal_of(row_path));
            plan.say(format!("{journal} is removed: it was carried out"));
        }
        Ok(Left::All) => say_save(&mut plan, &save)?,
        Err(Error::Of(Kind::Missing, path, _)) if path == save.slots_path => {
            let least = save.slots_end() as usize;
            mend::made_anew(&mut plan, &save.slots_path, least, held)?;
            say_save(&mut plan, &save)?;
        }
        Err(why) => return Err(why),
    }
    plan.step(Step::Settle(Box::new(save)));
    Ok(plan)
}

fn no_folder(save: &Moment) -> Error {
    let row = typed::name(&save.run.row_path);
    let why = format!(
        "its folder is gone; where the slots file is elsewhere now, tell it so \
         (phuyurik adopt SLOTS {} --row {row})",
        save.slot
    );
    Error::missing(&save.slots_path, why)
}

fn say_save(plan: &mut Plan, save: &Moment) -> Result<(), Error> {
    let (slots, row) = (
        typed::name(&save.slots_path),
        typed::name(&save.run.row_path),
    );
    let (k, what) = (save.slot, record::text(&save.run.record));
    plan.say(format!(
        "slot {k} of {slots} and its memory file become what was saved: {what}"
    ));
    let row_bytes = row_file::read(&save.run.row_path)?;
    let new = match row_bytes
        .as_deref()
        .and_then(|bytes| Row::try_from(bytes).ok())
    {
        Some(there) => missing_in(&there, &save.run.row),
        None => known::burnt_words(&save.run.row),
    };
    plan.say(match (row_bytes.is_some(), new.is_empty()) {
        (true, true) => format!("{row} stays as it is"),
        (true, false) => format!("{row} gets {}", words::text(&new)),
        (false, true) => format!("{row} is made, blank"),
        (false, false) => format!("{row} is made, with {}", words::text(&new)),
    });
    Ok(())
}

/// The words of one row that another does not have.
fn missing_in(there: &Row, row: &Row) -> Vec<(usize, u32)> {
    let lost = Known::of(row).lost_in(there);
    lost.iter().map(|word| (word.index, word.value)).collect()
}

/// The row and what was seen of it first, the journal last: a kill leaves it to be set aside again.
pub fn discarding(row_path: &Path, held: &mut Held) -> Result<Plan, Error> {
    let journal = journal::journal_of(row_path);
    if journal.symlink_metadata().is_err() {
        return Ok(nothing(row_path));
    }
    held.hold(row_path)?;
    let mut plan = Plan::default();
    match journal::read_journal(row_path) {
        Ok(None) => return Ok(nothing(row_path)),
        Ok(Some(save)) => keep(&mut plan, row_path, save)?,
        Err(Error::Of(Kind::Damaged, ..)) => {
            let name = typed::name(&journal);
            plan.say(format!(
                "{name} is damaged: what it knew of burnt words cannot be told"
            ));
        }
        Err(why) => return Err(why),
    }
    plan.set_aside(&journal);
    Ok(plan)
}

/// What a save that is newer than what was seen of the row knows: its words are burnt, whatever
/// becomes of the run. So they go into the row too, if that is the one that was seen last.
fn keep(plan: &mut Plan, row_path: &Path, save: Moment) -> Result<(), Error> {
    let what = record::text(&save.run.record);
    let (k, slots) = (save.slot, typed::name(&save.slots_path));
    plan.say(format!(
        "the save for slot {k} of {slots} ({what}) is given up"
    ));
    let mut run = save.run;
    // Of a folder that was moved: what it knows is known of the row beside it.
    run.row_path = row_path.to_path_buf();
    let seen = Seen::read(row_path)?;
    let bytes = row_file::read(row_path)?;
    let there = bytes.and_then(|bytes| Row::try_from(&bytes[..]).ok());
    if let Some(there) = there.filter(|_| run.serial > seen.serial) {
        let is_the_row = Known::of(&seen.row).lost_in(&there).is_empty();
        let takes_nothing_back = Known::of(&there).lost_in(&run.row).is_empty();
        let new = missing_in(&there, &run.row);
        let (row, told) = (typed::name(row_path), words::text(&new));
        if is_the_row && takes_nothing_back && !new.is_empty() {
            plan.say(format!("{row} gets the words that it burnt: {told}"));
            let burn = Action::Burn(row_path.to_path_buf(), Box::new(run.row.clone()));
            plan.act([burn]);
        } else if !new.is_empty() {
            plan.say(format!(
                "{row} does not have {told}: no run takes it so, but for --accept-row"
            ));
        }
    }
    // What is in the slot stays there, paused or not.
    words::keep(plan, &View::default(), &run, |_| {});
    Ok(())
}
