//! `phuyurik forget`: gives the run in a slot up.
use super::super::error::{Error, Kind};
use super::super::files;
use super::super::journal::{self, Memory, Moment};
use super::super::place::Place;
use super::super::view::View;
use super::plan::{Held, Plan, Step};
use super::{record, typed, words};
use phuyurik::RECORD;
use std::path::Path;

/// First what the run knows is kept, then its memory is set aside, then its record goes. Between
/// the last two it is a paused run without its memory, which this command gives up too.
pub fn plan(slots_path: &Path, k: usize, held: &mut Held) -> Result<Plan, Error> {
    held.hold_slot(slots_path, k)?;
    let mut plan = Plan::default();
    let mut record = record::read(slots_path, k)?;
    let memory_path = journal::memory_of(slots_path, k);
    match Memory::read(slots_path, k) {
        Ok(None) => {}
        Ok(Some(mut run)) => {
            held.hold(&run.row_path)?;
            let row = typed::name(&run.row_path);
            plan.say(format!(
                "the run in slot {k}, on the row {row}, is given up"
            ));
            let mut view = View::default();
            if let Some(save) = last_save(&mut plan, slots_path, k, &run)? {
                (run, record) = (save.run.clone(), Some(save.run.record));
                view.add(save.clone());
                plan.step(Step::Settle(Box::new(save)));
            }
            let place = Place::of(slots_path, k);
            words::keep(&mut plan, &view, &run, |last| last.forget(&place));
            plan.set_aside(&memory_path);
        }
        Err(Error::Of(Kind::Damaged, ..)) => {
            let name = typed::name(&memory_path);
            plan.say(format!(
                "{name} is damaged: what the run in it knew cannot be told"
            ));
            plan.set_aside(&memory_path);
        }
        Err(why) => return Err(why),
    }
    clear(&mut plan, slots_path, k, record)?;
    if plan.is_empty() {
        let name = typed::name(slots_path);
        plan.say(format!("slot {k} of {name} holds no run"));
    }
    Ok(plan)
}

/// A save of this run that was cut short is carried out first: it may be all that knows of a burnt
/// word. One of another run is left alone.
fn last_save(
    plan: &mut Plan,
    slots_path: &Path,
    k: usize,
    run: &Memory,
) -> Result<Option<Moment>, Error> {
    let save = match journal::pending(&run.row_path) {
        Ok(save) => save.filter(|save| save.slots_path == slots_path && save.slot == k),
        Err(why) => {
            plan.say(format!("left alone: {why}"));
            None
        }
    };
    if let Some(save) = &save {
        save.may_be_settled(&View::default())?;
        let row = typed::name(&run.row_path);
        plan.say(format!(
            "the save of {row} that was cut short is carried out first"
        ));
    }
    Ok(save)
}

fn clear(
    plan: &mut Plan,
    slots_path: &Path,
    k: usize,
    record: Option<[u8; RECORD]>,
) -> Result<(), Error> {
    let Some(record) = record.filter(|record| *record != [0; RECORD]) else {
        return Ok(());
    };
    files::open_in_place(slots_path)?;
    let (name, what) = (typed::name(slots_path), record::text(&record));
    plan.say(format!(
        "the record of slot {k} in {name} ({what}) becomes zeros"
    ));
    plan.act([record::writing(slots_path, k, &[0; RECORD])]);
    Ok(())
}
