//! `phuyurik mend`: the records of the memory files into their slots.
use super::super::error::Error;
use super::super::files;
use super::super::journal::{self, Memory, MOST_SLOTS};
use super::plan::{Held, Plan, Step};
use super::{record, typed};
use phuyurik::{State, RECORD};
use std::path::Path;

pub fn plan(slots_path: &Path, held: &mut Held) -> Result<Plan, Error> {
    let name = typed::name(slots_path);
    let with_memory = journal::slots_with_memory(slots_path)?;
    let mut plan = Plan::default();
    match files::read_if_there(slots_path, usize::MAX)? {
        None if with_memory.is_empty() => {
            let why = "missing, and no memory file is there to make it from";
            return Err(Error::missing(slots_path, why));
        }
        None => made_anew(&mut plan, slots_path, 0, held)?,
        Some(bytes) => {
            whole_records(&mut plan, slots_path, bytes.len());
            for k in with_memory {
                slot(&mut plan, slots_path, k, held)?;
            }
            if !plan.is_empty() {
                files::open_in_place(slots_path)?;
            }
        }
    }
    if plan.is_empty() {
        plan.say(format!("{name} has the records of its memory files"));
    }
    Ok(plan)
}

/// A file that was cut within a record gets the rest of that record, with zeros.
fn whole_records(plan: &mut Plan, slots_path: &Path, length: usize) {
    if !length.is_multiple_of(RECORD) {
        let whole = length.next_multiple_of(RECORD);
        let name = typed::name(slots_path);
        plan.say(format!(
            "{name} has {length} bytes; it gets zeros after them, up to {whole}"
        ));
        plan.step(Step::Grow(slots_path.to_path_buf(), whole as u64));
    }
}

/// The run of a memory file, if it can be read and its slot is one that a slots file may have. One
/// that is damaged must not keep the others from being mended.
fn run_of(plan: &mut Plan, slots_path: &Path, k: usize) -> Option<Memory> {
    let name = typed::name(&journal::memory_of(slots_path, k));
    match Memory::read(slots_path, k) {
        Ok(run) if k < MOST_SLOTS => run,
        Ok(_) => {
            plan.say(format!("{name}: passed over, no slot has this number"));
            None
        }
        Err(why) => {
            plan.say(format!("passed over: {why}"));
            None
        }
    }
}

/// Only the lock of a slot that is not as its memory file has it is needed: the others may be at
/// work.
fn slot(plan: &mut Plan, slots_path: &Path, k: usize, held: &mut Held) -> Result<(), Error> {
    let as_saved = || -> Result<bool, Error> {
        let saved = Memory::read(slots_path, k).ok().flatten();
        Ok(saved.map(|run| run.record) == record::read(slots_path, k)?)
    };
    if as_saved()? {
        return Ok(());
    }
    held.hold(&journal::slot_name(slots_path, k))?;
    let (run, there) = (run_of(plan, slots_path, k), record::read(slots_path, k)?);
    let Some(run) = run.filter(|run| Some(run.record) != there) else {
        return Ok(());
    };
    say_record(plan, k, &run, there);
    if there.is_none() {
        let end = (k + 1) * RECORD;
        plan.step(Step::Grow(slots_path.to_path_buf(), end as u64));
    }
    plan.act([record::writing(slots_path, k, &run.record)]);
    Ok(())
}

fn say_record(plan: &mut Plan, k: usize, run: &Memory, there: Option<[u8; RECORD]>) {
    let row = typed::name(&run.row_path);
    let saved = record::text(&run.record);
    let instead = match &there {
        Some(record) => format!("; it is: {}", record::text(record)),
        None => String::new(),
    };
    plan.say(format!(
        "slot {k} becomes what its memory file has: {saved}, row {row}{instead}"
    ));
    let count = |record| State::from_bytes(record).count;
    if there.is_some_and(|there| count(there) > count(run.record)) {
        plan.say(format!(
            "look at slot {k} first: the slots file is further on than the memory file. If that is \
             an old copy, bring the newer one back instead"
        ));
    }
}

/// The whole file at once, from all memory files, with at least so many bytes.
pub fn made_anew(
    plan: &mut Plan,
    slots_path: &Path,
    least: usize,
    held: &mut Held,
) -> Result<(), Error> {
    held.hold(slots_path)?;
    let name = typed::name(slots_path);
    plan.say(format!("{name} is made anew, from its memory files"));
    let mut bytes = vec![0; least];
    for k in journal::slots_with_memory(slots_path)? {
        held.hold(&journal::slot_name(slots_path, k))?;
        let Some(run) = run_of(plan, slots_path, k) else {
            continue;
        };
        say_record(plan, k, &run, None);
        let end = (k + 1) * RECORD;
        bytes.resize(bytes.len().max(end), 0);
        bytes[end - RECORD..end].copy_from_slice(&run.record);
    }
    plan.act(files::replacing(slots_path, bytes));
    Ok(())
}
