//! A save that was cut short: whether the next run carries it out, and if not, what to do.
use super::super::error::{Error, Kind};
use super::super::files;
use super::super::journal::{self, Memory, Moment};
use super::super::view::View;
use super::super::ways::{record, typed};
use super::found::Found;
use super::{rows, Report};
use std::path::Path;

pub fn report(found: &Found, row_path: &Path, report: &mut Report) {
    let journal = typed::name(&journal::journal_of(row_path));
    let save = match journal::read_journal(row_path) {
        Ok(None) => return,
        Ok(Some(save)) => save,
        Err(Error::Of(Kind::Damaged, ..)) => {
            let why = format!("{journal} is damaged; bring a copy of it back, or set it aside");
            return report.is_wrong(why, [typed::discard(row_path)]);
        }
        Err(why) => return report.is_wrong(why, None),
    };
    let (k, slots, what) = (
        save.slot,
        typed::name(&save.slots_path),
        record::text(&save.run.record),
    );
    let text = format!("a save for slot {k} of {slots} ({what}) was cut short");
    if save.run.row_path != row_path {
        let of = typed::name(&save.run.row_path);
        let why = format!("{text}, of a row elsewhere, {of}: was the folder moved?");
        let next = [adopt(found, &save, row_path), typed::discard(row_path)];
        return report.is_wrong(why, next);
    }
    match save.may_be_settled(&View::default()) {
        Ok(_) => {
            report.note = format!("{text}; the next run carries it out");
            report.next.push(typed::settle(row_path));
        }
        Err(why) => {
            let next = ways_on(found, &save, &why);
            report.is_wrong(format!("{text} and cannot be carried out: {why}"), next);
        }
    }
}

/// The slots file where the save has it, or one of its name that came with the row.
fn adopt(found: &Found, save: &Moment, row_path: &Path) -> String {
    let has_runs = |path: &Path| {
        path.is_file() || journal::slots_with_memory(path).is_ok_and(|slots| !slots.is_empty())
    };
    let moved = || found.moved(&save.slots_path, row_path, has_runs);
    let slots_path = match has_runs(&save.slots_path) {
        true => save.slots_path.clone(),
        false => moved().unwrap_or_else(|| "SLOTS".into()),
    };
    typed::adopt(&slots_path, save.slot, row_path)
}

fn ways_on(found: &Found, save: &Moment, why: &Error) -> Vec<String> {
    let row_path = &save.run.row_path;
    let forget = typed::forget(&save.slots_path, save.slot);
    let discard = typed::discard(row_path);
    let of_slot = |path: &Path| path == save.memory_path();
    match why {
        Error::Of(Kind::Missing, path, _) if *path == save.slots_path => {
            match path.parent().is_some_and(Path::is_dir) {
                true => vec![typed::settle(row_path)],
                false => vec![adopt(found, save, row_path), discard],
            }
        }
        Error::Of(Kind::Damaged, path, _) if of_slot(path) => vec![forget],
        Error::Of(Kind::Damaged, path, _) => vec![aside_by_hand(path)],
        Error::Of(Kind::OtherRun, ..) => match another_in_slot(save) {
            Some(run) if is_same_but_moved(&run, save) => {
                vec![adopt(found, save, row_path), forget, discard]
            }
            Some(_) => vec![forget, discard],
            None => vec![discard],
        },
        Error::Refused(path, _) if *path == save.slots_path => vec![typed::mend(path)],
        Error::Of(Kind::File, path, _) => Vec::from_iter(rows::unprotect(path)),
        _ => vec![discard],
    }
}

/// The run on another row that the slot of a save has.
fn another_in_slot(save: &Moment) -> Option<Memory> {
    let there = Memory::read(&save.slots_path, save.slot).ok().flatten();
    there.filter(|run| run.row_path != save.run.row_path)
}

/// The save was told where its files are now, and the run was not.
fn is_same_but_moved(run: &Memory, save: &Moment) -> bool {
    run.image == save.run.image && !run.row_path.exists()
}

/// What has no command of its own.
pub fn aside_by_hand(path: &Path) -> String {
    let (from, to) = (typed::name(path), typed::name(&files::beside(path, ".old")));
    format!("mv -n {from} {to}")
}
