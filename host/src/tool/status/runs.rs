//! A slots file and its runs.
use super::super::error::{Error, Kind};
use super::super::files;
use super::super::journal::{self, Memory};
use super::super::known::Known;
use super::super::masks;
use super::super::row_file;
use super::super::show;
use super::super::ways::{record, typed};
use super::found::{is_row, Found};
use super::{rows, Report};
use phuyurik::{Row, Slots, State, Stop, RECORD};
use std::collections::BTreeSet;
use std::path::Path;

/// The slots file, and each slot that holds something.
pub fn reports(found: &Found, slots_path: &Path) -> (Report, Vec<Report>) {
    let bytes = found.view.slots(slots_path);
    let head = head(found, slots_path, &bytes).unless_busy(&[slots_path]);
    let bytes = bytes.ok().flatten();
    let with_record = bytes.as_deref().unwrap_or_default().chunks(RECORD);
    let used = with_record.map(|record| record.iter().any(|byte| *byte != 0));
    let mut slots: BTreeSet<usize> = (0..)
        .zip(used)
        .filter(|(_, is)| *is)
        .map(|(k, _)| k)
        .collect();
    slots.extend(found.view.slots_with_memory(slots_path).unwrap_or_default());
    let slot = |k: usize| {
        let lock = journal::slot_name(slots_path, k);
        slot(found, slots_path, bytes.as_deref(), k).unless_busy(&[&lock])
    };
    (head, slots.into_iter().map(slot).collect())
}

fn head(found: &Found, slots_path: &Path, bytes: &Result<Option<Vec<u8>>, Error>) -> Report {
    let name = typed::name(slots_path);
    let mut report = Report::new(&name);
    match bytes {
        Err(why) => report.is_wrong(why, None),
        Ok(None) => {
            report.line += ": missing";
            let saves = found.rows.iter().filter(|row| {
                let save = journal::pending(row).ok().flatten();
                save.is_some_and(|save| save.slots_path == slots_path)
            });
            let mut next: Vec<String> = saves.map(|row| typed::settle(row)).collect();
            if next.is_empty() {
                next.push(typed::mend(slots_path));
            }
            report.is_wrong("the slots file of the runs below is missing", next);
        }
        Ok(Some(bytes)) => {
            report.line += &match bytes.len() / RECORD {
                1 => ": 1 slot".to_string(),
                many => format!(": {many} slots"),
            };
            if bytes.len() % RECORD != 0 {
                let why = format!("{} bytes are no whole number of slots", bytes.len());
                report.is_wrong(why, [typed::mend(slots_path)]);
            }
            if let Err(why) = files::open_in_place(slots_path) {
                report.is_wrong(why, rows::unprotect(slots_path));
            }
        }
    }
    report
}

fn slot(found: &Found, slots_path: &Path, slots: Option<&[u8]>, k: usize) -> Report {
    let there = slots.and_then(|slots| record::in_bytes(slots, k));
    let forget = typed::forget(slots_path, k);
    match found.view.memory(slots_path, k) {
        Ok(Some(run)) => with_memory(found, slots_path, k, &run, slots.map(|_| there)),
        Ok(None) => without_memory(k, there, forget),
        Err(why) => {
            let mut report = Report::new(format!("slot {k}: {}", text(there)));
            match why {
                Error::Of(Kind::Damaged, path, _) => {
                    let name = typed::name(&path);
                    let why =
                        format!("{name} is damaged; bring a copy of it back, or give the run up");
                    report.is_wrong(why, [forget]);
                }
                why => report.is_wrong(why, None),
            }
            report
        }
    }
}

fn text(record: Option<[u8; RECORD]>) -> String {
    record.map_or("no record".to_string(), |record| record::text(&record))
}

fn without_memory(k: usize, there: Option<[u8; RECORD]>, forget: String) -> Report {
    let mut report = Report::new(format!("slot {k}: {}, no memory file", text(there)));
    let state = there.map(|record| Slots::new(record).read(0));
    match state {
        Some(Ok(state)) if state.stop() != Ok(Stop::Paused) || state == State::fresh() => {}
        Some(Ok(_)) => {
            let why = "its memory file is missing; bring it back, or give the run up";
            report.is_wrong(why, [forget]);
        }
        Some(Err(_)) => report.is_wrong("no run can use this slot before it is cleared", [forget]),
        // What is left of a file that was cut is told with the file.
        None => {}
    }
    report
}

/// `there`: the record in the slots file, if that file is there and has it.
fn with_memory(
    found: &Found,
    slots_path: &Path,
    k: usize,
    run: &Memory,
    there: Option<Option<[u8; RECORD]>>,
) -> Report {
    let (what, row) = (record::text(&run.record), typed::name(&run.row_path));
    let burnt = show::words(run.burnt.count_ones() as usize);
    let mut report = Report::new(format!("slot {k}: {what}, row {row}, {burnt} burnt by it"));
    if run.is_masked() {
        report.line += &format!(", {}", masks::typed(run.masks));
    }
    if let Some(there) = there.filter(|there| *there != Some(run.record)) {
        let why = format!("the slots file has something else: {}", text(there));
        report.is_wrong(why, [typed::mend(slots_path)]);
    }
    if run.is_paused() {
        row_is_there(found, slots_path, k, run, &mut report);
    } else if !run.told {
        report.note = "it has ended, and its end was not told".to_string();
    }
    if report.wrong.is_empty() && there.is_some() {
        report.next.extend(next(found, slots_path, k, run));
    }
    report
}

/// What to type next for a run with which nothing is wrong. What is wrong with its row comes first,
/// and is told with the row.
fn next(found: &Found, slots_path: &Path, k: usize, run: &Memory) -> Option<String> {
    let is_over = !run.is_paused();
    if is_over && (run.told || !is_its_part(found, run)) {
        return None;
    }
    let has_row = rows::report(found, &run.row_path).wrong.is_empty();
    let command = typed::run(&run.row_path, slots_path, k);
    has_row.then(|| match is_over {
        true => format!("{command} --resume"),
        false => command,
    })
}

/// Whether the row that is there is that of the part on which the run has ended.
fn is_its_part(found: &Found, run: &Memory) -> bool {
    let bytes = found.view.row(&run.row_path).ok().flatten();
    let row = bytes.and_then(|bytes| Row::try_from(&bytes[..]).ok());
    row.is_some_and(|row| Known::of(&run.row).lost_in(&row).is_empty())
}

fn row_is_there(found: &Found, slots_path: &Path, k: usize, run: &Memory, report: &mut Report) {
    if !matches!(found.view.row(&run.row_path), Ok(None)) {
        return;
    }
    let is_it = |place: &Path| {
        let bytes = row_file::read(place).ok().flatten();
        let row = bytes.and_then(|bytes| Row::try_from(&bytes[..]).ok());
        is_row(place) && row.is_none_or(|row| Known::of(&run.row).lost_in(&row).is_empty())
    };
    let forget = typed::forget(slots_path, k);
    match found.moved(&run.row_path, slots_path, is_it) {
        Some(moved) => report.is_wrong(
            "its row is missing; if the folder was moved, tell the run where its row is now",
            [typed::adopt(slots_path, k, &moved), forget],
        ),
        None => report.is_wrong(
            "its row is missing; bring it back, or give the run up",
            [forget],
        ),
    }
}
