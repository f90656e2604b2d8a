//! A row: its words, and whether it can be used.
use super::super::error::{Error, Kind};
use super::super::files;
use super::super::journal;
use super::super::known::{self, Known};
use super::super::row_file;
use super::super::show;
use super::super::ways::typed;
use super::found::{Found, Run};
use super::{pending, Report};
use phuyurik::Row;
use std::fs;
use std::os::unix::fs::MetadataExt;
use std::path::Path;

pub fn report(found: &Found, row_path: &Path) -> Report {
    let mut report = Report::new(typed::name(row_path));
    pending::report(found, row_path, &mut report);
    seen(found, row_path, &mut report);
    let row = found.view.row(row_path).and_then(|bytes| {
        let row = bytes.map(|bytes| row_file::row_in(row_path, &bytes));
        row.transpose()
    });
    match row {
        Err(why) => report.is_wrong(why, None),
        Ok(None) => {
            let known = show::words(known_of(found, row_path).words().count());
            report.line += &format!(": missing, {known} known to be burnt");
        }
        Ok(Some(row)) => words(found, row_path, &row, &mut report),
    }
    if row_path.exists() {
        if let Err(why) = files::open_in_place(row_path) {
            report.is_wrong(why, unprotect(row_path));
        }
    }
    report.unless_busy(&[row_path])
}

/// What is known of a row, by what was seen of it and by all runs that were found.
fn known_of(found: &Found, row_path: &Path) -> Known {
    let seen = found.view.seen(row_path).unwrap_or_default();
    let mut known = Known::of(&seen.row);
    for run in found.runs.iter().map(|run| &run.memory) {
        // A run that is carried on wants all that it has seen, whenever that was.
        if run.row_path == row_path && (run.serial > seen.serial || run.is_paused()) {
            known.add(&run.row);
        }
    }
    known
}

fn words(found: &Found, row_path: &Path, row: &Row, report: &mut Report) {
    let burnt = known::burnt_words(row).len();
    let blank = row.words().len() - burnt;
    report.line += &format!(": {burnt} burnt, {blank} blank");
    let lost = known_of(found, row_path).lost_in(row);
    if !lost.is_empty() {
        let words = known::text(&lost);
        let why = format!(
            "not the row that was here: {words}; bring it back, or if the part was truly exchanged \
             say so"
        );
        report.is_wrong(why, [accepting(found, row_path)]);
    }
}

fn accepting(found: &Found, row_path: &Path) -> String {
    let is_its = |run: &&Run| run.memory.row_path == row_path;
    let run = match found.runs.iter().find(is_its) {
        Some(run) => typed::run(row_path, &run.slots_path, run.k),
        None => typed::run(row_path, "SLOTS".as_ref(), 0),
    };
    format!("{run} --accept-row")
}

/// A damaged `ROW.seen`: with a save to be carried out no run comes to accept the row.
fn seen(found: &Found, row_path: &Path, report: &mut Report) {
    let Err(why) = found.view.seen(row_path) else {
        return;
    };
    let path = known::seen_of(row_path);
    let next = match journal::journal_of(row_path).exists() {
        true => pending::aside_by_hand(&path),
        false => accepting(found, row_path),
    };
    let why = match why {
        Error::Of(Kind::Damaged, ..) => format!(
            "{} is damaged, which knows the burnt words: bring a copy of it back, or look at the \
             row well and go on without it",
            typed::name(&path)
        ),
        why => why.to_string(),
    };
    report.is_wrong(why, [next]);
}

/// What to type so that a file may be written.
pub fn unprotect(path: &Path) -> Option<String> {
    let about = fs::symlink_metadata(path).ok()?;
    let name = typed::name(path);
    if about.mode() & 0o222 == 0 {
        return Some(format!("chmod u+w {name}"));
    }
    let folder = typed::name(path.parent()?);
    (about.nlink() > 1).then(|| format!("find {folder} -samefile {name}"))
}
