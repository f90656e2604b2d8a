//! What there is in a folder.
use super::super::error::Error;
use super::super::files;
use super::super::journal::{self, Memory};
use super::super::row_file;
use super::super::view::View;
use phuyurik::RECORD;
use std::collections::BTreeSet;
use std::ffi::{OsStr, OsString};
use std::fs;
use std::os::unix::ffi::{OsStrExt, OsStringExt};
use std::path::{Path, PathBuf};

pub struct Found {
    pub folder: PathBuf,
    pub slots: BTreeSet<PathBuf>,
    pub rows: BTreeSet<PathBuf>,
    pub set_aside: BTreeSet<PathBuf>,
    /// The files as they are once the saves that can be carried out have been.
    pub view: View,
    /// The runs that can be read, as they are then.
    pub runs: Vec<Run>,
}

/// A run, but for the bytes of its memory, which take much room.
pub struct Run {
    pub slots_path: PathBuf,
    pub k: usize,
    pub memory: Memory,
}

/// The name before an ending, if it has that and something before it.
fn before(name: &OsStr, ending: &str) -> Option<OsString> {
    let rest = name.as_bytes().strip_suffix(ending.as_bytes())?;
    (!rest.is_empty()).then(|| OsString::from_vec(rest.to_vec()))
}

/// The name of a slots file, from the name of a slot's own file with this ending.
fn slots_name(name: &OsStr, ending: &str) -> Option<OsString> {
    let slot = before(name, ending)?;
    let dot = slot.as_bytes().iter().rposition(|byte| *byte == b'.')?;
    let slots = OsString::from_vec(slot.as_bytes()[..dot].to_vec());
    let mut memory = slot;
    memory.push(".memory");
    journal::slot_of_memory(&slots, &memory).map(|_| slots)
}

/// Whether the tool keeps a file of this name for itself, beside a row or a slots file.
pub fn is_own(name: &OsStr) -> bool {
    let endings = [".seen", ".journal", ".memory", ".lock"];
    let has = |ending: &&str| before(name, ending).is_some();
    endings.iter().any(has) || is_set_aside(name)
}

fn is_set_aside(name: &OsStr) -> bool {
    let name = name.to_string_lossy();
    let Some((front, back)) = name.rsplit_once(".old") else {
        return false;
    };
    let endings = [".memory", ".journal", ".seen"];
    back.chars().all(|c| c.is_ascii_digit()) && endings.iter().any(|end| front.ends_with(end))
}

impl Found {
    pub fn in_folder(folder: &Path) -> Result<Found, Error> {
        let failed = |why| files::failed(folder, why);
        let mut found = Found {
            folder: fs::canonicalize(folder).map_err(failed)?,
            slots: BTreeSet::new(),
            rows: BTreeSet::new(),
            set_aside: BTreeSet::new(),
            view: View::default(),
            runs: Vec::new(),
        };
        for entry in found.folder.read_dir().map_err(failed)? {
            found.name(&entry.map_err(failed)?.file_name());
        }
        found.named_by_others();
        found.saves();
        found.runs = found.read_runs();
        Ok(found)
    }

    fn name(&mut self, name: &OsStr) {
        let path = |name: OsString| self.folder.join(name);
        self.slots.extend(slots_name(name, ".memory").map(path));
        // A slot whose memory file was removed still has its lock file.
        let is_slots = |path: &PathBuf| {
            let about = fs::metadata(path);
            about.is_ok_and(|about| about.is_file() && about.len() % RECORD as u64 == 0)
        };
        let locked = slots_name(name, ".lock").map(path).filter(is_slots);
        self.slots.extend(locked);
        for ending in [".seen", ".journal"] {
            self.rows.extend(before(name, ending).map(path));
        }
        if is_set_aside(name) {
            self.set_aside.insert(self.folder.join(name));
        }
    }

    /// The rows that runs name, and the slots files that saves name.
    fn named_by_others(&mut self) {
        let runs = self.read_runs().into_iter();
        self.rows.extend(runs.map(|run| run.memory.row_path));
        for row_path in &self.rows {
            if let Ok(Some(save)) = journal::pending(row_path) {
                self.slots.insert(save.slots_path);
            }
        }
    }

    fn saves(&mut self) {
        for row_path in &self.rows {
            if let Ok(Some(save)) = journal::pending(row_path) {
                if save.may_be_settled(&self.view).is_ok() {
                    self.view.add(save);
                }
            }
        }
    }

    fn read_runs(&self) -> Vec<Run> {
        let mut runs = Vec::new();
        for slots_path in &self.slots {
            for k in self.view.slots_with_memory(slots_path).unwrap_or_default() {
                if let Ok(Some(mut memory)) = self.view.memory(slots_path, k) {
                    memory.bytes.clear();
                    let slots_path = slots_path.clone();
                    runs.push(Run {
                        slots_path,
                        k,
                        memory,
                    });
                }
            }
        }
        runs
    }

    /// A file of this name beside another, or in the folder that is looked at.
    pub fn moved(
        &self,
        old: &Path,
        beside: &Path,
        is_it: impl Fn(&Path) -> bool,
    ) -> Option<PathBuf> {
        let name = old.file_name()?;
        let folders = [beside.parent()?, &self.folder];
        let places = folders.map(|folder| folder.join(name));
        places
            .into_iter()
            .find(|place| place != old && is_it(place))
    }
}

/// Whether a row is there, or a save of it that makes it.
pub fn is_row(path: &Path) -> bool {
    let has_row = row_file::read(path).is_ok_and(|bytes| bytes.is_some());
    has_row || journal::journal_of(path).is_file()
}

#[cfg(test)]
mod tests {
    use super::*;

    #[test]
    fn names_tell_what_a_file_is() {
        let slots = |name: &str| slots_name(name.as_ref(), ".memory");
        assert_eq!(slots("line.slots.0.memory"), Some("line.slots".into()));
        assert_eq!(slots("a.b.12.memory"), Some("a.b".into()));
        for name in [
            "line.slots.memory",
            "s.01.memory",
            ".memory",
            "s.0.memory.old",
        ] {
            assert_eq!(slots(name), None, "{name}");
        }
        for name in ["s.0.memory.old", "r.journal.old2", "r.seen.old"] {
            assert!(
                is_set_aside(name.as_ref()) && is_own(name.as_ref()),
                "{name}"
            );
        }
        for name in ["s.0.memory", "r.journal", "r.seen", "s.0.lock", "r.lock"] {
            assert!(is_own(name.as_ref()), "{name}");
        }
        for name in ["trim.bin", "part.row", "line.slots", "seen", ".lock"] {
            assert!(!is_own(name.as_ref()), "{name}");
        }
        for name in [
            "s.0.memory",
            "r.old",
            "r.journal.older",
            "r.journal.old.tmp",
        ] {
            assert!(!is_set_aside(name.as_ref()), "{name}");
        }
    }
}
