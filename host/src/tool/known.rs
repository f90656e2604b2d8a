//! What is known of a row: words that were burnt once, and so are burnt for ever.
use super::error::{Error, Kind};
use super::files::{self, Action};
use super::place::LastPaused;
use super::sealed::{seal, unseal, Broken};
use super::view::View;
use phuyurik::{Row, Word};
use std::collections::BTreeSet;
use std::path::{Path, PathBuf};

const SEEN: &[u8; 8] = b"phuySEE1";
/// Where a run with words of its own is remembered.
const SEEN_MASKED: &[u8; 8] = b"phuySEE2";

/// Words known to be burnt, with their values. One word may be known with two values, of two parts
/// that stood at one path: then no row has both.
#[derive(Clone, Debug, Default, PartialEq, Eq)]
pub struct Known(BTreeSet<(usize, u32)>);

/// A known word that a row does not have.
#[derive(Clone, Copy, Debug, PartialEq, Eq)]
pub struct Lost {
    pub index: usize,
    /// What it is known to be burnt with.
    pub value: u32,
    pub there: Word,
}

impl Known {
    pub fn of(row: &Row) -> Known {
        Known(burnt_words(row).into_iter().collect())
    }

    pub fn add(&mut self, row: &Row) {
        self.0.extend(burnt_words(row));
    }

    /// The words with their values.
    pub fn words(&self) -> impl Iterator<Item = (usize, u32)> + '_ {
        self.0.iter().copied()
    }

    /// The known words that are blank or other in a row.
    pub fn lost_in(&self, row: &Row) -> Vec<Lost> {
        let words = self.words().map(|(index, value)| Lost {
            index,
            value,
            there: row.word(index),
        });
        words
            .filter(|word| word.there != Word::Burnt(word.value))
            .collect()
    }

    /// That the row in this file has all that is known of it.
    pub fn is_held_by(&self, path: &Path, row: &Row) -> Result<(), Error> {
        let lost = self.lost_in(row);
        match lost.is_empty() {
            true => Ok(()),
            false => Err(Error::forgotten(path, otherwise(&lost))),
        }
    }
}

fn otherwise(lost: &[Lost]) -> String {
    let words = text(lost);
    format!(
        "not the row that was here: {words}. Bring the row back; for a part that was truly \
         exchanged say --accept-row"
    )
}

/// The words of a message, such as `word 4 (burnt with 7) is blank, word 5 (burnt with 9) is 3`.
pub fn text(lost: &[Lost]) -> String {
    let words: Vec<String> = lost
        .iter()
        .map(|word| {
            let there = match word.there {
                Word::Blank => "blank".to_string(),
                Word::Burnt(value) => value.to_string(),
            };
            format!("word {} (burnt with {}) is {there}", word.index, word.value)
        })
        .collect();
    words.join(", ")
}

/// The burnt words of a row, as index and value. A word that an older version marked for a store of
/// zero got no pulse: its part is blank there.
pub fn burnt_words(row: &Row) -> Vec<(usize, u32)> {
    let words = row.words().enumerate();
    words
        .filter_map(|(index, word)| match word {
            Word::Burnt(0) | Word::Blank => None,
            Word::Burnt(value) => Some((index, value)),
        })
        .collect()
}

/// The words burnt in one row and not in an earlier one, a bit for each.
pub fn mask_of_new(before: &Row, after: &Row) -> u64 {
    let new = |index: &usize| after.word(*index).is_burnt() && !before.word(*index).is_burnt();
    mask_of(after, new)
}

/// The words burnt with one and the same value in both rows, a bit for each.
pub fn mask_of_same(one: &Row, other: &Row) -> u64 {
    let same = |index: &usize| {
        let word = one.word(*index);
        word.is_burnt() && word == other.word(*index)
    };
    mask_of(one, same)
}

fn mask_of(row: &Row, is_in: impl Fn(&usize) -> bool) -> u64 {
    let words = 0..row.words().len();
    words.filter(is_in).fold(0, |mask, index| mask | 1 << index)
}

/// The content of `ROW.seen`: the most that was ever seen at this path, and the number of the last
/// save that was carried out.
#[derive(Clone, Debug, Default, PartialEq, Eq)]
pub struct Seen {
    pub serial: u64,
    pub row: Row,
    /// Where the runs are that were last saved as paused, unless they have ended or were given up
    /// since. A run that is started elsewhere would burn their words.
    pub last_paused: LastPaused,
}

pub fn seen_of(row_path: &Path) -> PathBuf {
    files::beside(row_path, ".seen")
}

impl Seen {
    /// Nothing, with the number 0, where the file is missing: numbers of saves begin with 1.
    pub fn read(row_path: &Path) -> Result<Seen, Error> {
        let path = seen_of(row_path);
        let Some(bytes) = files::read_if_there(&path, usize::MAX)? else {
            return Ok(Seen::default());
        };
        Seen::from_bytes(&bytes).map_err(|broken| {
            let way_on =
                "it knows the row's burnt words; bring a copy of it back, or look at the row \
                          and say --accept-row";
            Error::broken(&path, broken, way_on)
        })
    }

    fn from_bytes(bytes: &[u8]) -> Result<Seen, Broken> {
        let ([serial, row, _], last_paused) = match unseal(SEEN_MASKED, bytes) {
            Err(Broken::Version) => {
                let fields: [&[u8]; 3] = unseal(SEEN, bytes)?;
                (fields, LastPaused::from_plain_field(fields[2])?)
            }
            fields => (fields?, LastPaused::from_field(fields?[2])?),
        };
        Ok(Seen {
            serial: u64::from_le_bytes(serial.try_into().or(Err(Broken::Damaged))?),
            row: row.try_into().or(Err(Broken::Damaged))?,
            last_paused,
        })
    }

    /// Without masks it is what earlier versions wrote, and they can read it.
    pub fn to_bytes(&self) -> Vec<u8> {
        let (kind, last_paused) = match self.last_paused.is_plain() {
            true => (SEEN, self.last_paused.to_plain_field()),
            false => (SEEN_MASKED, self.last_paused.to_field()),
        };
        let serial = self.serial.to_le_bytes();
        seal(kind, &[&serial, self.row.as_ref(), &last_paused])
    }

    /// The steps that write it.
    pub fn writing(&self, row_path: &Path) -> [Action; 2] {
        files::replacing(&seen_of(row_path), self.to_bytes())
    }
}

/// The words that a row must have: those seen at its path, and those that runs of this slots file
/// saw in it later than what was seen there last, which was then removed or is an old copy.
#[derive(Debug)]
pub struct RowKnown {
    pub known: Known,
    /// The number in `ROW.seen`.
    pub seen: u64,
    /// The highest number of a save that is known of.
    pub serial: u64,
    /// What `ROW.seen` remembers of paused runs.
    pub last_paused: LastPaused,
    /// `ROW.seen` is damaged; that the row is right was said by whoever accepts it.
    pub seen_is_damaged: bool,
    /// What could not be looked at.
    pub notes: Vec<String>,
}

impl RowKnown {
    pub fn read(
        view: &View,
        row_path: &Path,
        slots_path: &Path,
        accept: bool,
    ) -> Result<RowKnown, Error> {
        let (seen, damage) = match view.seen(row_path) {
            Err(why @ Error::Of(Kind::Damaged, ..)) if accept => {
                (Seen::default(), Some(format!("{why}; made anew")))
            }
            seen => (seen?, None),
        };
        let mut all = RowKnown {
            known: Known::of(&seen.row),
            seen: seen.serial,
            serial: seen.serial,
            last_paused: seen.last_paused,
            seen_is_damaged: damage.is_some(),
            notes: Vec::from_iter(damage),
        };
        for slot in view.slots_with_memory(slots_path)? {
            match view.memory(slots_path, slot) {
                Ok(Some(run)) if run.row_path == row_path && run.serial > seen.serial => {
                    all.known.add(&run.row);
                    all.serial = all.serial.max(run.serial);
                }
                Ok(_) => {}
                // It must not keep the runs in other slots from their work.
                Err(why) => all.notes.push(format!("{why}; passed over")),
            }
        }
        Ok(all)
    }
}
