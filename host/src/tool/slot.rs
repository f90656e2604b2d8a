//! What a slot holds, and what a run does with it.
use super::args::Mode;
use super::error::Error;
use super::journal::{self, ImageMark, Memory};
use super::known::Known;
use super::masks;
use super::view::View;
use super::ways::record;
use phuyurik::{Argument, Masks, Refusal, Row, State, Stop, RECORD};
use std::path::{Path, PathBuf};

/// What a slot holds.
#[derive(Debug)]
pub enum Content {
    /// No run that could be carried on.
    Empty,
    /// A paused run without its memory.
    Lost,
    Paused(Memory),
    Ended(Memory),
}

/// The slot of a run.
pub struct Slot<'a> {
    pub slots_path: &'a Path,
    pub k: usize,
}

/// The part's row as it is there: blank, if the part is new.
pub struct Part {
    pub row: Row,
    pub is_new: bool,
}

/// Whose run may be carried on, with how long a memory and which masks, if that was said.
pub struct Owner<'a> {
    pub row_path: &'a Path,
    pub part: &'a Part,
    pub image: ImageMark,
    pub memory: Option<usize>,
    pub masks: Option<Masks>,
}

impl Slot<'_> {
    fn error(&self, of: fn(&Path, String) -> Error, why: impl ToString) -> Error {
        of(
            self.slots_path,
            format!("slot {} {}", self.k, why.to_string()),
        )
    }

    /// Why the library refused this slot of these bytes; of a record also what stands there.
    pub fn refused(&self, slots: &[u8], error: phuyurik::Error) -> Error {
        let of_record = |refusal: &Refusal| refusal.argument() == Argument::State;
        let refusal = error.refusal().filter(of_record);
        match refusal.zip(record::in_bytes(slots, self.k)) {
            Some((refusal, record)) => {
                let (number, fault) = (refusal.number(), record::fault(&record, refusal));
                let told = format!("refusal {number}: slot {}: {fault}", self.k);
                Error::Record(self.slots_path.to_path_buf(), refusal, told)
            }
            None => Error::of_library(self.slots_path, error),
        }
    }

    pub fn memory_path(&self) -> PathBuf {
        journal::memory_of(self.slots_path, self.k)
    }

    /// The slot's content, of which `state` is the library's reading. The record and the memory file
    /// are of one save, or one of them is an old copy.
    pub fn content(&self, view: &View, slots: &[u8], state: &State) -> Result<Content, Error> {
        let is_paused = state.stop() == Ok(Stop::Paused);
        let Some(memory) = view.memory(self.slots_path, self.k)? else {
            return Ok(match is_paused && *state != State::fresh() {
                true => Content::Lost,
                false => Content::Empty,
            });
        };
        if memory.record != slots[self.k * RECORD..][..RECORD] {
            let slots = self.slots_path.display();
            let why = format!(
                "is not the record that was saved with its memory; was the slots file restored? \
                 (mend {slots})"
            );
            return Err(self.error(Error::damaged, why));
        }
        Ok(match is_paused {
            true => Content::Paused(memory),
            false => Content::Ended(memory),
        })
    }

    /// What a run of this owner does with what is there: the run that is carried on, or whose end is
    /// told, or nothing, for a start. Nothing is given up that was not named.
    pub fn to_resume(
        &self,
        content: Content,
        mode: Mode,
        owner: &Owner,
    ) -> Result<Option<Memory>, Error> {
        let (slots, k) = (self.slots_path.display(), self.k);
        match (content, mode) {
            (Content::Lost, _) => {
                let why = format!("missing, but slot {k} holds a paused run (forget {slots} {k})");
                Err(Error::missing(&self.memory_path(), why))
            }
            (Content::Empty, Mode::Resume) => {
                let why = "missing, there is no run to resume";
                Err(Error::missing(&self.memory_path(), why))
            }
            (Content::Paused(run), _) if run.row_path != owner.row_path => {
                Err(self.error(Error::other_run, self.of_another_row(&run, owner)))
            }
            (Content::Paused(run), Mode::Either) => {
                self.is_of(&run, owner)?;
                Ok(Some(run))
            }
            (Content::Paused(run) | Content::Ended(run), Mode::Resume) => {
                self.is_of(&run, owner)?;
                Ok(Some(run))
            }
            (Content::Ended(run), Mode::Either) if self.is_to_be_told(&run, owner) => {
                self.is_of(&run, owner)?;
                Ok(Some(run))
            }
            _ => Ok(None),
        }
    }

    /// Whether this is an end that no one has heard of, on the part that is there: that of a part
    /// which was exchanged says nothing of the new one. With other masks it is not passed over: it is
    /// the same recipe, and they were mistyped, perhaps.
    fn is_to_be_told(&self, run: &Memory, owner: &Owner) -> bool {
        let any_masks = Owner {
            masks: None,
            ..*owner
        };
        let is_its_part = || Known::of(&run.row).lost_in(&owner.part.row).is_empty();
        !run.told && !owner.part.is_new && self.is_of(run, &any_masks).is_ok() && is_its_part()
    }

    /// A row that is not where the run knows it was moved or renamed, perhaps to the one given.
    fn of_another_row(&self, run: &Memory, owner: &Owner) -> String {
        let (row, given) = (run.row_path.display(), owner.row_path.display());
        let (slots, k) = (self.slots_path.display(), self.k);
        match run.row_path.exists() {
            true => format!(
                "holds a paused run on another row, {row}: choose another slot, or give that run up \
                 (forget {slots} {k})"
            ),
            false => format!(
                "holds a paused run on {row}, which is not there: bring it back, or, if it was moved, \
                 tell the run so (adopt {slots} {k} --row {given})"
            ),
        }
    }

    fn is_of(&self, run: &Memory, owner: &Owner) -> Result<(), Error> {
        let restart = masks::restart(run.masks);
        let why = if run.row_path != owner.row_path {
            format!("of a run on another row, {}", run.row_path.display())
        } else if run.image != owner.image {
            format!("of a run of another image: name the one it began with ({restart} gives it up)")
        } else if owner.memory.is_some_and(|length| length != run.bytes.len()) {
            let length = run.bytes.len();
            format!("of a run with a memory of {length} bytes ({restart} gives it up)")
        } else if owner.masks.is_some_and(|masks| masks != run.masks) {
            let masks = match run.is_masked() {
                true => format!("with {}: give it these, or none", masks::typed(run.masks)),
                false => "without masks: leave --own out".to_string(),
            };
            format!("of a run {masks} (--restart gives it up)")
        } else {
            return Ok(());
        };
        Err(Error::other_run(&self.memory_path(), why))
    }
}
