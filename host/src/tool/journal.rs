//! The saved moment of a run: state, memory and row, always of one and the same step.
//!
//! A moment is saved by writing all of it to the journal beside the row; from then on it counts.
//! Then the memory file is replaced, the record and the row are written in place, what was seen of
//! the row is replaced, and the journal is removed. A journal that is found later is carried out
//! again, which does no harm however much of it was done (`settling.rs`).
//!
//! The journal is removed and not kept: a run in another slot may change the row in between, and an
//! old copy of the row must never come back.
use super::error::Error;
use super::files::{self, Action};
use super::known::Seen;
use super::place::{LastPaused, Paused, Place};
use super::row_file;
use super::sealed::{digest, seal, unseal, Broken};
use phuyurik::{Board, Masks, Row, Slots, State, RECORD};
use std::ffi::OsStr;
use std::os::unix::ffi::OsStrExt;
use std::path::{Path, PathBuf};

const JOURNAL: &[u8; 8] = b"phuyJRN2";
const MEMORY: &[u8; 8] = b"phuyMEM2";
/// With masks. Earlier versions know nothing of masks, and must not carry such a run on; without them
/// they can read what is written.
const JOURNAL_MASKED: &[u8; 8] = b"phuyJRN3";
const MEMORY_MASKED: &[u8; 8] = b"phuyMEM3";

/// A slots file is made or lengthened for at most this many: a slip in a number should not fill a
/// disk.
pub const MOST_SLOTS: usize = 4096;

/// Enough of an image to know it again: of the image itself, before zeros are put after it.
#[derive(Clone, Copy, Debug, PartialEq, Eq)]
pub struct ImageMark {
    pub length: u64,
    pub digest: u64,
}

impl ImageMark {
    pub fn of(image: &[u8]) -> ImageMark {
        ImageMark {
            length: image.len() as u64,
            digest: digest(image),
        }
    }
}

/// A run as it was last saved, which is the content of its memory file. The row's path is
/// canonical, and stands for the part: nothing here talks to a socket.
#[derive(Clone, Debug, PartialEq, Eq)]
pub struct Memory {
    pub row_path: PathBuf,
    /// The number of the save, counted for each row.
    pub serial: u64,
    pub image: ImageMark,
    pub record: [u8; RECORD],
    /// The row as the run last saw it.
    pub row: Row,
    /// The words that this run burnt since the recipe's start, a bit for each.
    pub burnt: u64,
    /// It has ended, and standard output has taken the report of that.
    pub told: bool,
    pub bytes: Vec<u8>,
    /// Whose the words of the row are, from the recipe's start to its end.
    pub masks: Masks,
}

/// A run as it is saved, and the slot that it is saved in. The slots' path is canonical.
#[derive(Clone, Debug, PartialEq, Eq)]
pub struct Moment {
    pub slots_path: PathBuf,
    pub slot: usize,
    /// What `ROW.seen` remembers from this save on.
    pub last_paused: LastPaused,
    pub run: Memory,
}

pub fn journal_of(row_path: &Path) -> PathBuf {
    files::beside(row_path, ".journal")
}

/// What the names of a slot's own files begin with: its lock is that of this name.
pub fn slot_name(slots_path: &Path, slot: usize) -> PathBuf {
    files::beside(slots_path, &format!(".{slot}"))
}

pub fn memory_of(slots_path: &Path, slot: usize) -> PathBuf {
    files::beside(&slot_name(slots_path, slot), ".memory")
}

/// The slot whose memory file of this slots file has this name, if it is one.
pub fn slot_of_memory(slots_name: &OsStr, name: &OsStr) -> Option<usize> {
    let rest = name.as_bytes().strip_prefix(slots_name.as_bytes())?;
    let number = rest.strip_prefix(b".")?.strip_suffix(b".memory")?;
    let number: usize = std::str::from_utf8(number).ok()?.parse().ok()?;
    // Only the name that the tool writes: no sign, no zeros before it.
    (rest == format!(".{number}.memory").as_bytes()).then_some(number)
}

/// The slots that have a memory file, in order, whether or not the slots file has them or is there.
pub fn slots_with_memory(slots_path: &Path) -> Result<Vec<usize>, Error> {
    let folder = slots_path.parent().expect("the path is canonical");
    let name = slots_path.file_name().expect("the path is canonical");
    let mut slots = Vec::new();
    for entry in folder
        .read_dir()
        .map_err(|why| files::failed(folder, why))?
    {
        let entry = entry.map_err(|why| files::failed(folder, why))?;
        slots.extend(slot_of_memory(name, &entry.file_name()));
    }
    slots.sort_unstable();
    Ok(slots)
}

pub fn path_from(bytes: &[u8]) -> PathBuf {
    PathBuf::from(OsStr::from_bytes(bytes))
}

pub fn path_bytes(path: &Path) -> &[u8] {
    path.as_os_str().as_bytes()
}

fn number(field: &[u8]) -> Option<u64> {
    Some(u64::from_le_bytes(field.try_into().ok()?))
}

fn yes_or_no(field: &[u8]) -> Option<bool> {
    match field {
        [0] => Some(false),
        [1] => Some(true),
        _ => None,
    }
}

/// The fields of a run without masks, in the order of the files. The masks follow them.
type Fields<'a> = [&'a [u8]; 9];

impl Memory {
    /// The memory file of a slot, or nothing if it is missing.
    pub fn read(slots_path: &Path, slot: usize) -> Result<Option<Memory>, Error> {
        let path = memory_of(slots_path, slot);
        let Some(bytes) = files::read_if_there(&path, usize::MAX)? else {
            return Ok(None);
        };
        Memory::from_bytes(&bytes).map(Some).map_err(|broken| {
            let slots = slots_path.display();
            let way_on =
                format!("bring a copy of it back, or give the run up (forget {slots} {slot})");
            Error::broken(&path, broken, &way_on)
        })
    }

    fn from_bytes(bytes: &[u8]) -> Result<Memory, Broken> {
        let memory = match unseal::<11>(MEMORY_MASKED, bytes) {
            Err(Broken::Version) => Memory::from_fields(unseal(MEMORY, bytes)?, Masks::default()),
            fields => Memory::from_masked_fields(&fields?),
        };
        memory.ok_or(Broken::Damaged)
    }

    fn from_masked_fields(fields: &[&[u8]]) -> Option<Memory> {
        let (fields, masks) = fields.split_first_chunk()?;
        let [own, other] = masks else {
            return None;
        };
        let (own, other) = (number(own)?.into(), number(other)?.into());
        Memory::from_fields(*fields, Masks { own, other })
    }

    /// Nothing that the library would refuse: a run that was saved had been accepted by it.
    fn from_fields(fields: Fields, masks: Masks) -> Option<Memory> {
        let [row_path, serial, length, image, record, row, burnt, told, bytes] = fields;
        let memory = Memory {
            row_path: path_from(row_path),
            serial: number(serial)?,
            image: ImageMark {
                length: number(length)?,
                digest: number(image)?,
            },
            record: record.try_into().ok()?,
            row: row.try_into().ok()?,
            burnt: number(burnt)?,
            told: yes_or_no(told)?,
            bytes: bytes.to_vec(),
            masks,
        };
        let mut copy = memory.clone();
        let accepted = Board::shared(&mut copy.bytes, &mut copy.row, masks)
            .run_slot(&mut Slots::new(&mut copy.record), 0, 0)
            .is_ok();
        (accepted && memory.bytes.len() as u64 >= memory.image.length).then_some(memory)
    }

    pub fn is_masked(&self) -> bool {
        self.masks != Masks::default()
    }

    /// Gives the fields to whoever seals them, the masks last; some of them live only here.
    fn with_fields<T>(&self, seal: impl FnOnce([&[u8]; 11]) -> T) -> T {
        seal([
            path_bytes(&self.row_path),
            &self.serial.to_le_bytes(),
            &self.image.length.to_le_bytes(),
            &self.image.digest.to_le_bytes(),
            &self.record,
            self.row.as_ref(),
            &self.burnt.to_le_bytes(),
            &[u8::from(self.told)],
            &self.bytes,
            &self.masks.own.mask().to_le_bytes(),
            &self.masks.other.mask().to_le_bytes(),
        ])
    }

    pub fn to_bytes(&self) -> Vec<u8> {
        self.with_fields(|fields| match self.is_masked() {
            true => seal(MEMORY_MASKED, &fields),
            false => seal(MEMORY, &fields[..9]),
        })
    }

    /// The state in its record.
    pub fn state(&self) -> Result<State, phuyurik::Error> {
        Slots::new(&self.record).read(0)
    }

    /// Whether both are of one and the same save, told or not.
    pub fn is_same_save(&self, other: &Memory) -> bool {
        let told = other.told;
        *other
            == Memory {
                told,
                ..self.clone()
            }
    }
}

impl Moment {
    pub fn to_journal(&self) -> Vec<u8> {
        let is_plain = !self.run.is_masked() && self.last_paused.is_plain();
        let last_paused = match is_plain {
            true => self.last_paused.to_plain_field(),
            false => self.last_paused.to_field(),
        };
        self.run.with_fields(|run| {
            let slot = (self.slot as u64).to_le_bytes();
            let mut fields = vec![path_bytes(&self.slots_path), &slot, &last_paused];
            fields.extend(run);
            match is_plain {
                true => seal(JOURNAL, &fields[..12]),
                false => seal(JOURNAL_MASKED, &fields),
            }
        })
    }

    fn from_journal(bytes: &[u8]) -> Result<Moment, Broken> {
        match unseal::<14>(JOURNAL_MASKED, bytes) {
            Err(Broken::Version) => {
                let fields: [&[u8]; 12] = unseal(JOURNAL, bytes)?;
                let (own, run) = fields.split_at(3);
                let run = run.try_into().or(Err(Broken::Damaged))?;
                let run = Memory::from_fields(run, Masks::default());
                Moment::from_fields(own, LastPaused::from_plain_field(own[2])?, run)
            }
            fields => {
                let fields = fields?;
                let (own, run) = fields.split_at(3);
                let run = Memory::from_masked_fields(run);
                Moment::from_fields(own, LastPaused::from_field(own[2])?, run)
            }
        }
    }

    fn from_fields(
        own: &[&[u8]],
        last_paused: LastPaused,
        run: Option<Memory>,
    ) -> Result<Moment, Broken> {
        let slot = number(own[1]).and_then(|slot| usize::try_from(slot).ok());
        Ok(Moment {
            slots_path: path_from(own[0]),
            slot: slot.ok_or(Broken::Damaged)?,
            last_paused,
            run: run.ok_or(Broken::Damaged)?,
        })
    }

    pub fn memory_path(&self) -> PathBuf {
        memory_of(&self.slots_path, self.slot)
    }

    pub fn place(&self) -> Place {
        Place {
            slots_path: self.slots_path.clone(),
            slot: self.slot,
        }
    }

    /// A paused run is the one to remember, until it has ended itself.
    pub fn remember_place(&mut self) {
        let (place, own) = (self.place(), self.run.masks.own);
        match self.run.is_paused() {
            true => self.last_paused.remember(Paused { place, own }),
            false => self.last_paused.forget(&place),
        }
    }

    /// What is seen of the row once this has been saved.
    pub fn seen(&self) -> Seen {
        Seen {
            serial: self.run.serial,
            row: self.run.row.clone(),
            last_paused: self.last_paused.clone(),
        }
    }

    /// Where the slots file's bytes end that this moment's record needs.
    pub fn slots_end(&self) -> u64 {
        (self.slot as u64)
            .saturating_add(1)
            .saturating_mul(RECORD as u64)
    }

    /// Puts a moment whose journal stands into its files.
    pub fn settling(&self) -> Vec<Action> {
        let row_path = &self.run.row_path;
        let mut actions = Vec::from(files::replacing(&self.memory_path(), self.run.to_bytes()));
        actions.push(Action::WriteAt(
            self.slots_path.clone(),
            self.slots_end() - RECORD as u64,
            self.run.record.to_vec(),
        ));
        actions.push(Action::Burn(row_path.clone(), self.run.row.clone().into()));
        actions.extend(self.seen().writing(row_path));
        actions.push(Action::Remove(journal_of(row_path)));
        actions
    }

    /// The whole save. It counts as soon as the second action is done.
    pub fn saving(&self) -> Vec<Action> {
        let journal = journal_of(&self.run.row_path);
        let mut actions = Vec::from(files::replacing(&journal, self.to_journal()));
        actions.extend(self.settling());
        actions
    }

    /// That no one else has used the row or the slot since this run last looked: the locks forbid
    /// it, but lock files can be removed by hand. Given are the number that was last seen of the row
    /// and that of the memory file, if the slot holds this run already.
    pub fn may_be_saved(&self, seen: u64, memory: Option<u64>) -> Result<(), Error> {
        let run = &self.run;
        let journal = journal_of(&run.row_path);
        let others = |path: &Path| Error::other_run(path, "another run has used it meanwhile");
        if journal.symlink_metadata().is_ok() {
            return Err(others(&journal));
        }
        if Seen::read(&run.row_path)?.serial != seen {
            return Err(others(&run.row_path));
        }
        if let Some(serial) = memory {
            let there = Memory::read(&self.slots_path, self.slot)?;
            if !there.is_some_and(|there| there.row_path == run.row_path && there.serial == serial)
            {
                return Err(others(&self.memory_path()));
            }
        }
        match row_file::read(&run.row_path)? {
            Some(bytes) => row_file::takes_nothing_back(&run.row_path, &bytes, &run.row),
            None => Ok(()),
        }
    }
}

/// The moment that a journal beside this row holds, whatever row it names. A damaged journal is an
/// error: it may be the only place that knows of a burnt word.
pub fn read_journal(row_path: &Path) -> Result<Option<Moment>, Error> {
    let path = journal_of(row_path);
    let Some(bytes) = files::read_if_there(&path, usize::MAX)? else {
        return Ok(None);
    };
    let row = row_path.display();
    let moment = Moment::from_journal(&bytes).map_err(|broken| {
        let way_on = format!("bring a copy of it back, or set it aside (settle {row} --discard)");
        Error::broken(&path, broken, &way_on)
    });
    moment.map(Some)
}

/// The moment that a journal beside this row holds, which must be of this row.
pub fn pending(row_path: &Path) -> Result<Option<Moment>, Error> {
    match read_journal(row_path)? {
        Some(moment) if moment.run.row_path != row_path => {
            let of = moment.run.row_path.display();
            let why = format!("of another row, {of}: was the folder moved? (adopt)");
            Err(Error::other_run(&journal_of(row_path), why))
        }
        found => Ok(found),
    }
}
