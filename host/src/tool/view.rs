//! The files as they are, or as they will be once some saves have been carried out.
use super::error::Error;
use super::files;
use super::journal::{self, Memory, Moment};
use super::known::Seen;
use super::row_file;
use phuyurik::RECORD;
use std::path::Path;

/// With no saves: what is on the disk.
#[derive(Debug, Default)]
pub struct View {
    saves: Vec<Moment>,
}

impl View {
    /// From here on this save is seen as carried out.
    pub fn add(&mut self, save: Moment) {
        self.saves.push(save);
    }

    fn last(&self, is_it: impl Fn(&&Moment) -> bool) -> Option<&Moment> {
        self.saves.iter().rev().find(is_it)
    }

    fn save_of_row(&self, row_path: &Path) -> Option<&Moment> {
        self.last(|save| save.run.row_path == row_path)
    }

    /// The bytes of a row, or nothing if it is missing.
    pub fn row(&self, row_path: &Path) -> Result<Option<Vec<u8>>, Error> {
        match self.save_of_row(row_path) {
            Some(save) => Ok(Some(save.run.row.as_ref().to_vec())),
            None => row_file::read(row_path),
        }
    }

    pub fn seen(&self, row_path: &Path) -> Result<Seen, Error> {
        match self.save_of_row(row_path) {
            Some(save) => Ok(save.seen()),
            None => Seen::read(row_path),
        }
    }

    /// The bytes of a slots file, or nothing if it is missing.
    pub fn slots(&self, slots_path: &Path) -> Result<Option<Vec<u8>>, Error> {
        let Some(mut bytes) = files::read_if_there(slots_path, usize::MAX)? else {
            return Ok(None);
        };
        for save in &self.saves {
            if save.slots_path == slots_path {
                let end = save.slots_end() as usize;
                bytes.resize(bytes.len().max(end), 0);
                bytes[end - RECORD..end].copy_from_slice(&save.run.record);
            }
        }
        Ok(Some(bytes))
    }

    pub fn memory(&self, slots_path: &Path, slot: usize) -> Result<Option<Memory>, Error> {
        match self.last(|save| save.slots_path == slots_path && save.slot == slot) {
            Some(save) => Ok(Some(save.run.clone())),
            None => Memory::read(slots_path, slot),
        }
    }

    /// The slots that have a memory file, in order.
    pub fn slots_with_memory(&self, slots_path: &Path) -> Result<Vec<usize>, Error> {
        let mut slots = journal::slots_with_memory(slots_path)?;
        let here = self
            .saves
            .iter()
            .filter(|save| save.slots_path == slots_path);
        slots.extend(here.map(|save| save.slot));
        slots.sort_unstable();
        slots.dedup();
        Ok(slots)
    }
}
