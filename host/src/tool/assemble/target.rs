//! The file that an image is written to. A slip must not cost a text, a part's row, a run or the only
//! copy of a recipe.
use super::super::elf;
use super::super::error::{Error, Kind};
use super::super::files::{self, Action};
use super::super::image;
use super::super::journal::ImageMark;
use super::super::row_file;
use super::super::status::found::{self, Found};
use super::super::ways::typed;
use std::fs::{self, Metadata};
use std::os::unix::fs::MetadataExt;
use std::path::{Path, PathBuf};

pub struct Target {
    /// Canonical.
    pub path: PathBuf,
    /// The length of what is there, if anything is.
    pub before: Option<u64>,
}

impl Target {
    /// The file of this name, if it may be written.
    pub fn of(image: &Path) -> Result<Target, Error> {
        let path = files::canonical(image)?;
        if path.symlink_metadata().is_err() {
            return Ok(Target { path, before: None });
        }
        let before = Some(files::may_be_written(&path)?.len());
        match elf::is_elf(&files::read(&path, elf::MAGIC.len())?) {
            true => Err(Error::file(
                &path,
                "an ELF file, and the bytes alone would replace it: give another name after -o",
            )),
            false => Ok(Target { path, before }),
        }
    }

    /// That nothing else needs this file, nor its `.tmp`, which is written on the way.
    pub fn is_free(&self, text: &Metadata, onto: Option<&Path>) -> Result<(), Error> {
        let path = &*self.path;
        let tmp = files::tmp(path);
        let old = onto.and_then(|old| fs::metadata(old).ok());
        let (text, old) = (("TEXT", Some(text)), ("OLD", old.as_ref()));
        for ((what, source), target) in [(text, path), (text, &tmp), (old, &tmp)] {
            if source.is_some_and(|source| is_same(source, target)) {
                let (image, target) = (typed::name(path), typed::name(target));
                let why = format!("-o {image}: {what} must be another file than {target}");
                return Err(Error::Usage(why));
            }
        }
        let folder = path.parent().expect("the path is canonical, of a file");
        let found = Found::in_folder(folder)?;
        for target in [path, &tmp] {
            if let Some(what) = use_of(target, &found) {
                let why = format!("{what}: give another name after -o");
                return Err(Error::of(Kind::OtherRun, target, why));
            }
        }
        Ok(())
    }

    /// Writes the image. What is there, if it is other, is set aside under the name that is given
    /// back: a run may be paused with it whose files are in another folder.
    pub fn write(&self, image: Vec<u8>) -> Result<Option<PathBuf>, Error> {
        let is_other = match self.before {
            Some(_) => files::read(&self.path, image.len() + 1)? != image,
            None => false,
        };
        let aside = is_other.then(|| files::aside(&self.path));
        let [write_tmp, put_in_place] = files::replacing(&self.path, image);
        let mut actions = vec![write_tmp];
        let set_aside = |to: &PathBuf| Action::SetAside(self.path.clone(), to.clone());
        actions.extend(aside.iter().map(set_aside));
        actions.push(put_in_place);
        files::carry_out(&actions)?;
        Ok(aside)
    }
}

fn is_same(source: &Metadata, target: &Path) -> bool {
    let is_it = |about: Metadata| (about.dev(), about.ino()) == (source.dev(), source.ino());
    fs::metadata(target).is_ok_and(is_it)
}

/// What a file of this name is to a part or a run, whether or not it is there.
fn use_of(path: &Path, found: &Found) -> Option<String> {
    let what = if found::is_own(path.file_name().unwrap_or_default()) {
        "a name that is kept for a file of a row or a run"
    } else if found.rows.contains(path) || is_row(path) {
        "the row of a part"
    } else if found.slots.contains(path) {
        "a slots file"
    } else if files::lock_of(path).symlink_metadata().is_ok() {
        "a row or a slots file, with its lock beside it"
    } else {
        return paused_on(path, found);
    };
    Some(what.to_string())
}

/// The row of a part that no run has used here has no file beside it.
fn is_row(path: &Path) -> bool {
    let bytes = row_file::read(path).ok().flatten();
    bytes.is_some_and(|bytes| row_file::row_in(path, &bytes).is_ok())
}

/// A run that is paused goes on with its own image alone.
fn paused_on(path: &Path, found: &Found) -> Option<String> {
    let image = path.is_file().then(|| image::load(path, None))?.ok()?;
    let mark = ImageMark::of(&image.bytes);
    let is_it = |run: &&found::Run| run.memory.image == mark && run.memory.is_paused();
    let run = found.runs.iter().find(is_it)?;
    let (k, slots) = (run.k, typed::name(&run.slots_path));
    Some(format!(
        "the image of the run that is paused in slot {k} of {slots}"
    ))
}
