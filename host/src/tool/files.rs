//! Files: reading, writing as a list of small actions, and locks.
use super::error::{Error, Kind};
use super::row_file;
use phuyurik::Row;
use std::fs::{self, File, TryLockError};
use std::io::{self, ErrorKind, Read, Seek, Write};
use std::os::unix::fs::{FileExt, MetadataExt, PermissionsExt};
use std::path::{Path, PathBuf};

/// The file's name with an ending after it.
pub fn beside(path: &Path, ending: &str) -> PathBuf {
    let mut name = path.as_os_str().to_os_string();
    name.push(ending);
    PathBuf::from(name)
}

pub fn failed(path: &Path, why: io::Error) -> Error {
    match why.kind() {
        ErrorKind::NotFound => Error::missing(path, "missing"),
        _ => Error::file(path, why),
    }
}

/// A link that leads nowhere is an error: what it leads to may be back tomorrow.
fn is_no_dangling_link(path: &Path) -> Result<(), Error> {
    match fs::read_link(path) {
        Ok(target) => {
            let target = target.display();
            let why = format!("a link to {target}, which is missing");
            Err(Error::missing(path, why))
        }
        Err(_) => Ok(()),
    }
}

/// One name for a file, however it was given; the file itself need not be there.
pub fn canonical(path: &Path) -> Result<PathBuf, Error> {
    match fs::canonicalize(path) {
        Err(why) if why.kind() == ErrorKind::NotFound => is_no_dangling_link(path)?,
        done => return done.map_err(|why| failed(path, why)),
    }
    let name = path
        .file_name()
        .ok_or_else(|| Error::file(path, "not the name of a file"))?;
    let folder = match path.parent() {
        Some(folder) if folder != Path::new("") => folder,
        _ => Path::new("."),
    };
    let folder = fs::canonicalize(folder).map_err(|why| failed(folder, why))?;
    Ok(folder.join(name))
}

/// At most the first `most` bytes of what was opened under this name.
pub fn read_opened(path: &Path, file: File, most: usize) -> Result<Vec<u8>, Error> {
    let mut bytes = Vec::new();
    let done = file.take(most as u64).read_to_end(&mut bytes);
    done.map_err(|why| failed(path, why))?;
    Ok(bytes)
}

/// At most the first `most` bytes of a regular file, or nothing if it is missing.
pub fn read_if_there(path: &Path, most: usize) -> Result<Option<Vec<u8>>, Error> {
    // Asked before it is opened: a pipe would be waited for.
    match fs::metadata(path) {
        Err(why) if why.kind() == ErrorKind::NotFound => {
            return is_no_dangling_link(path).map(|()| None)
        }
        Ok(about) if !about.is_file() => return Err(Error::file(path, "not a regular file")),
        about => about.map_err(|why| failed(path, why))?,
    };
    let file = File::open(path).map_err(|why| failed(path, why))?;
    read_opened(path, file, most).map(Some)
}

/// At most the first `most` bytes of a file, or of whatever comes under this name.
pub fn read(path: &Path, most: usize) -> Result<Vec<u8>, Error> {
    let file = File::open(path).map_err(|why| failed(path, why))?;
    read_opened(path, file, most)
}

/// That a file may be written, and what it is. That root can write to it says nothing: who took the
/// write bits away wants it kept.
pub fn may_be_written(path: &Path) -> Result<fs::Metadata, Error> {
    let about = fs::symlink_metadata(path).map_err(|why| failed(path, why))?;
    if !about.is_file() {
        return Err(Error::file(path, "not a regular file"));
    }
    if about.mode() & 0o222 == 0 {
        return Err(Error::file(
            path,
            "write-protected: its mode has no write bit",
        ));
    }
    Ok(about)
}

/// Opens a file to be written in place, if it may be. The files beside it go by its name, so it has
/// only one.
pub fn open_in_place(path: &Path) -> Result<File, Error> {
    let about = may_be_written(path)?;
    if about.nlink() > 1 {
        let why = format!(
            "has {} names (hard links), but what is kept of it goes by its name",
            about.nlink()
        );
        return Err(Error::file(path, why));
    }
    let opened = File::options().read(true).write(true).open(path);
    opened.map_err(|why| failed(path, why))
}

/// A step of a save. Each is on the disk before the next begins, so a kill or a power cut leaves a
/// front part of the list done, and beyond it a torn step at worst.
#[derive(Debug)]
pub enum Action {
    /// Writes the `.tmp` beside the file.
    WriteTmp(PathBuf, Vec<u8>),
    /// Renames the `.tmp` to the file.
    PutInPlace(PathBuf),
    /// Writes these bytes at this place of a file that stays what it is.
    WriteAt(PathBuf, u64, Vec<u8>),
    /// Writes a row, in place where it is there.
    Burn(PathBuf, Box<Row>),
    /// Gives a file the second name, which is free.
    SetAside(PathBuf, PathBuf),
    Remove(PathBuf),
}

pub fn tmp(path: &Path) -> PathBuf {
    beside(path, ".tmp")
}

/// A free name for a file that is set aside: what was set aside before stays too.
pub fn aside(path: &Path) -> PathBuf {
    let mut to = beside(path, ".old");
    let mut number = 2;
    while to.symlink_metadata().is_ok() {
        to = beside(path, &format!(".old{number}"));
        number += 1;
    }
    to
}

/// The two steps that replace a file whole.
pub fn replacing(path: &Path, bytes: Vec<u8>) -> [Action; 2] {
    let path = path.to_path_buf();
    [
        Action::WriteTmp(path.clone(), bytes),
        Action::PutInPlace(path),
    ]
}

pub fn replace(path: &Path, bytes: Vec<u8>) -> Result<(), Error> {
    carry_out(&replacing(path, bytes))
}

pub fn carry_out(actions: &[Action]) -> Result<(), Error> {
    for action in actions {
        let (path, done) = match action {
            Action::WriteTmp(path, bytes) => (path, write_tmp(path, bytes)),
            Action::PutInPlace(path) => (path, put_in_place(path)),
            Action::WriteAt(path, at, bytes) => (path, write_at(&open_in_place(path)?, *at, bytes)),
            Action::Burn(path, row) => {
                row_file::burn(path, row)?;
                continue;
            }
            Action::SetAside(path, to) => {
                (path, fs::rename(path, to).and_then(|()| sync_folder(path)))
            }
            Action::Remove(path) => (path, fs::remove_file(path).and_then(|()| sync_folder(path))),
        };
        done.map_err(|why| Error::file(path, why))?;
    }
    Ok(())
}

/// What stands at the `.tmp` goes first, and the new one is made and never merely opened: a link
/// there is not followed. It gets the mode of the file that it will replace, and its owner if it can.
fn write_tmp(path: &Path, bytes: &[u8]) -> io::Result<()> {
    let tmp = tmp(path);
    match fs::remove_file(&tmp) {
        Err(why) if why.kind() != ErrorKind::NotFound => return Err(why),
        _ => {}
    }
    let mut file = File::options().write(true).create_new(true).open(&tmp)?;
    if let Ok(old) = fs::metadata(path) {
        // Only root may give a file away; anyone else's stays his own.
        let _ = std::os::unix::fs::fchown(&file, Some(old.uid()), Some(old.gid()));
        file.set_permissions(fs::Permissions::from_mode(old.mode() & 0o7777))?;
    }
    file.write_all(bytes)
}

fn put_in_place(path: &Path) -> io::Result<()> {
    let from = tmp(path);
    // Synced before the rename: a name never stands for bytes that are not on the disk yet.
    File::open(&from)?.sync_all()?;
    fs::rename(&from, path)?;
    sync_folder(path)
}

pub fn write_at(file: &File, at: u64, bytes: &[u8]) -> io::Result<()> {
    file.write_all_at(bytes, at)?;
    file.sync_all()
}

fn sync_folder(path: &Path) -> io::Result<()> {
    let folder = path.parent().expect("the path is canonical, of a file");
    File::open(folder)?.sync_all()
}

/// Makes a file if it is missing, and lengthens it with zeros if it is shorter. The lock beside it
/// is waited for: whoever holds it does the same, and is done in a moment.
pub fn grow(path: &Path, length: u64) -> Result<(), Error> {
    let is_long_enough = |about: fs::Metadata| about.len() >= length;
    if fs::metadata(path).is_ok_and(is_long_enough) {
        return Ok(());
    }
    let _lock = Lock::wait(path)?;
    let file = match fs::symlink_metadata(path) {
        Ok(_) => open_in_place(path)?,
        Err(_) => File::create_new(path).map_err(|why| failed(path, why))?,
    };
    // Looked at again: another run may have been here while this one waited.
    let about = file.metadata().map_err(|why| failed(path, why))?;
    if is_long_enough(about) {
        return Ok(());
    }
    let done = file.set_len(length).and_then(|()| file.sync_all());
    done.and_then(|()| sync_folder(path))
        .map_err(|why| failed(path, why))
}

/// The lock beside a file, held until it is dropped or the process dies, however it dies. The lock
/// file itself stays: to remove it would let two runs hold two files of one name.
#[derive(Debug)]
pub struct Lock {
    path: PathBuf,
    file: File,
}

pub fn lock_of(of: &Path) -> PathBuf {
    beside(of, ".lock")
}

/// To be tried again in a moment.
fn busy(path: &Path) -> Error {
    Error::of(Kind::Busy, path, "held by another run: try again")
}

impl Lock {
    /// The lock file's name, if it is not that of a link, which might lead to any file.
    fn path(of: &Path) -> Result<PathBuf, Error> {
        let path = lock_of(of);
        match fs::symlink_metadata(&path).is_ok_and(|about| !about.is_file()) {
            true => Err(Error::file(
                &path,
                "not a regular file, but a lock file goes there",
            )),
            false => Ok(path),
        }
    }

    fn open(of: &Path) -> Result<Lock, Error> {
        let path = Lock::path(of)?;
        let file = File::options()
            .read(true)
            .write(true)
            .create(true)
            .truncate(false)
            .open(&path)
            .map_err(|why| failed(&path, why))?;
        Ok(Lock { path, file })
    }

    fn held(self, tried: Result<(), TryLockError>) -> Result<Lock, Error> {
        match tried {
            Ok(()) => Ok(self),
            Err(TryLockError::WouldBlock) => Err(busy(&self.path)),
            Err(TryLockError::Error(why)) => Err(Error::file(&self.path, why)),
        }
    }

    pub fn take(of: &Path) -> Result<Lock, Error> {
        let lock = Lock::open(of)?;
        let tried = lock.file.try_lock();
        lock.held(tried)
    }

    fn wait(of: &Path) -> Result<Lock, Error> {
        let lock = Lock::open(of)?;
        let done = lock.file.lock();
        done.map_err(|why| Error::file(&lock.path, why))?;
        Ok(lock)
    }

    /// For one who only looks: no lock file is made, and one that is held is busy.
    pub fn look(of: &Path) -> Result<Option<Lock>, Error> {
        let path = Lock::path(of)?;
        let file = match File::open(&path) {
            Err(why) if why.kind() == ErrorKind::NotFound => return Ok(None),
            opened => opened.map_err(|why| failed(&path, why))?,
        };
        let tried = file.try_lock_shared();
        Lock { path, file }.held(tried).map(Some)
    }

    /// What the last holder left in the lock file.
    pub fn remark(&mut self) -> Result<Vec<u8>, Error> {
        let mut bytes = Vec::new();
        let done = self
            .file
            .rewind()
            .and_then(|()| self.file.read_to_end(&mut bytes));
        done.map_err(|why| Error::file(&self.path, why))?;
        Ok(bytes)
    }

    pub fn leave_remark(&mut self, remark: &[u8]) -> Result<(), Error> {
        let file = &mut self.file;
        let done = file
            .set_len(0)
            .and_then(|()| file.rewind())
            .and_then(|()| file.write_all(remark))
            .and_then(|()| file.sync_all())
            // The lock file itself may be new.
            .and_then(|()| sync_folder(&self.path));
        done.map_err(|why| Error::file(&self.path, why))
    }
}
