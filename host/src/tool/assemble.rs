//! `phuyurik assemble`: the instructions of a text, as an image. Nothing is written unless all of the
//! text is right.
mod allowed;
mod fault;
mod target;
mod unreadable;

use super::args::{Assembly, Onto, STANDARD_INPUT};
use super::error::Error;
use super::image::LONGEST_FILE;
use super::ways::typed;
use super::{files, listing, watch};
use fault::Fault;
use phuyurik::{Refusal, LONGEST_MEMORY};
use std::cmp::Ordering;
use std::fs::{File, Metadata};
use std::os::fd::AsFd;
use std::path::{Path, PathBuf};
use target::Target;

pub fn assemble(order: &Assembly) -> Result<String, Error> {
    let text = Text::read(&order.text)?;
    let code = text.assembled()?;
    let target = Target::of(&order.image)?;
    if code.is_empty() && !may_be_empty(order, &text, &target) {
        return Err(Error::file(&text.name, "empty: nothing was written"));
    }
    let lines = text.bytes.iter().filter(|byte| **byte == b'\n').count();
    let (length, lines) = (count(code.len(), "byte"), count(lines, "instruction"));
    let mut told = format!("{length}, {lines}");
    let mut image = code;
    if let Some(onto) = &order.onto {
        let rest = kept_rest(onto, &text, image.len())?;
        let (length, old) = (count(rest.len(), "byte"), onto.old.display());
        told += &format!(", then {length} of {old}");
        image.extend(rest);
    }
    if image.len() > LONGEST_MEMORY {
        let refusal = Refusal::MemoryTooLong;
        return Err(Error::Refused(order.image.clone(), refusal));
    }
    let old = order.onto.as_ref().map(|onto| &*onto.old);
    target.is_free(&text.about, old)?;
    let now = image.len();
    if let Some(aside) = target.write(image)? {
        let (path, aside) = (typed::name(&target.path), typed::name(&aside));
        told += &format!("; what {path} was is kept as {aside}");
    }
    if order.onto.is_none() {
        tell_shorter(&target, now);
    }
    Ok(told + "\n")
}

fn count(number: usize, of: &str) -> String {
    match number {
        1 => format!("1 {of}"),
        many => format!("{many} {of}s"),
    }
}

/// A text that the command before a pipe, or an editor, could not write is empty, too.
fn may_be_empty(order: &Assembly, text: &Text, target: &Target) -> bool {
    let is_file = order.text != Path::new(STANDARD_INPUT) && text.about.is_file();
    is_file && order.onto.is_none() && target.before.unwrap_or(0) == 0
}

/// What follows the instructions that are replaced: by as many bytes, or what follows would be
/// overwritten, or old instructions would be left before it.
fn kept_rest(onto: &Onto, text: &Text, length: usize) -> Result<Vec<u8>, Error> {
    let Onto { old, until } = onto;
    let rest = listing::rest(old, *until)?;
    let (much, name) = (length.abs_diff(*until), text.name.display());
    let which = match length.cmp(until) {
        Ordering::Equal => return Ok(rest),
        Ordering::Less => "few",
        Ordering::Greater => "many",
    };
    let why = format!("--until {until}: {name} gives {length} bytes, {much} too {which}");
    Err(Error::Usage(why))
}

/// Data that followed the instructions may have been forgotten.
fn tell_shorter(target: &Target, now: usize) {
    if let Some(before) = target.before.filter(|before| *before > now as u64) {
        let path = typed::name(&target.path);
        watch::note(&format!(
            "{path}: {before} bytes before, {now} now; --onto keeps what follows the instructions"
        ));
    }
}

/// What is to be assembled.
struct Text {
    /// Where it was read, for people.
    name: PathBuf,
    about: Metadata,
    bytes: Vec<u8>,
}

impl Text {
    fn read(path: &Path) -> Result<Text, Error> {
        let (name, opened) = match path == Path::new(STANDARD_INPUT) {
            true => {
                let own = std::io::stdin().as_fd().try_clone_to_owned();
                (Path::new("standard input"), own.map(File::from))
            }
            false => (path, File::open(path)),
        };
        let file = opened.map_err(|why| files::failed(name, why))?;
        let about = file.metadata().map_err(|why| files::failed(name, why))?;
        let bytes = files::read_opened(name, file, LONGEST_FILE + 1)?;
        if bytes.len() > LONGEST_FILE {
            let why = format!("a text of more than {LONGEST_FILE} bytes");
            return Err(Error::file(name, why));
        }
        let name = name.to_path_buf();
        Ok(Text { name, about, bytes })
    }

    fn assembled(&self) -> Result<Vec<u8>, Error> {
        phuyurik::assemble(&self.bytes).map_err(|error| match error {
            phuyurik::Error::Line {
                refusal,
                line,
                byte,
            } => {
                let fault = Fault {
                    refusal,
                    line,
                    byte,
                };
                let name = self.name.display().to_string();
                Error::Line(refusal, fault.told(&name, &self.bytes))
            }
            other => Error::of_library(&self.name, other),
        })
    }
}
