//! `phuyurik list`: an image for people to read, or as the text that `phuyurik assemble` reads.
use super::error::Error;
use super::{image, watch};
use phuyurik::{Refusal, LONGEST_MEMORY};
use std::path::Path;

/// The listing of an image, or of what lies before an address. One that is too long says so itself.
pub fn list(path: &Path, until: Option<usize>) -> Result<String, Error> {
    Listed::of(path, until).map(|listed| listed.listing)
}

/// The text of an image, or of what lies before an address: a line for each instruction, and nothing
/// for what is none.
pub fn text(path: &Path, until: Option<usize>) -> Result<String, Error> {
    let listed = Listed::of(path, until)?;
    listed.has_only_instructions(path)?;
    listed.tell_changes(path)?;
    Ok(listed.lines().map(|line| line.written()).collect())
}

/// What an image has from an address on, before which it has only what `text` lists.
pub fn rest(path: &Path, from: usize) -> Result<Vec<u8>, Error> {
    let listed = Listed::of(path, Some(from))?;
    listed.has_only_instructions(path)?;
    Ok(listed.rest)
}

/// The bytes that are listed, their listing, and the bytes that follow.
struct Listed {
    bytes: Vec<u8>,
    listing: String,
    rest: Vec<u8>,
}

/// A line of a listing.
struct Line<'a> {
    /// 8 hexadecimal digits.
    address: &'a str,
    /// Two hexadecimal digits for each byte, the highest first.
    bits: &'a str,
    /// `?` where the bits are no instruction.
    text: &'a str,
}

impl Line<'_> {
    /// As the assembler reads it.
    fn written(&self) -> String {
        format!("{}\n", self.text)
    }

    /// Whether it gives other bits than it was made from.
    fn is_changed(&self) -> Result<bool, phuyurik::Error> {
        let bytes = phuyurik::assemble(self.written().as_bytes())?;
        let digits = bytes.iter().rev().map(|byte| format!("{byte:02x}"));
        Ok(digits.collect::<String>() != self.bits)
    }
}

impl Listed {
    fn of(path: &Path, until: Option<usize>) -> Result<Listed, Error> {
        let listing =
            |bytes: &[u8]| phuyurik::listing(bytes).map_err(|error| Error::of_library(path, error));
        let mut bytes = image::load(path, None)?.bytes;
        let whole = listing(&bytes)?;
        let Some(until) = until.filter(|_| bytes.len() <= LONGEST_MEMORY) else {
            return Ok(Listed {
                bytes,
                listing: whole,
                rest: Vec::new(),
            });
        };
        if until > bytes.len() {
            let (path, length) = (path.display(), bytes.len());
            let why = format!("--until {until}: {path} has only {length} bytes");
            return Err(Error::Usage(why));
        }
        let rest = bytes.split_off(until);
        let listing = listing(&bytes)?;
        match whole.starts_with(&listing) {
            true => Ok(Listed {
                bytes,
                listing,
                rest,
            }),
            // What is cut off is listed as something else.
            false => Err(Error::Usage(format!(
                "--until {until}: an instruction begins before that address and ends after it"
            ))),
        }
    }

    fn lines(&self) -> impl Iterator<Item = Line<'_>> {
        self.listing.lines().filter_map(|line| {
            let (address, rest) = line.split_once(' ')?;
            let (bits, text) = rest.split_once(' ')?;
            Some(Line {
                address,
                bits,
                text,
            })
        })
    }

    fn has_only_instructions(&self, path: &Path) -> Result<(), Error> {
        let path = path.to_path_buf();
        if self.bytes.len() > LONGEST_MEMORY {
            return Err(Error::Refused(path, Refusal::MemoryTooLong));
        }
        let Some(none) = self.lines().find(|line| line.text == "?") else {
            return Ok(());
        };
        let why = format!(
            "{} at 0x{}; --until ADDRESS takes only what lies before ADDRESS",
            none.bits, none.address
        );
        Err(Error::RefusedFor(path, Refusal::NoInstruction, why))
    }

    /// Data that looks like instructions must not change unseen.
    fn tell_changes(&self, path: &Path) -> Result<(), Error> {
        let mut changed = Vec::new();
        for line in self.lines() {
            let is_changed = line.is_changed();
            if is_changed.map_err(|error| Error::of_library(path, error))? {
                changed.push(line.address);
            }
        }
        if let Some(first) = changed.first() {
            let (path, number) = (path.display(), changed.len());
            watch::note(&format!(
                "{path}: lines that give other bits than are there, the smallest halfword with the \
                 same meaning: {number}, the first for 0x{first}. If that is data, use --until ADDRESS"
            ));
        }
        Ok(())
    }
}
