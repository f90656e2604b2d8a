//! A recipe's image, raw or from an ELF file, and the memory that it starts in.
use super::elf::{self, Elf};
use super::error::Error;
use super::files;
use phuyurik::LONGEST_MEMORY;
use std::path::Path;

/// An ELF file with everything for a debugger in it is well below this, and so is any text.
pub const LONGEST_FILE: usize = 16 << 20;

#[derive(Debug)]
pub struct Image {
    /// From address 0 on, as the file has it.
    pub bytes: Vec<u8>,
    /// The same with zeros after it, as many as were asked for.
    pub memory: Vec<u8>,
}

pub fn load(path: &Path, memory: Option<usize>) -> Result<Image, Error> {
    // Read once: what is read may be a pipe.
    let mut bytes = files::read(path, LONGEST_FILE + 1)?;
    if elf::is_elf(&bytes) {
        bytes = image_of_elf(path, &bytes, memory)?;
    }
    // One byte more than a memory may have: the library refuses it, whatever length was asked for.
    bytes.truncate(LONGEST_MEMORY + 1);
    let length = memory.unwrap_or(bytes.len());
    if length < bytes.len() && bytes.len() <= LONGEST_MEMORY {
        let why = format!(", whose image has {} bytes", bytes.len());
        return Err(too_little(length, path, &why));
    }
    let mut memory = bytes.clone();
    memory.resize(length.clamp(bytes.len(), LONGEST_MEMORY + 1), 0);
    Ok(Image { bytes, memory })
}

fn too_little(memory: usize, path: &Path, why: &str) -> Error {
    let path = path.display();
    Error::Usage(format!("--memory {memory} is too little for {path}{why}"))
}

fn image_of_elf(path: &Path, file: &[u8], memory: Option<usize>) -> Result<Vec<u8>, Error> {
    if file.len() > LONGEST_FILE {
        let why = format!("an ELF file of more than {LONGEST_FILE} bytes: strip it");
        return Err(Error::file(path, why));
    }
    let elf = Elf::read(file).map_err(|why| Error::file(path, why))?;
    if let Some(segment) = elf.outside(LONGEST_MEMORY) {
        let why = format!("{segment} lies outside the longest memory, {LONGEST_MEMORY} bytes");
        return Err(Error::file(path, why));
    }
    let room = memory.unwrap_or(LONGEST_MEMORY);
    match elf.outside(room) {
        Some(segment) => Err(too_little(room, path, &format!(": {segment} lies outside"))),
        None => Ok(elf.image()),
    }
}

#[cfg(test)]
mod tests {
    use super::super::elf::tests::{good, put};
    use super::*;
    use std::fs::File;
    use testing::Folder;

    const RAW: [u8; 4] = [0x73, 0, 0, 0];
    /// Where the good file has the address of its second segment.
    const DATA_ADDRESS: usize = 52 + 2 * 32 + 12;

    fn loaded(file: &[u8], memory: Option<usize>) -> Result<Image, Error> {
        let folder = Folder::new();
        load(&folder.write("recipe", file), memory)
    }

    fn refused(file: &[u8], memory: Option<usize>) -> Error {
        loaded(file, memory).expect_err("refused")
    }

    /// A wrong use of `--memory`, and not a wrong file.
    fn is_usage(error: Error, words: &[&str]) {
        let text = error.to_string();
        assert!(matches!(error, Error::Usage(_)), "{text}");
        assert!(words.iter().all(|word| text.contains(word)), "{text}");
    }

    fn is_of_file(error: Error, words: &[&str]) {
        let text = error.to_string();
        assert!(!matches!(error, Error::Usage(_)), "{text}");
        assert!(words.iter().all(|word| text.contains(word)), "{text}");
    }

    #[test]
    fn a_raw_image_is_taken_as_it_is_and_padded() {
        let image = loaded(&RAW, None).expect("loaded");
        assert_eq!((&image.bytes[..], &image.memory[..]), (&RAW[..], &RAW[..]));
        for memory in [4, 5, LONGEST_MEMORY] {
            let image = loaded(&RAW, Some(memory)).expect("loaded");
            assert_eq!(image.bytes, RAW);
            assert_eq!(image.memory.len(), memory);
            assert_eq!(image.memory[..4], RAW);
            assert!(image.memory[4..].iter().all(|byte| *byte == 0));
        }
        assert_eq!(loaded(&[], Some(2)).expect("loaded").memory, [0, 0]);
        // Not quite the first bytes of an ELF file.
        let image = loaded(b"\x7fELf", None).expect("loaded");
        assert_eq!(image.bytes, b"\x7fELf");
    }

    #[test]
    fn less_memory_than_the_image_is_wrong_usage() {
        for memory in [0, 3] {
            let number = format!("--memory {memory} is too little for ");
            let words = [&*number, "recipe, whose image has 4 bytes"];
            is_usage(refused(&RAW, Some(memory)), &words);
        }
    }

    #[test]
    fn what_is_too_long_is_left_to_the_library() {
        for length in [LONGEST_MEMORY + 1, 2 * LONGEST_MEMORY] {
            for memory in [None, Some(100), Some(LONGEST_MEMORY), Some(usize::MAX)] {
                let image = loaded(&vec![1; length], memory).expect("loaded");
                assert_eq!(image.bytes, vec![1; LONGEST_MEMORY + 1]);
                assert_eq!(image.memory, image.bytes);
            }
        }
        for memory in [LONGEST_MEMORY + 1, usize::MAX] {
            for file in [&RAW[..], &good()] {
                let image = loaded(file, Some(memory)).expect("loaded");
                assert_eq!(image.memory.len(), LONGEST_MEMORY + 1);
            }
        }
    }

    #[test]
    fn an_elf_file_is_known_by_its_first_bytes() {
        let image = loaded(&good(), Some(0x30)).expect("loaded");
        assert_eq!((image.bytes.len(), image.memory.len()), (0x2c, 0x30));
        assert_eq!(image.bytes[..8], [1, 2, 3, 4, 5, 6, 7, 8]);
        assert_eq!(image.memory[..0x2c], image.bytes);
        is_of_file(refused(&good()[..40], None), &["header is cut off"]);
    }

    #[test]
    fn a_segment_outside_is_named() {
        is_usage(
            refused(&good(), Some(0x2b)),
            &["--memory 43 ", "segment 2 (0x00000020 to 0x0000002b)"],
        );
        let mut file = good();
        put(&mut file, DATA_ADDRESS, 0x1_0000 - 12);
        let image = loaded(&file, None).expect("it just fits");
        assert_eq!(image.bytes.len(), LONGEST_MEMORY);
        put(&mut file, DATA_ADDRESS, 0x1_0000 - 11);
        for memory in [None, Some(100), Some(usize::MAX)] {
            let words = ["segment 2 (0x0000fff5 to 0x00010000)", "65536"];
            is_of_file(refused(&file, memory), &words);
        }
        put(&mut file, DATA_ADDRESS, u32::MAX);
        let words = ["segment 2 (0xffffffff to 0x10000000a)"];
        is_of_file(refused(&file, None), &words);
    }

    #[test]
    fn a_very_long_elf_file_is_refused_and_not_cut() {
        let folder = Folder::new();
        let path = folder.write("recipe", &good());
        let file = File::options().write(true).open(&path).expect("opened");
        file.set_len(LONGEST_FILE as u64).expect("grown");
        assert_eq!(load(&path, None).expect("loaded").bytes.len(), 0x2c);
        file.set_len(LONGEST_FILE as u64 + 1).expect("grown");
        is_of_file(load(&path, None).expect_err("refused"), &["strip it"]);
    }
}
