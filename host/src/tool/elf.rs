//! ELF files, as a compiler's linker leaves them. A recipe has no loader and no system below it, so
//! one kind will do: 32 bits, little-endian, RISC-V, linked to fixed addresses, its entry at 0.
use std::fmt;

/// No recipe is taken for one: as an instruction these bytes are longer than 32 bits, and illegal.
pub const MAGIC: &[u8] = b"\x7fELF";
const HEADER: usize = 52;
const PROGRAM_HEADER: usize = 32;

const OBJECT: u64 = 1;
const EXECUTABLE: u64 = 2;
const POSITION_INDEPENDENT: u64 = 3;

const LOAD: u64 = 1;
const DYNAMIC: u64 = 2;
const INTERPRETER: u64 = 3;

const FLOAT_REGISTERS: u64 = 6;

/// Fields of the header that can have one value only: place, width, value, and what it is otherwise.
const NEEDED: [(usize, usize, u64, &str); 6] = [
    (5, 1, 1, "not little-endian"),
    (18, 2, 243, "not for RISC-V"),
    (4, 1, 1, "not of 32 bits: -march=rv32imc -mabi=ilp32"),
    (6, 1, 1, "of no known version"),
    (20, 4, 1, "of no known version"),
    (
        42,
        2,
        32,
        "with program headers that have not 32 bytes each",
    ),
];

pub fn is_elf(file: &[u8]) -> bool {
    file.starts_with(MAGIC)
}

/// A number of at most 32 bits, so that sums of them never overflow.
fn number(bytes: &[u8], at: usize, width: usize) -> u64 {
    let bytes = bytes[at..at + width].iter().rev();
    bytes.fold(0, |number, byte| number << 8 | u64::from(*byte))
}

/// The bytes of a file from a place on, if they are all there.
fn part(file: &[u8], from: u64, length: u64) -> Option<&[u8]> {
    file.get(from as usize..(from + length) as usize)
}

/// What goes into memory: bytes of the file, and zeros after them. It is not empty.
#[derive(Debug)]
pub struct Segment<'a> {
    /// Its place among the program headers, from 0, as `readelf -l` counts.
    index: usize,
    start: u64,
    end: u64,
    /// The address that its code has been linked for.
    linked: u64,
    bytes: &'a [u8],
}

impl fmt::Display for Segment<'_> {
    fn fmt(&self, f: &mut fmt::Formatter) -> fmt::Result {
        let (index, start, last) = (self.index, self.start, self.end - 1);
        write!(f, "segment {index} (0x{start:08x} to 0x{last:08x})")
    }
}

/// The segments of a file, in the order of their addresses; no two overlap, and the first is at 0.
#[derive(Debug)]
pub struct Elf<'a>(Vec<Segment<'a>>);

impl<'a> Elf<'a> {
    /// Why a file will not do is said in words that go on after its name.
    pub fn read(file: &'a [u8]) -> Result<Elf<'a>, String> {
        let mut segments = Vec::new();
        for (index, header) in program_headers(file)?
            .chunks_exact(PROGRAM_HEADER)
            .enumerate()
        {
            match number(header, 0, 4) {
                LOAD => segments.extend(segment(file, index, header)?),
                DYNAMIC => return Err("it is to be linked when it is loaded: -static".to_string()),
                INTERPRETER => return Err("it asks for an interpreter: -static".to_string()),
                _ => {}
            }
        }
        segments.sort_by_key(|segment| segment.start);
        for pair in segments.windows(2) {
            if pair[1].start < pair[0].end {
                return Err(format!("{} overlaps {}", pair[1], pair[0]));
            }
        }
        match segments.first() {
            None => Err("an ELF file with nothing to load".to_string()),
            // An entry of 0 can also mean that there is none.
            Some(first) if first.start != 0 => Err(format!(
                "{first} is the first, and a recipe begins at address 0"
            )),
            Some(first) if first.linked != 0 => Err(format!(
                "{first} has been linked for 0x{:08x}, and a recipe begins at address 0",
                first.linked
            )),
            _ => Ok(Elf(segments)),
        }
    }

    /// A segment that does not lie within so many bytes from address 0.
    pub fn outside(&self, room: usize) -> Option<&Segment<'a>> {
        self.0.iter().find(|segment| segment.end > room as u64)
    }

    /// Memory from address 0 to the highest end, which the caller has held to a bound.
    pub fn image(&self) -> Vec<u8> {
        let mut image = Vec::new();
        for segment in &self.0 {
            image.resize(segment.start as usize, 0);
            image.extend(segment.bytes);
            image.resize(segment.end as usize, 0);
        }
        image
    }
}

/// The program headers of a file whose header is in order.
fn program_headers(file: &[u8]) -> Result<&[u8], String> {
    let Some(header) = file.get(..HEADER) else {
        return Err("an ELF file whose header is cut off".to_string());
    };
    for (at, width, needed, otherwise) in NEEDED {
        if number(header, at, width) != needed {
            return Err(format!("an ELF file {otherwise}"));
        }
    }
    match number(header, 16, 2) {
        EXECUTABLE => {}
        OBJECT => return Err("an object file: link it first".to_string()),
        POSITION_INDEPENDENT => {
            return Err("a shared or position-independent ELF file: -static -no-pie".to_string())
        }
        other => return Err(format!("an ELF file of type {other}, not an executable")),
    }
    if number(header, 36, 4) & FLOAT_REGISTERS != 0 {
        return Err("it passes numbers in float registers: -mabi=ilp32".to_string());
    }
    let entry = number(header, 24, 4);
    if entry != 0 {
        return Err(format!("its entry is 0x{entry:08x}: a recipe begins at 0"));
    }
    let length = number(header, 44, 2) * PROGRAM_HEADER as u64;
    part(file, number(header, 28, 4), length)
        .ok_or_else(|| "an ELF file whose program headers are cut off".to_string())
}

/// What a program header asks to be loaded, if that is anything.
fn segment<'a>(file: &'a [u8], index: usize, header: &[u8]) -> Result<Option<Segment<'a>>, String> {
    let [from, linked, start, stored, size] = [4, 8, 12, 16, 20].map(|at| number(header, at, 4));
    if stored > size {
        return Err(format!(
            "segment {index} at 0x{start:08x} has {stored} bytes in the file, but {size} in memory"
        ));
    }
    if size == 0 {
        return Ok(None);
    }
    let segment = Segment {
        index,
        start,
        end: start + size,
        linked,
        bytes: part(file, from, stored).unwrap_or_default(),
    };
    match segment.bytes.len() as u64 == stored {
        true => Ok(Some(segment)),
        false => Err(format!("{segment} is cut off in the file")),
    }
}

#[cfg(test)]
pub mod tests {
    use super::*;
    use testing::Random;

    const ATTRIBUTES: u32 = 0x7000_0003;
    /// Where program header `n` is in a file of these tests, which all have three.
    const fn header(n: usize) -> usize {
        HEADER + n * PROGRAM_HEADER
    }

    pub fn put(file: &mut [u8], at: usize, word: u32) {
        file[at..at + 4].copy_from_slice(&word.to_le_bytes());
    }

    /// Eight bytes at 0; four at 0x20, with eight zeros after them.
    pub fn good() -> Vec<u8> {
        let mut file = vec![0; header(3)];
        file[..7].copy_from_slice(b"\x7fELF\x01\x01\x01");
        for (at, word) in [
            (16, 243 << 16 | 2),
            (20, 1),
            (28, HEADER as u32),
            (36, 1),
            (40, 32 << 16 | 52),
            (44, 3),
        ] {
            put(&mut file, at, word);
        }
        for (n, words) in [
            [1, header(3) as u32, 0, 0, 8, 8],
            [ATTRIBUTES, 0, 0, 0, 52, 0],
            [1, header(3) as u32 + 8, 0x20, 0x20, 4, 12],
        ]
        .iter()
        .enumerate()
        {
            for (field, word) in words.iter().enumerate() {
                put(&mut file, header(n) + 4 * field, *word);
            }
        }
        file.extend(1..=12);
        file
    }

    /// The good file with some words put in.
    fn refused(words: &[(usize, u32)], reasons: &[&str]) {
        let mut file = good();
        for (at, word) in words {
            put(&mut file, *at, *word);
        }
        let why = Elf::read(&file).expect_err(reasons[0]);
        for reason in reasons {
            assert!(why.contains(reason), "{why}, not {reason}");
        }
    }

    #[test]
    fn segments_are_placed_with_zeros_between_and_after() {
        let file = good();
        let image = Elf::read(&file).expect("good").image();
        let mut expected = vec![0; 0x2c];
        expected[..8].copy_from_slice(&[1, 2, 3, 4, 5, 6, 7, 8]);
        expected[0x20..0x24].copy_from_slice(&[9, 10, 11, 12]);
        assert_eq!(image, expected);
    }

    #[test]
    fn a_segment_is_placed_at_its_physical_address_in_whatever_order() {
        let mut file = good();
        put(&mut file, header(2) + 8, 0x400);
        let (first, last) = (header(0), header(2));
        let [code, data] = [first, last].map(|at| file[at..at + PROGRAM_HEADER].to_vec());
        file[first..first + PROGRAM_HEADER].copy_from_slice(&data);
        file[last..last + PROGRAM_HEADER].copy_from_slice(&code);
        let image = Elf::read(&file).expect("good").image();
        assert_eq!(image, Elf::read(&good()).expect("good").image());
    }

    #[test]
    fn what_lies_outside_is_told() {
        let file = good();
        let elf = Elf::read(&file).expect("good");
        assert!(elf.outside(0x2c).is_none());
        let outside = elf.outside(0x2b).expect("one byte too little").to_string();
        assert_eq!(outside, "segment 2 (0x00000020 to 0x0000002b)");
        let outside = elf.outside(7).expect("one byte too little").to_string();
        assert_eq!(outside, "segment 0 (0x00000000 to 0x00000007)");
    }

    /// Class, order, version, type, machine, version, entry and the length of a program header.
    #[test]
    fn a_byte_that_can_have_one_value_has_no_other() {
        for at in [4, 5, 6].into_iter().chain(16..28).chain([42, 43]) {
            for change in 1..=255 {
                let mut file = good();
                file[at] ^= change;
                assert!(Elf::read(&file).is_err(), "byte {at} changed by {change}");
            }
        }
        for flags in 0..=255 {
            let mut file = good();
            file[36] = flags;
            let floats = flags & 2 != 0 || flags & 4 != 0;
            assert_eq!(Elf::read(&file).is_err(), floats, "flags {flags}");
        }
    }

    #[test]
    fn other_files_are_refused_with_the_reason() {
        refused(&[(4, 0x0001_0102)], &["not of 32 bits", "-march=rv32imc"]);
        refused(&[(4, 0x0001_0201)], &["not little-endian"]);
        refused(&[(16, 0x003e_0002)], &["not for RISC-V"]);
        refused(&[(16, 0x00f3_0001)], &["object file", "link it"]);
        refused(&[(16, 0x00f3_0003)], &["position-independent"]);
        refused(&[(16, 0x00f3_0004)], &["type 4"]);
        refused(&[(24, 0x0001_0074)], &["entry is 0x00010074"]);
        refused(&[(36, 5)], &["float registers"]);
        refused(&[(44, 0)], &["nothing to load"]);
        for cut in [u32::MAX, good().len() as u32 - 95] {
            refused(&[(28, cut)], &["program headers are cut off"]);
        }
        refused(&[(44, 0xffff)], &["program headers are cut off"]);
        refused(&[(header(1), 2)], &["linked when it is loaded"]);
        refused(&[(header(1), 3)], &["interpreter"]);
    }

    #[test]
    fn wrong_segments_are_refused_with_the_reason() {
        let [code, data] = [header(0), header(2)];
        let first = "segment 0 (0x00000000 to 0x00000007)";
        refused(
            &[(data + 12, 7)],
            &["segment 2 (0x00000007 to 0x00000012) overlaps", first],
        );
        refused(&[(data + 12, 0)], &["overlaps"]);
        refused(&[(code + 20, 0x21)], &["overlaps"]);
        refused(&[(code + 20, u32::MAX)], &["overlaps"]);
        for from in [header(3) as u32 + 9, u32::MAX] {
            refused(
                &[(data + 4, from)],
                &["segment 2 (0x00000020 to 0x0000002b) is cut off in the file"],
            );
        }
        refused(&[(data + 20, 3)], &["segment 2 at 0x00000020", "but 3 in"]);
        refused(&[(data + 20, 0)], &["segment 2 at 0x00000020", "but 0 in"]);
        refused(
            &[(code + 12, 0x10)],
            &["segment 0 (0x00000010 to 0x00000017) is the first"],
        );
        refused(&[(code + 8, 0x400)], &[first, "linked for 0x00000400"]);
    }

    #[test]
    fn segments_may_touch_or_be_empty() {
        let mut file = good();
        put(&mut file, header(2) + 12, 8);
        let image = Elf::read(&file).expect("good").image();
        let expected: Vec<u8> = (1..=12).chain([0; 8]).collect();
        assert_eq!(image, expected);
        // An empty segment may be anywhere.
        for (field, word) in [(4, u32::MAX), (12, 3), (16, 0), (20, 0)] {
            put(&mut file, header(2) + field, word);
        }
        let image = Elf::read(&file).expect("good").image();
        assert_eq!(image, [1, 2, 3, 4, 5, 6, 7, 8]);
    }

    #[test]
    fn a_file_that_is_cut_off_anywhere_is_refused() {
        let file = good();
        for length in 0..file.len() {
            let why = Elf::read(&file[..length]).expect_err("cut off");
            assert!(why.contains("cut off"), "{length}: {why}");
        }
    }

    /// The loads of a file, from what its program headers say: place in the file, address, lengths.
    fn loads(file: &[u8]) -> Vec<[usize; 4]> {
        let word = |at: usize| u32::from_le_bytes(file[at..at + 4].try_into().expect("4 bytes"));
        let (at, count) = (word(28) as usize, word(44) as usize & 0xffff);
        let headers = (0..count).map(|n| at + 32 * n);
        let loaded = headers.filter(|at| word(*at) == 1);
        loaded
            .map(|at| [4, 12, 16, 20].map(|field| word(at + field) as usize))
            .filter(|[_, _, _, size]| *size != 0)
            .collect()
    }

    #[test]
    fn damage_is_refused_or_placed_as_the_headers_say() {
        let mut random = Random::new(52);
        let (mut placed, mut refused) = (0, 0);
        for _ in 0..200_000 {
            let mut file = good();
            for _ in 0..random.length(1, 6) {
                let at = random.length(0, file.len() - 1);
                let any = random.word() as u8;
                file[at] = random.pick(&[0, 1, 2, 8, 0x20, 0x80, 0xff, any]);
            }
            file.truncate(random.length(file.len() - 2, file.len()));
            let Ok(elf) = Elf::read(&file) else {
                refused += 1;
                continue;
            };
            if elf.outside(0x1_0000).is_some() {
                let end = |[_, start, _, size]: &[usize; 4]| start + size;
                assert!(loads(&file).iter().map(end).any(|end| end > 0x1_0000));
                continue;
            }
            placed += 1;
            let mut image = elf.image();
            for [from, start, stored, size] in loads(&file) {
                let found: Vec<u8> = image.splice(start..start + size, vec![0; size]).collect();
                let bytes: Vec<u8> = file.iter().copied().skip(from).take(stored).collect();
                assert_eq!(found[..stored], bytes);
                assert_eq!(found[stored..], vec![0; size - stored]);
            }
            // What no header asks for is zero.
            assert_eq!(image, vec![0; image.len()]);
        }
        assert!(placed > 1_000 && refused > 1_000, "{placed}, {refused}");
    }
}
