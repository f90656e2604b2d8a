//! What an emulator says of single instructions, held to the outside vectors.
use crate::vectors::{lines, smallest_halves, vectors, Numbers};

const NO_INSTRUCTION: u32 = 7;
const NO_SHORT_FORM: u32 = 9;
const UNREADABLE: u32 = 10;

/// A refusal of a text: its number, and the line and the byte that it tells, if it does.
pub type Fault = (u32, Option<(usize, usize)>);

/// An emulator's functions on instructions; a refusal is its number.
pub struct Codes {
    pub decode: fn(u32) -> Result<Numbers, u32>,
    pub encode: fn(Numbers) -> Result<u32, u32>,
    pub expand: fn(u16) -> Result<Numbers, u32>,
    pub shorten: fn(Numbers) -> Result<u16, u32>,
    pub text_of_word: fn(u32) -> Result<String, u32>,
    pub text_of_half: fn(u16) -> Result<String, u32>,
    pub assemble: fn(&[u8]) -> Result<Vec<u8>, Fault>,
}

impl Codes {
    /// Every word decodes to what its text says, which encodes to the word again and shortens to the
    /// smallest halfword that the list has for it.
    pub fn hold_words(&self) {
        let all = vectors();
        assert_eq!(all.len(), 34_823);
        let smallest = smallest_halves(&all);
        for v in &all {
            let Some(numbers) = v.meant else {
                assert_eq!((self.decode)(v.word), Err(NO_INSTRUCTION), "{:08x}", v.word);
                continue;
            };
            assert_eq!((self.decode)(v.word), Ok(numbers), "{:08x}", v.word);
            assert_eq!((self.encode)(numbers), Ok(v.word), "{}", v.text);
            let half = smallest.get(&v.word).copied().ok_or(NO_SHORT_FORM);
            assert_eq!((self.shorten)(numbers), half, "{}", v.text);
        }
    }

    /// Every halfword of the list expands to what its text says; every other is illegal.
    pub fn hold_halves(&self) {
        let mut expected = vec![Err(NO_INSTRUCTION); 65_536];
        for v in vectors() {
            if let (Some(half), Some(numbers)) = (v.half, v.meant) {
                expected[usize::from(half)] = Ok(numbers);
            }
        }
        assert_eq!(expected.iter().filter(|e| e.is_ok()).count(), 28_823);
        for (bits, meant) in (0..=u16::MAX).zip(expected) {
            assert_eq!((self.expand)(bits), meant, "{bits:04x}");
        }
    }

    /// The texts are those of the list, with `c:` before that of a halfword.
    pub fn hold_texts(&self) {
        for v in vectors() {
            let text = v.meant.map(|_| v.text.clone()).ok_or(NO_INSTRUCTION);
            assert_eq!((self.text_of_word)(v.word), text, "{:08x}", v.word);
            if let Some(half) = v.half {
                let text = format!("c:{}", v.text);
                assert_eq!((self.text_of_half)(half), Ok(text), "{half:04x}");
            }
        }
    }
    /// Every text of the list, read back, gives its own bits; what stands for illegal bits is refused.
    pub fn hold_lines(&self) {
        let lines = lines();
        // each halfword's text with `c:` and without, and the 6,000 words but for 3,205 illegal ones
        assert_eq!(lines.len(), 2 * 28_823 + 2_795);
        for (line, bytes) in lines {
            assert_eq!((self.assemble)(line.as_bytes()), Ok(bytes), "{line}");
        }
        let refused = Err((UNREADABLE, Some((0, 0))));
        assert_eq!((self.assemble)(b"?\n"), refused);
    }
}
