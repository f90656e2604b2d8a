//! Sets of words of a row: whose they are.
use crate::WORDS;
use std::fmt;
use std::ops::{BitAnd, BitOr};
use std::str::FromStr;

/// A set of words of a row, as the mask that the C interface takes: bit k, 0 the lowest, is set if word k
/// is in it. As a text it is a list of words and ranges, `none` or `all`; a mask in hexadecimal is read,
/// too.
///
/// ```
/// use phuyurik::Words;
/// let words: Words = "0-31,40".parse()?;
/// assert_eq!(words, Words::from(0x0000_0100_FFFF_FFFF));
/// assert_eq!(words, Words::span(0, 31) | Words::span(40, 40));
/// assert_eq!(words.to_string(), "0-31,40");
/// assert_eq!("0x10000000001".parse::<Words>()?.to_string(), "0,40");
/// assert_eq!((Words::NONE.to_string(), Words::ALL.to_string()), ("none".into(), "all".into()));
/// let error = "0-31,64".parse::<Words>().unwrap_err();
/// assert_eq!(error.to_string(), "no word \"64\": a row has words 0 to 63");
/// # Ok::<(), phuyurik::UnreadableWords>(())
/// ```
#[derive(Clone, Copy, PartialEq, Eq, Hash)]
pub struct Words(u64);

impl Words {
    /// All 64 words.
    ///
    /// ```
    /// assert_eq!(phuyurik::Words::ALL.mask(), u64::MAX);
    /// ```
    pub const ALL: Words = Words(u64::MAX);
    /// No word.
    ///
    /// ```
    /// assert!(phuyurik::Words::NONE.is_empty());
    /// ```
    pub const NONE: Words = Words(0);

    /// The words from the first to the last, both included, as `phuyurik_words` has them in C: those
    /// above 63 do not count, and if the first is above the last there is none.
    ///
    /// ```
    /// use phuyurik::Words;
    /// assert_eq!(Words::span(0, 3).mask(), 0b1111);
    /// assert_eq!((Words::span(0, 99), Words::span(5, 3)), (Words::ALL, Words::NONE));
    /// ```
    pub const fn span(first: usize, last: usize) -> Words {
        if first > last || first >= WORDS {
            return Words::NONE;
        }
        let highest = if last < WORDS { last } else { WORDS - 1 };
        Words((u64::MAX >> (WORDS - 1 - highest)) & (u64::MAX << first))
    }

    /// The mask: bit k is set if word k is in the set; `from` leads back.
    ///
    /// ```
    /// use phuyurik::Words;
    /// assert_eq!(Words::from(Words::span(4, 7).mask()), Words::from(0xF0));
    /// ```
    pub const fn mask(self) -> u64 {
        self.0
    }

    /// Whether word `k` is in the set; there is none above 63.
    ///
    /// ```
    /// use phuyurik::Words;
    /// assert!(Words::span(4, 7).contains(7) && !Words::ALL.contains(64));
    /// ```
    pub const fn contains(self, k: usize) -> bool {
        k < WORDS && self.0 >> k & 1 == 1
    }

    /// Whether it has no word.
    ///
    /// ```
    /// use phuyurik::Words;
    /// assert!((Words::span(0, 31) & Words::span(32, 63)).is_empty());
    /// ```
    pub const fn is_empty(self) -> bool {
        self.0 == 0
    }

    /// The words, in rising order.
    ///
    /// ```
    /// use phuyurik::Words;
    /// assert!(Words::from(0b1010_0001).iter().eq([0, 5, 7]));
    /// ```
    pub fn iter(self) -> impl Iterator<Item = usize> {
        (0..WORDS).filter(move |k| self.contains(*k))
    }
}

impl From<u64> for Words {
    fn from(mask: u64) -> Words {
        Words(mask)
    }
}

/// The words of both sets.
impl BitAnd for Words {
    type Output = Words;

    fn bitand(self, other: Words) -> Words {
        Words(self.0 & other.0)
    }
}

/// The words of either set.
impl BitOr for Words {
    type Output = Words;

    fn bitor(self, other: Words) -> Words {
        Words(self.0 | other.0)
    }
}

/// As people write them: `0-31,40`.
impl fmt::Display for Words {
    fn fmt(&self, f: &mut fmt::Formatter) -> fmt::Result {
        let text = match *self {
            Words::NONE => "none".to_string(),
            Words::ALL => "all".to_string(),
            some => list(some),
        };
        f.pad(&text)
    }
}

fn list(words: Words) -> String {
    let mut ranges: Vec<(usize, usize)> = Vec::new();
    for k in words.iter() {
        match ranges.last_mut() {
            Some((_, last)) if *last + 1 == k => *last = k,
            _ => ranges.push((k, k)),
        }
    }
    let text = |(first, last): &(usize, usize)| match first == last {
        true => first.to_string(),
        false => format!("{first}-{last}"),
    };
    ranges.iter().map(text).collect::<Vec<_>>().join(",")
}

impl fmt::Debug for Words {
    fn fmt(&self, f: &mut fmt::Formatter) -> fmt::Result {
        write!(f, "Words({self})")
    }
}

/// `all`, `none`, a mask such as `0x00ff`, or a list such as `0-31,40`, in any order, that names no word
/// twice.
impl FromStr for Words {
    type Err = UnreadableWords;

    fn from_str(text: &str) -> Result<Words, UnreadableWords> {
        match (text, text.strip_prefix("0x")) {
            ("all", _) => Ok(Words::ALL),
            ("none", _) => Ok(Words::NONE),
            (_, Some(digits)) => of_digits(digits).ok_or(Fault::Mask.of(text)),
            _ => text.split(',').try_fold(Words::NONE, with_range),
        }
    }
}

/// A sign would be read as part of a number, too.
fn of_digits(digits: &str) -> Option<Words> {
    let is_plain = digits.len() <= 16 && digits.bytes().all(|byte| byte.is_ascii_hexdigit());
    let mask = u64::from_str_radix(digits, 16).ok();
    mask.filter(|_| is_plain).map(Words)
}

fn with_range(words: Words, text: &str) -> Result<Words, UnreadableWords> {
    let (first, last) = text.split_once('-').unwrap_or((text, text));
    let (first, last) = (word(first)?, word(last)?);
    let range = Words::span(first, last);
    if range.is_empty() {
        return Err(Fault::Backwards.of(text));
    }
    match (words & range).iter().next() {
        Some(k) => Err(Fault::Twice.of(&k.to_string())),
        None => Ok(words | range),
    }
}

fn word(text: &str) -> Result<usize, UnreadableWords> {
    let is_plain = text.bytes().all(|byte| byte.is_ascii_digit());
    let number = text.parse().ok().filter(|k| is_plain && *k < WORDS);
    number.ok_or(Fault::Word.of(text))
}

/// Why a text is no set of words; what is at fault is told.
///
/// ```
/// use phuyurik::Words;
/// let told = |text: &str| text.parse::<Words>().unwrap_err().to_string();
/// assert_eq!(told("1,,2"), "no word \"\": a row has words 0 to 63");
/// assert_eq!(told("5-3"), "\"5-3\": the last word of a range is below the first");
/// assert_eq!(told("0-31,30"), "word 30 is named twice");
/// assert_eq!(told("0x"), "\"0x\": a mask is 0x and 1 to 16 hexadecimal digits");
/// ```
#[derive(Clone, Debug, PartialEq, Eq, Hash)]
pub struct UnreadableWords {
    fault: Fault,
    text: String,
}

#[derive(Clone, Copy, Debug, PartialEq, Eq, Hash)]
enum Fault {
    Word,
    Backwards,
    Twice,
    Mask,
}

impl Fault {
    fn of(self, text: &str) -> UnreadableWords {
        let text = text.to_string();
        UnreadableWords { fault: self, text }
    }
}

impl fmt::Display for UnreadableWords {
    fn fmt(&self, f: &mut fmt::Formatter) -> fmt::Result {
        let text = &self.text;
        match self.fault {
            Fault::Word => write!(f, "no word {text:?}: a row has words 0 to {}", WORDS - 1),
            Fault::Backwards => {
                write!(f, "{text:?}: the last word of a range is below the first")
            }
            Fault::Twice => write!(f, "word {text} is named twice"),
            Fault::Mask => write!(f, "{text:?}: a mask is 0x and 1 to 16 hexadecimal digits"),
        }
    }
}

impl std::error::Error for UnreadableWords {}

/// Whose the words of a row are, where two recipes take turns on it: a run's own, and the other's. A
/// load or store at a word that is not its own stops with [`Stop::NotOwned`](crate::Stop::NotOwned).
/// Masks that share a word are refused with [`Refusal::MasksShare`](crate::Refusal::MasksShare). A word
/// may be of neither.
///
/// ```
/// use phuyurik::{Masks, Words};
/// let masks = Masks { own: Words::span(0, 31), other: Words::span(32, 63) };
/// assert_eq!(masks.swapped(), Masks { own: masks.other, other: masks.own });
/// assert!(masks.shared().is_empty());
/// ```
#[derive(Clone, Copy, Debug, PartialEq, Eq, Hash)]
pub struct Masks {
    /// The words that a run may load and store.
    pub own: Words,
    /// The words of the other recipe.
    pub other: Words,
}

impl Masks {
    /// Those of the other recipe's runs.
    ///
    /// ```
    /// use phuyurik::{Masks, Words};
    /// assert_eq!(Masks::default().swapped().own, Words::NONE);
    /// ```
    pub const fn swapped(self) -> Masks {
        Masks {
            own: self.other,
            other: self.own,
        }
    }

    /// The words that are in both, for which they are refused.
    ///
    /// ```
    /// use phuyurik::{Masks, Words};
    /// let masks = Masks { own: Words::span(0, 40), other: Words::span(32, 63) };
    /// assert_eq!(masks.shared(), Words::span(32, 40));
    /// ```
    pub fn shared(self) -> Words {
        self.own & self.other
    }
}

/// Those of a run that has the row for itself: all words are its own.
impl Default for Masks {
    fn default() -> Masks {
        Masks {
            own: Words::ALL,
            other: Words::NONE,
        }
    }
}

#[cfg(test)]
mod tests {
    use super::*;

    fn read(text: &str) -> Result<u64, String> {
        let words = text.parse().map(Words::mask);
        words.map_err(|why: UnreadableWords| why.to_string())
    }

    #[test]
    fn lists_ranges_and_masks_are_read() {
        let good = [
            ("0", 1),
            ("63", 1 << 63),
            ("0-63", u64::MAX),
            ("0-31", 0xFFFF_FFFF),
            ("5-5", 32),
            ("7,0-2", 0b1000_0111),
            ("40,0,3-4", 1 << 40 | 0b11001),
            ("07", 128),
            ("all", u64::MAX),
            ("none", 0),
            ("0x0", 0),
            ("0xff", 255),
            ("0xFF00", 0xFF00),
            ("0xffffffffffffffff", u64::MAX),
            ("0x0000000000000001", 1),
        ];
        for (text, mask) in good {
            assert_eq!(read(text), Ok(mask), "{text}");
        }
    }

    const WORD: &str = "no word";
    const MASK: &str = "a mask is";

    /// A text that is no list, and words of its fault.
    const BAD: [(&str, &str); 35] = [
        ("", WORD),
        (",", WORD),
        ("1,,2", WORD),
        ("1,", WORD),
        (",1", WORD),
        ("64", WORD),
        ("0-64", WORD),
        ("18446744073709551616", WORD),
        ("-", WORD),
        ("-3", WORD),
        ("3-", WORD),
        ("1-2-3", WORD),
        ("+3", WORD),
        ("0-+3", WORD),
        ("0 - 3", WORD),
        ("0-3, 5", WORD),
        ("ALL", WORD),
        ("all,3", WORD),
        ("3,none", WORD),
        ("3,0x4", WORD),
        ("0X4", WORD),
        ("x4", WORD),
        ("٣", WORD),
        ("5-3", "below the first"),
        ("0,63-62", "below the first"),
        ("3,3", "word 3 is named twice"),
        ("0-31,30-40", "word 30 is named twice"),
        ("30-40,0-31", "word 30 is named twice"),
        ("0x", MASK),
        ("0x+4", MASK),
        ("0x-4", MASK),
        ("0xg", MASK),
        ("0x1,2", MASK),
        ("0x10000000000000000", MASK),
        ("0x00000000000000001", MASK),
    ];

    #[test]
    fn what_is_no_list_is_told_with_its_fault() {
        for (text, fault) in BAD {
            let told = read(text).expect_err(text);
            assert!(told.contains(fault), "{text:?}: {told}");
        }
    }

    /// Every span, and masks of all kinds: what is written is read back, and short.
    #[test]
    fn what_is_written_is_read_back() {
        for (first, last) in (0..64).flat_map(|first| (first..64).map(move |last| (first, last))) {
            let bits = (first..=last).fold(0_u64, |mask, k| mask | 1 << k);
            assert_eq!(Words::span(first, last).mask(), bits);
            assert_eq!(read(&Words(bits).to_string()), Ok(bits));
        }
        let mut random = testing::Random::new(6);
        for _ in 0..1000 {
            let mask = random.number() & random.number();
            assert_eq!(read(&Words(mask).to_string()), Ok(mask));
        }
        assert_eq!(Words(0b1011_0111).to_string(), "0-2,4-5,7");
        assert_eq!(Words(!(1 << 63)).to_string(), "0-62");
        assert_eq!(format!("{:?}", Words(3)), "Words(0-1)");
        assert_eq!(
            format!("{:>6}|{:<6}|", Words(3), Words::ALL),
            "   0-1|all   |"
        );
    }

    #[test]
    fn spans_beyond_the_row_are_cut() {
        for (first, last, mask) in [
            (0, 64, u64::MAX),
            (63, usize::MAX, 1 << 63),
            (64, 64, 0),
            (usize::MAX, usize::MAX, 0),
            (1, 0, 0),
            (64, 0, 0),
        ] {
            assert_eq!(Words::span(first, last).mask(), mask, "{first}-{last}");
        }
    }
}
