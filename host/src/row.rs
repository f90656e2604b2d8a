//! A fuse row and its words.
use crate::{Refusal, ROW, WORDS};

/// A word of a row. A burnt one keeps its value for ever. A store of zero is no pulse: it leaves a blank
/// word blank.
///
/// ```
/// use phuyurik::{Row, Word};
/// assert_eq!(Row::default().word(0), Word::Blank);
/// assert_eq!(Word::Burnt(7).value(), 7);
/// ```
#[derive(Clone, Copy, Debug, PartialEq, Eq, Hash)]
pub enum Word {
    /// Not burnt yet; it reads as 0.
    Blank,
    /// Burnt with this value, which is not 0 in any row that is accepted.
    Burnt(u32),
}

impl Word {
    /// What a recipe reads there: 0 if the word is blank.
    ///
    /// ```
    /// use phuyurik::Word;
    /// assert_eq!((Word::Blank.value(), Word::Burnt(7).value()), (0, 7));
    /// ```
    pub const fn value(self) -> u32 {
        match self {
            Word::Blank => 0,
            Word::Burnt(value) => value,
        }
    }

    /// Whether it is burnt.
    ///
    /// ```
    /// use phuyurik::Word;
    /// assert!(Word::Burnt(7).is_burnt() && !Word::Blank.is_burnt());
    /// ```
    pub const fn is_burnt(self) -> bool {
        matches!(self, Word::Burnt(_))
    }
}

/// A fuse row: 64 records of 8 bytes. A blank word is eight zeros; a burnt one its value, which is not
/// zero, in four bytes, little-endian, then 1 and three zeros. Any 512 bytes may stand here: a row with
/// another record is refused by whatever would use it.
///
/// ```
/// use phuyurik::{Row, Word, ROW};
/// let mut bytes = [0; ROW];
/// bytes[8..16].copy_from_slice(&[7, 0, 0, 0, 1, 0, 0, 0]);
/// let row = Row::from(bytes);
/// assert_eq!((row.word(0), row.word(1)), (Word::Blank, Word::Burnt(7)));
/// assert_eq!(Row::try_from(&bytes[..]), Ok(row));
/// ```
#[derive(Clone, Debug, PartialEq, Eq, Hash)]
pub struct Row([u8; ROW]);

impl Row {
    /// Word `k`: burnt where its mark is 1.
    ///
    /// # Panics
    ///
    /// If `k` is above 63.
    ///
    /// ```
    /// assert_eq!(phuyurik::Row::default().word(63), phuyurik::Word::Blank);
    /// ```
    #[track_caller]
    pub fn word(&self, k: usize) -> Word {
        assert!(k < WORDS, "no word {k}: a row has words 0 to 63");
        let record = &self.0[8 * k..8 * k + 8];
        match record[4] {
            1 => Word::Burnt(u32::from_le_bytes([
                record[0], record[1], record[2], record[3],
            ])),
            _ => Word::Blank,
        }
    }

    /// All 64 words.
    ///
    /// ```
    /// use phuyurik::{Row, Word};
    /// let row = Row::default();
    /// assert_eq!(row.words().filter(|word| word.is_burnt()).count(), 0);
    /// ```
    pub fn words(&self) -> impl ExactSizeIterator<Item = Word> + '_ {
        (0..WORDS).map(|k| self.word(k))
    }
}

/// A new part: all words blank.
impl Default for Row {
    fn default() -> Row {
        Row([0; ROW])
    }
}

impl From<[u8; ROW]> for Row {
    fn from(bytes: [u8; ROW]) -> Row {
        Row(bytes)
    }
}

/// Bytes that are not 512 are refused.
impl TryFrom<&[u8]> for Row {
    type Error = Refusal;

    fn try_from(bytes: &[u8]) -> Result<Row, Refusal> {
        bytes.try_into().map(Row).or(Err(Refusal::RowLength))
    }
}

impl AsRef<[u8]> for Row {
    fn as_ref(&self) -> &[u8] {
        &self.0
    }
}

impl AsMut<[u8]> for Row {
    fn as_mut(&mut self) -> &mut [u8] {
        &mut self.0
    }
}

#[cfg(test)]
mod tests {
    use super::*;

    #[test]
    fn words_stand_at_their_places() {
        let mut bytes = [0; ROW];
        for (k, record) in bytes.chunks_exact_mut(8).enumerate() {
            record[..4].copy_from_slice(&(0x0102_0300 + k as u32).to_le_bytes());
            record[4] = (k % 3) as u8;
        }
        let row = Row::from(bytes);
        assert_eq!(row.words().len(), WORDS);
        for (k, word) in row.words().enumerate() {
            let burnt = Word::Burnt(0x0102_0300 + k as u32);
            assert_eq!(word, if k % 3 == 1 { burnt } else { Word::Blank });
            assert_eq!(word, row.word(k));
        }
    }

    #[test]
    fn a_row_has_512_bytes() {
        assert_eq!(Row::try_from(&[0; ROW][..]), Ok(Row::default()));
        for length in [0, 8, ROW - 1, ROW + 1] {
            let refused = Row::try_from(&vec![0; length][..]);
            assert_eq!(refused, Err(Refusal::RowLength));
        }
    }

    #[test]
    #[should_panic(expected = "no word 64: a row has words 0 to 63")]
    fn there_is_no_word_64() {
        Row::default().word(64);
    }
}
