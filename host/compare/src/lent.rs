//! Buffers as they are lent to the proved emulator: at any alignment, between bytes that must stay.

use crate::tally::Difference;

const EDGE: usize = 16;
const FILL: u8 = 0xa5;

pub struct Lent {
    bytes: Vec<u8>,
    start: usize,
}

impl Lent {
    /// The content, moved by up to 7 bytes from its natural place.
    pub fn new(content: &[u8], shift: usize) -> Lent {
        let start = EDGE + shift % 8;
        let mut bytes = vec![FILL; start + content.len() + EDGE];
        bytes[start..start + content.len()].copy_from_slice(content);
        Lent { bytes, start }
    }

    pub fn content(&mut self) -> &mut [u8] {
        let end = self.bytes.len() - EDGE;
        &mut self.bytes[self.start..end]
    }

    /// The content, if the bytes around it are as they were.
    pub fn back(mut self) -> Result<Vec<u8>, Difference> {
        let end = self.bytes.len() - EDGE;
        let around = self.bytes[..self.start].iter().chain(&self.bytes[end..]);
        if around.into_iter().any(|byte| *byte != FILL) {
            let what = "phuyurik wrote outside of a buffer that it was lent";
            return Err(Difference(what.to_string()));
        }
        self.bytes.truncate(end);
        self.bytes.drain(..self.start);
        Ok(self.bytes)
    }
}

#[cfg(test)]
mod tests {
    use super::*;

    #[test]
    fn content_comes_back_unless_a_byte_around_it_changed() {
        let mut lent = Lent::new(&[1, 2, 3], 5);
        lent.content()[1] = 7;
        assert_eq!(lent.back().ok(), Some(vec![1, 7, 3]));
        for place in [20, 24] {
            let mut lent = Lent::new(&[1, 2, 3], 5);
            lent.bytes[place] = 0;
            assert!(lent.back().is_err());
        }
    }
}
