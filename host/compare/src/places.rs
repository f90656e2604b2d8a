//! Where the refusals of lines lie: which kinds of places the comparison has come to.

use second::{refusal, Fault};

/// A kind of place of a refused line. Its first byte, and the first line, come by themselves.
#[derive(Clone, Copy, Debug, PartialEq, Eq)]
pub enum Place {
    UnreadableWithin,
    UnreadableAtEnd,
    LaterNumber,
    LaterLine,
}

impl Place {
    pub const ALL: [Place; 4] = [
        Place::UnreadableWithin,
        Place::UnreadableAtEnd,
        Place::LaterNumber,
        Place::LaterLine,
    ];

    pub fn words(self) -> &'static str {
        match self {
            Place::UnreadableWithin => "10 within a line",
            Place::UnreadableAtEnd => "10 at the text's end",
            Place::LaterNumber => "11 after the first number",
            Place::LaterLine => "a line after the first",
        }
    }

    /// Whether a text's refusal lies at such a place.
    pub fn holds(self, text: &[u8], fault: Fault) -> bool {
        let Some((line, byte)) = fault.place else {
            return false;
        };
        let mut lines = text.split_inclusive(|byte| *byte == b'\n');
        let line_text = lines.nth(line).unwrap_or_default();
        let (before, at) = (line_text.get(..byte), line_text.get(byte));
        match self {
            Place::UnreadableWithin => {
                fault.number == refusal::UNREADABLE && byte > 0 && at.is_some()
            }
            Place::UnreadableAtEnd => fault.number == refusal::UNREADABLE && at.is_none(),
            Place::LaterNumber => {
                let digits = before.map(|before| before.iter().any(u8::is_ascii_digit));
                fault.number == refusal::NUMBER && digits == Some(true)
            }
            Place::LaterLine => line > 0,
        }
    }
}

#[cfg(test)]
mod tests {
    use super::*;

    #[test]
    fn places_are_told_apart() {
        let of = |text: &str| {
            let fault = second::assemble(text.as_bytes(), &mut [0; 64]).unwrap_err();
            let holds = |place: &Place| place.holds(text.as_bytes(), fault);
            Place::ALL.into_iter().filter(holds).collect::<Vec<_>>()
        };
        assert_eq!(of("?\n"), []);
        assert_eq!(of("ecal\n"), [Place::UnreadableWithin]);
        assert_eq!(of("ecall"), [Place::UnreadableAtEnd]);
        assert_eq!(of("lui x32,1\n"), []);
        assert_eq!(of("lui x31,-1\n"), [Place::LaterNumber]);
        assert_eq!(of("ecall\n?\n"), [Place::LaterLine]);
        assert_eq!(of("c:ecall\n"), []);
    }
}
