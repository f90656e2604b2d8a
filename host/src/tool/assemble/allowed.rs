//! What may stand in the place of a number that is not allowed there: the library is asked.
use phuyurik::Error;

/// More than any number that is allowed anywhere.
const TOO_MUCH: i64 = 1 << 32;

/// What may help with the number at this byte of a readable line.
pub fn note(line: &[u8], byte: usize) -> String {
    let place = Place::of(line, byte);
    let plain = plain(place.number);
    match plain.as_bytes() != place.number && place.allows(&plain) {
        true => format!(
            "written `{plain}`: no number begins with a zero, but for 0 itself, which has no minus"
        ),
        false => place.range(),
    }
}

/// The number without zeros in front of it, and 0 without a minus.
fn plain(number: &[u8]) -> String {
    let text = String::from_utf8_lossy(number);
    let (minus, digits) = match text.strip_prefix('-') {
        Some(digits) => ("-", digits),
        None => ("", &*text),
    };
    match digits.trim_start_matches('0') {
        "" => "0".to_string(),
        digits => format!("{minus}{digits}"),
    }
}

/// Where a number stands in a line.
struct Place<'a> {
    front: &'a [u8],
    number: &'a [u8],
    back: &'a [u8],
}

impl Place<'_> {
    fn of(line: &[u8], byte: usize) -> Place<'_> {
        let (front, rest) = line.split_at(byte);
        let is_in_number = |byte: &&u8| matches!(byte, b'-' | b'0'..=b'9');
        let (number, back) = rest.split_at(rest.iter().take_while(is_in_number).count());
        Place {
            front,
            number,
            back,
        }
    }

    /// Whether a number may stand here, whatever is wrong with those after it.
    fn allows(&self, number: impl ToString) -> bool {
        let number = number.to_string();
        let line = [self.front, number.as_bytes(), self.back, b"\n"].concat();
        let here = self.front.len();
        let is_here = |error| matches!(error, Error::Line { byte, .. } if byte == here);
        !phuyurik::assemble(&line).is_err_and(is_here)
    }

    fn range(&self) -> String {
        let (step, kind) = match self.allows(1) {
            true => (1, "numbers"),
            false => (2, "even numbers"),
        };
        let (low, high) = (self.furthest(-step), self.furthest(step));
        match self.front.ends_with(b"x") {
            true => format!("registers are x{low} to x{high}"),
            false => format!("{kind} from {low} to {high} are allowed here"),
        }
    }

    /// The number furthest from 0, which is allowed everywhere, in steps of this.
    fn furthest(&self, step: i64) -> i64 {
        let (mut allowed, mut refused) = (0, TOO_MUCH);
        while refused - allowed > 1 {
            let middle = (allowed + refused) / 2;
            match self.allows(middle * step) {
                true => allowed = middle,
                false => refused = middle,
            }
        }
        allowed * step
    }
}

#[cfg(test)]
mod tests {
    use super::*;
    use phuyurik::{Operation, Refusal};

    /// The operands of an operation, as the manual has them: `i` stands for its number and `x` for a
    /// register, and what its number may be, with the least step between two.
    fn operands(operation: &str) -> (&'static str, i64, i64, i64) {
        match operation {
            "lui" | "auipc" => (" x,i", 0, 1_048_575, 1),
            "jal" => (" x,i", -1_048_576, 1_048_574, 2),
            "beq" | "bne" | "blt" | "bge" | "bltu" | "bgeu" => (" x,x,i", -4096, 4094, 2),
            "jalr" | "lb" | "lh" | "lw" | "lbu" | "lhu" | "sb" | "sh" | "sw" => {
                (" x,i(x)", -2048, 2047, 1)
            }
            "addi" | "slti" | "sltiu" | "xori" | "ori" | "andi" => (" x,x,i", -2048, 2047, 1),
            "slli" | "srli" | "srai" => (" x,x,i", 0, 31, 1),
            "fence" => (" x,x,i", 0, 4095, 1),
            "ecall" | "ebreak" => ("", 0, 0, 1),
            _ => (" x,x,x", 0, 31, 1),
        }
    }

    /// The line with this number in one place and 0 in all others, and that place.
    fn with_number(shape: &str, at: usize, number: i64) -> (String, usize) {
        let (front, rest) = shape.split_at(at);
        let plain = |part: &str| part.replace('x', "x0").replace('i', "0");
        let front = match rest.starts_with('x') {
            true => plain(front) + "x",
            false => plain(front),
        };
        let line = format!("{front}{number}{}", plain(&rest[1..]));
        (line, front.len())
    }

    fn noted(line: &str, byte: usize) -> String {
        let error = Error::Line {
            refusal: Refusal::NumberNotAllowed,
            line: 0,
            byte,
        };
        let assembled = phuyurik::assemble(format!("{line}\n").as_bytes());
        assert_eq!(assembled, Err(error), "{line}");
        note(line.as_bytes(), byte)
    }

    #[test]
    fn every_place_of_every_operation_says_what_it_allows() {
        let mut places = 0;
        for operation in Operation::ALL.iter().map(|operation| operation.words()) {
            let (shape, low, high, step) = operands(operation);
            for (at, operand) in shape.char_indices() {
                let kind = if step == 2 { "even numbers" } else { "numbers" };
                let (low, high, step, words) = match operand {
                    'x' => (0, 31, 1, "registers are x0 to x31".to_string()),
                    'i' => {
                        let words = format!("{kind} from {low} to {high} are allowed here");
                        (low, high, step, words)
                    }
                    _ => continue,
                };
                let line = |number| {
                    let (operands, byte) = with_number(shape, at, number);
                    (format!("{operation}{operands}"), operation.len() + byte)
                };
                for number in [low, low + step, high - step, high] {
                    let line = line(number).0 + "\n";
                    assert!(phuyurik::assemble(line.as_bytes()).is_ok(), "{line}");
                }
                let below = (operand == 'i').then_some(low - step);
                let odd = (step == 2).then_some(high - 1);
                for number in [high + step, high + 1].into_iter().chain(below).chain(odd) {
                    let (line, byte) = line(number);
                    assert_eq!(noted(&line, byte), words, "{line}");
                }
                places += 1;
            }
        }
        // But for ecall and ebreak every operation has three, and lui, auipc and jal two.
        assert_eq!(places, 3 * 43 + 2 * 3);
    }

    #[test]
    fn numbers_after_it_may_be_wrong_too() {
        let registers = "registers are x0 to x31";
        assert_eq!(noted("addi x32,x32,99999", 6), registers);
        assert_eq!(noted("c:addi x32,x0,0", 8), registers);
        let offsets = "even numbers from -4096 to 4094 are allowed here";
        assert_eq!(noted("beq x0,x0,99999999999999999999", 10), offsets);
    }

    #[test]
    fn a_number_that_is_only_written_wrong_has_its_right_spelling() {
        let words = "no number begins with a zero, but for 0 itself, which has no minus";
        for (wrong, right) in [
            ("007", "7"),
            ("-0", "0"),
            ("-07", "-7"),
            ("00", "0"),
            ("-000", "0"),
            ("-02048", "-2048"),
        ] {
            let told = noted(&format!("addi x5,x0,{wrong}"), 11);
            assert_eq!(told, format!("written `{right}`: {words}"));
        }
        let told = noted("sw x05,0(x32)", 4);
        assert_eq!(told, format!("written `5`: {words}"));
        // Written right they would be wrong still.
        let numbers = "numbers from -2048 to 2047 are allowed here";
        assert_eq!(noted("addi x5,x0,02048", 11), numbers);
        assert_eq!(noted("addi x5,x0,-02049", 11), numbers);
        assert_eq!(noted("addi x032,x0,7", 6), "registers are x0 to x31");
    }
}
