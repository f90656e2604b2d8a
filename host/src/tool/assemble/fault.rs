//! A line that was refused, told as compilers do: the place, what is wrong, the line, and a caret
//! under the byte; then what may help.
use super::{allowed, unreadable};
use phuyurik::Refusal;

/// So much of a line is shown on each side of the caret, in columns.
const SIDE: usize = 38;

/// As the library tells it: line and byte are counted from 0.
#[derive(Clone, Copy, Debug)]
pub struct Fault {
    pub refusal: Refusal,
    pub line: usize,
    pub byte: usize,
}

impl Fault {
    /// People count lines and columns from 1.
    pub fn told(&self, name: &str, text: &[u8]) -> String {
        let mut lines = text.split(|byte| *byte == b'\n');
        let line = lines.nth(self.line).unwrap_or_default();
        let has_newline = lines.next().is_some();
        let (line_number, column) = (self.line + 1, self.byte + 1);
        let (number, words) = (self.refusal.number(), self.refusal.words());
        let mut told = format!("{name}:{line_number}:{column}: {number} {words}\n");
        told += &pointed_at(line, self.byte);
        let note = match self.refusal {
            Refusal::Unreadable => unreadable::note(line, self.byte, has_newline),
            Refusal::NumberNotAllowed => allowed::note(line, self.byte),
            Refusal::NoShortLine => {
                "without `c:` it has 4 bytes instead of 2, and what follows moves".to_string()
            }
            _ => return told,
        };
        told + &format!("note: {note}\n")
    }
}

/// The line, cut on both sides where it is long, and a caret under the byte.
fn pointed_at(line: &[u8], byte: usize) -> String {
    let (front, back) = line.split_at(byte);
    let from = front.len() - fitting(front.iter().rev());
    let to = fitting(back.iter());
    let dots = |is_cut: bool| if is_cut { "..." } else { "" };
    let before = format!("{}{}", dots(from > 0), shown(&front[from..]));
    let after = format!("{}{}", shown(&back[..to]), dots(to < back.len()));
    format!("{before}{after}\n{}^\n", " ".repeat(before.len()))
}

/// How many of these bytes fit on one side.
fn fitting<'a>(bytes: impl Iterator<Item = &'a u8>) -> usize {
    let mut columns = 0;
    bytes
        .take_while(|byte| {
            columns += shown(&[**byte]).len();
            columns <= SIDE
        })
        .count()
}

/// As it is, but for what a terminal does not show as it is.
fn shown(bytes: &[u8]) -> String {
    let one = |byte: &u8| match byte {
        b' '..=b'~' => char::from(*byte).to_string(),
        _ => byte.escape_ascii().to_string(),
    };
    bytes.iter().map(one).collect()
}

#[cfg(test)]
mod tests {
    use super::*;

    fn told(text: &[u8]) -> String {
        match phuyurik::assemble(text) {
            Err(phuyurik::Error::Line {
                refusal,
                line,
                byte,
            }) => {
                let fault = Fault {
                    refusal,
                    line,
                    byte,
                };
                fault.told("night.s", text)
            }
            other => panic!("{other:?}"),
        }
    }

    /// A place and the lines that follow it.
    fn is_told(text: &[u8], place: &str, lines: &[&str]) {
        let lines = lines.join("\n");
        assert_eq!(told(text), format!("night.s:{place}\n{lines}\n"));
    }

    #[test]
    fn a_place_is_pointed_at() {
        is_told(
            b"ecall\nsw x5,0(x6)\naddi x5,x0,99999\n",
            "3:12: 11 a number or offset not allowed",
            &[
                "addi x5,x0,99999",
                "           ^",
                "note: numbers from -2048 to 2047 are allowed here",
            ],
        );
        is_told(
            b"c:addi x5,x6,7\n",
            "1:1: 12 `c:` without a short form",
            &[
                "c:addi x5,x6,7",
                "^",
                "note: without `c:` it has 4 bytes instead of 2, and what follows moves",
            ],
        );
    }

    /// What stands after the caret's line, for a text of one line that is unreadable at this column.
    fn is_noted(text: &[u8], column: usize, note: &str) {
        let told = told(text);
        let place = format!("night.s:1:{column}: 10 unreadable\n");
        assert!(told.starts_with(&place), "{told}");
        assert!(told.ends_with(&format!("^\nnote: {note}\n")), "{told}");
    }

    #[test]
    fn what_is_expected_is_said() {
        let an_instruction = "expected an instruction, such as `addi x5,x0,7`";
        is_noted(b"nop\n", 1, an_instruction);
        is_noted(b"li x5,7\n", 2, "expected `b`, `h`, `u` or `w`");
        is_noted(b"addi t0,x0,7\n", 6, "expected `x`");
        is_noted(b"addi x5, x0,7\n", 9, "expected `x`");
        is_noted(
            b"addi x5,x0,0x7\n",
            13,
            "expected a digit or the line's end",
        );
        is_noted(b"addi x5,x0,x7\n", 12, "expected `-` or a digit");
        is_noted(b"addi\tx5,x0,7\n", 5, "expected a space");
        is_noted(b"ecall done\n", 6, "expected the line's end");
        let letters = "`a`, `b`, `d`, `e`, `f`, `j`, `l`, `m`, `o`, `r`, `s` or `x`";
        is_noted(b"c: ebreak\n", 3, &format!("expected {letters}"));
    }

    #[test]
    fn the_commonest_slips_have_words_of_their_own() {
        for text in [
            &b"ecall"[..],
            b"addi x5,x0,7",
            b"c:ebreak",
            b"addi x5,x0,99999",
        ] {
            let note = "the last line has no newline at its end";
            is_noted(text, text.len() + 1, note);
        }
        let early = "the line ends early: expected `,` or a digit";
        is_noted(b"addi x5", 8, early);
        is_noted(b"addi x5\n", 8, early);
        is_noted(
            b"\necall\n",
            1,
            "an empty line: every line has an instruction",
        );
        let crlf = "the line ends with CR LF: leave every CR out, as tr -d '\\r' does";
        is_noted(b"ecall\r\necall\r\n", 6, crlf);
        is_noted(b"addi x5\r\n", 8, crlf);
        let listed = "with address and bits, as `phuyurik list` has it: `phuyurik list --text` \
                      leaves them out";
        is_noted(b"00000000 429d c:addi x5,x0,7\n", 1, listed);
        is_noted(b"0000000a 00000073 ecall\n", 1, listed);
    }

    #[test]
    fn what_editors_write_besides_the_text_is_named() {
        let mark = "a byte order mark: save the text without one, as plain ASCII";
        is_noted(b"\xEF\xBB\xBFecall\n", 1, mark);
        let utf_16 = "a text in UTF-16, as it seems: save it as plain ASCII";
        is_noted(b"\xFF\xFEe\0c\0a\0l\0l\0\n\0", 1, utf_16);
        is_noted(b"\xFE\xFF\0e\0c\0a\0l\0l\0\n", 1, utf_16);
        is_noted(b"e\0c\0a\0l\0l\0\n\0", 2, utf_16);
        is_noted(b"\0e\0c\0a\0l\0l\0\n", 1, utf_16);
        let cr = "a CR without a newline: every line ends with a newline alone";
        is_noted(b"ecall\r", 6, cr);
        is_noted(b"ecall\recall\r", 6, cr);
        is_noted(b"ecall\recall\n", 6, cr);
    }

    #[test]
    fn what_only_other_assemblers_read_is_named() {
        let note = "comments, directives, labels and blanks in front are not read: the lines are \
                    those of `phuyurik list --text`";
        for (text, column) in [
            ("# The paper's recipe", 1),
            ("        .equ    STEP, 3", 1),
            (".equ STEP, 3", 1),
            ("next:", 1),
            ("next:   lhu x5,0(x6)", 1),
            ("add:", 4),
            ("\tecall", 1),
            (" ecall", 1),
            ("ecall # done", 6),
            ("ecall; done", 6),
            ("addi x5,x0,7 // seven", 13),
        ] {
            is_noted(format!("{text}\n").as_bytes(), column, note);
        }
    }

    #[test]
    fn bytes_that_a_terminal_does_not_show_are_spelled_out() {
        let shown = |text: &[u8]| {
            told(text)
                .lines()
                .skip(1)
                .take(2)
                .collect::<Vec<_>>()
                .join("|")
        };
        assert_eq!(shown(b"ecall\r\n"), "ecall\\r|     ^");
        assert_eq!(shown(b"\xc3\xa9call\n"), "\\xc3\\xa9call|^");
        assert_eq!(shown(b"add\x1b[2J\n"), "add\\x1b[2J|   ^");
        // Only what can be read stands before the caret.
        assert_eq!(shown(b"ecall\t\x00\x7f~\n"), "ecall\\t\\x00\\x7f~|     ^");
    }

    #[test]
    fn a_long_line_is_cut_around_the_caret() {
        let (nines, escapes) = ("9".repeat(50), "\x1b".repeat(50));
        let shown = |text: String| told(text.as_bytes()).lines().nth(1).map(str::to_string);
        let (front, back) = ("9".repeat(SIDE), "\\x1b".repeat(SIDE / 4));
        let cut = format!("...{front}{back}...");
        assert_eq!(
            shown(format!("addi x5,x0,{nines}{escapes}\n")),
            Some(cut.clone())
        );
        let column = 12 + nines.len();
        is_told(
            format!("addi x5,x0,{nines}{escapes}\n").as_bytes(),
            &format!("1:{column}: 10 unreadable"),
            &[
                &cut,
                &format!("{}^", " ".repeat(3 + SIDE)),
                "note: expected a digit or the line's end",
            ],
        );
        // As long as fits, and one byte more.
        let whole = format!("ecall{}", "#".repeat(SIDE));
        assert_eq!(shown(format!("{whole}\n")), Some(whole.clone()));
        assert_eq!(shown(format!("{whole}#\n")), Some(format!("{whole}...")));
    }
}
