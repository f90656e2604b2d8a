//! Why a line cannot be read from a byte on, and what may stand there.
use phuyurik::Refusal;

/// What may help where a line, which its newline follows or not, cannot be read from this byte on.
pub fn note(line: &[u8], byte: usize, has_newline: bool) -> String {
    let (front, rest) = line.split_at(byte);
    let note = match rest {
        // A newline that could stand there does not: the text is over.
        [] if can_follow(front, b'\n') => "the last line has no newline at its end",
        [] if front.is_empty() => "an empty line: every line has an instruction",
        [] => return format!("the line ends early: expected {}", expected(front)),
        b"\r" if has_newline => "the line ends with CR LF: leave every CR out, as tr -d '\\r' does",
        [b'\r', ..] => "a CR without a newline: every line ends with a newline alone",
        [0xEF, 0xBB, 0xBF, ..] => "a byte order mark: save the text without one, as plain ASCII",
        [0xFF, 0xFE, ..] | [0xFE, 0xFF, ..] | [0, ..] => {
            "a text in UTF-16, as it seems: save it as plain ASCII"
        }
        _ if is_listed(line) => {
            "with address and bits, as `phuyurik list` has it: `phuyurik list --text` leaves them out"
        }
        _ if is_source(line, rest) => {
            "comments, directives, labels and blanks in front are not read: the lines are those of \
             `phuyurik list --text`"
        }
        _ => return format!("expected {}", expected(front)),
    };
    note.to_string()
}

/// Whether it has what only the assembler of a compiler reads.
fn is_source(line: &[u8], rest: &[u8]) -> bool {
    let label = line.split(u8::is_ascii_whitespace).next();
    let has_label = label.is_some_and(|word| word.ends_with(b":") && word != b"c:");
    let is_indented = matches!(line, [b' ' | b'\t' | b'.', ..]);
    let is_comment = matches!(rest.trim_ascii_start(), [b'#' | b';' | b'/', ..]);
    has_label || is_indented || is_comment
}

/// Whether an address and bits stand in front.
fn is_listed(line: &[u8]) -> bool {
    let is_hex = |field: &[u8]| field.iter().all(u8::is_ascii_hexdigit);
    let fields: Vec<&[u8]> = line.splitn(3, |byte| *byte == b' ').collect();
    match fields[..] {
        [address, bits, _] => address.len() == 8 && is_hex(address) && is_hex(bits),
        _ => false,
    }
}

/// Whether a readable line may go on so: the library is asked.
fn can_follow(front: &[u8], next: u8) -> bool {
    let is_at_next = |error: phuyurik::Error| match error {
        phuyurik::Error::Line { refusal, byte, .. } => {
            refusal == Refusal::Unreadable && byte == front.len()
        }
        _ => false,
    };
    !phuyurik::assemble(&[front, &[next]].concat()).is_err_and(is_at_next)
}

/// What a readable line may go on with, in words.
fn expected(front: &[u8]) -> String {
    if front.is_empty() {
        return "an instruction, such as `addi x5,x0,7`".to_string();
    }
    let word = |byte: u8| match byte {
        b'\n' => Some("the line's end".to_string()),
        b' ' => Some("a space".to_string()),
        b'0' => Some("a digit".to_string()),
        b'1'..=b'9' => None,
        _ => Some(format!("`{}`", char::from(byte))),
    };
    let bytes = (b' '..=b'~').chain([b'\n']);
    let words: Vec<String> = bytes
        .filter(|byte| can_follow(front, *byte))
        .filter_map(word)
        .collect();
    match words.split_last() {
        Some((last, [])) => last.clone(),
        Some((last, others)) => format!("{} or {last}", others.join(", ")),
        None => "nothing".to_string(),
    }
}
