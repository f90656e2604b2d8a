//! The proved program `assemble_stdin`, with a text as its standard input. What is expected is the
//! paper's and the outside vectors'.
use std::fs::{File, OpenOptions};
use std::iter;
use std::path::Path;
use std::process::Command;
use testing::example::{IMAGE, LINES};
use testing::Folder;

/// The longest text that the program takes.
const LONGEST: usize = 65_536;

/// The program, where `rt ci` and `rt run` leave what they proved and built.
fn program() -> Command {
    let folder = Path::new(env!("CARGO_MANIFEST_DIR")).join("../crates/assemble_stdin");
    let program = folder.join("out/assemble_stdin");
    assert!(
        program.exists(),
        "missing; make it: (cd crates/assemble_stdin && rt run </dev/null)"
    );
    Command::new(program)
}

/// What the program writes for a text: standard output, and standard error.
fn written(text: &[u8]) -> (Vec<u8>, String) {
    let folder = Folder::new();
    let input = File::open(folder.write("text", text)).expect("there");
    let output = program().stdin(input).output().expect("the program runs");
    assert!(output.status.success(), "{output:?}");
    let error = String::from_utf8(output.stderr).expect("text");
    (output.stdout, error)
}

fn check_accepted(text: &str, bytes: &[u8]) {
    let (output, error) = written(text.as_bytes());
    assert_eq!(error, "");
    assert!(output == bytes, "the text that begins with {text:.80}");
}

/// Nothing but this line is written.
fn check_refused(text: &str, line: &str) {
    assert_eq!(written(text.as_bytes()), (vec![], format!("{line}\n")));
}

#[test]
fn the_papers_lines_give_the_papers_bytes() {
    check_accepted(LINES, &IMAGE);
    check_accepted("", &[]);
}

#[test]
fn every_text_of_the_vectors_is_read_back() {
    let mut portions: Vec<(String, Vec<u8>)> = Vec::new();
    for (line, bytes) in testing::lines() {
        if portions
            .last()
            .is_none_or(|(text, _)| text.len() + line.len() > LONGEST)
        {
            portions.push((String::new(), Vec::new()));
        }
        let (text, all) = portions.last_mut().expect("there is one");
        text.push_str(&line);
        all.extend(bytes);
    }
    for (text, bytes) in portions {
        check_accepted(&text, &bytes);
    }
}

#[test]
fn a_refusal_is_its_number_and_nothing_else() {
    // ? is no line; -1 is no field of lui; ecall has no short form
    for (line, number) in [("?\n", "10"), ("lui x6,-1\n", "11"), ("c:ecall\n", "12")] {
        check_refused(line, number);
        check_refused(&format!("{LINES}{line}"), number);
        check_refused(&format!("{line}{LINES}"), number);
    }
    check_refused("ecall", "10");
}

/// So many lines of `ecall`, 6 bytes each, and of `ebreak`, 7 bytes each, and their code.
fn calls_and_breaks(calls: usize, breaks: usize) -> (String, Vec<u8>) {
    let text = "ecall\n".repeat(calls) + &"ebreak\n".repeat(breaks);
    let words = iter::repeat_n(0x0000_0073_u32, calls).chain(iter::repeat_n(0x0010_0073, breaks));
    (text, words.flat_map(u32::to_le_bytes).collect())
}

#[test]
fn a_text_may_have_65536_bytes_and_no_more() {
    let (longest, bytes) = calls_and_breaks(10_918, 4);
    assert_eq!(longest.len(), LONGEST);
    check_accepted(&longest, &bytes);
    let (longer, _) = calls_and_breaks(10_917, 5);
    assert_eq!(longer.len(), LONGEST + 1);
    check_refused(&longer, "too long");
}

/// A folder cannot be read, and `/dev/full` takes nothing.
#[test]
fn a_failed_read_or_write_is_an_error() {
    let unreadable = File::open(env!("CARGO_MANIFEST_DIR")).expect("there");
    let output = program().stdin(unreadable).output().expect("it runs");
    assert_eq!((output.status.code(), output.stdout), (Some(1), vec![]));
    let folder = Folder::new();
    let input = File::open(folder.write("text", LINES.as_bytes())).expect("there");
    let full = OpenOptions::new().write(true).open("/dev/full");
    let mut command = program();
    command.stdin(input).stdout(full.expect("there"));
    let output = command.output().expect("it runs");
    assert_eq!(output.status.code(), Some(1));
}
