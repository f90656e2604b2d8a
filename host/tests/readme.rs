//! The programs and sessions that README shows are the ones that are compiled and run.
use std::fs;
use std::path::Path;
use std::process::{Command, Output};
use testing::Folder;

const README: &str = include_str!("../../README.md");

/// The fenced block of this language.
fn shown(language: &str) -> &'static str {
    let start = format!("```{language}\n");
    let (_, rest) = README.split_once(&start).expect("the block is there");
    rest.split_once("```").expect("the block ends").0
}

#[test]
fn the_program_in_c() {
    assert_eq!(shown("c"), include_str!("../../examples/c/first.c"));
}

#[test]
fn the_program_in_rust() {
    assert_eq!(shown("rust"), include_str!("../examples/first.rs"));
}

/// A line that a person types, and what the tool answers.
struct Exchange {
    line: &'static str,
    answer: String,
}

/// The indented block whose first line a person types so.
fn session(first: &str) -> Vec<Exchange> {
    let at = README.find(&format!("    $ {first}")).expect(first);
    let block = README[at..]
        .lines()
        .map_while(|line| line.strip_prefix("    "));
    let mut session: Vec<Exchange> = Vec::new();
    for text in block {
        match text.strip_prefix("$ ") {
            Some(line) => session.push(Exchange {
                line,
                answer: String::new(),
            }),
            None => {
                let last = session.last_mut().expect("a line was typed");
                last.answer += &format!("{text}\n");
            }
        }
    }
    session
}

/// What a shell does with a line, in a folder, with the tool on its path.
fn done(folder: &Folder, line: &str) -> Output {
    let tool = Path::new(env!("CARGO_BIN_EXE_phuyurik"));
    let path = std::env::var("PATH").expect("there is a path");
    let path = format!("{}:{path}", tool.parent().expect("in a folder").display());
    let mut shell = Command::new("sh");
    shell.args(["-c", line]).env("PATH", path);
    shell.current_dir(folder.path()).output().expect("started")
}

/// That the shell answers to these lines, one after another, as README shows it.
fn is_shown(folder: &Folder, session: &[Exchange]) {
    for Exchange { line, answer } in session {
        let out = done(folder, line).stdout;
        assert_eq!(&String::from_utf8(out).expect("text"), answer, "{line}");
    }
}

#[test]
fn the_session_with_the_papers_recipe() {
    let folder = Folder::new();
    folder.write("trim.bin", include_bytes!("../../examples/trim.bin"));
    let session = session("phuyurik run trim.bin");
    assert_eq!(session.len(), 4);
    is_shown(&folder, &session);
}

/// The compiler need not be there: what it made stands in the repository.
#[test]
fn the_session_with_a_recipe_in_c() {
    let folder = Folder::new();
    let elf = include_bytes!("../../examples/from_c/clock_trim.elf");
    folder.write("clock_trim.elf", elf);
    let session = session("riscv64-unknown-elf-gcc ");
    assert_eq!(session.len(), 2);
    is_shown(&folder, &session[1..]);
}

#[test]
fn the_two_recipes_on_one_row() {
    let folder = Folder::new();
    let reference = include_bytes!("../../examples/reference_trim.bin");
    folder.write("reference_trim.bin", reference);
    let oscillator = include_bytes!("../../examples/oscillator_trim.bin");
    folder.write("oscillator_trim.bin", oscillator);
    let session = session("phuyurik run reference_trim.bin");
    assert_eq!(session.len(), 5);
    is_shown(&folder, &session);
}

#[test]
fn the_fix_at_night() {
    let folder = Folder::new();
    let image = include_bytes!("../../examples/voltage_trim.bin");
    folder.write("voltage_trim.bin", image);
    let fix = session("phuyurik list --text ");
    assert_eq!(fix.len(), 5);
    is_shown(&folder, &fix);
    let fixed = fs::read(folder.file("night.bin")).expect("written");
    // What is refused is told on standard error.
    let [refused] = &session("echo ")[..] else {
        panic!("one line is refused");
    };
    let told = done(&folder, refused.line);
    assert_eq!(told.status.code(), Some(41));
    assert_eq!(
        String::from_utf8(told.stderr).expect("text"),
        refused.answer
    );
    assert_eq!(fs::read(folder.file("night.bin")).expect("kept"), fixed);
}
