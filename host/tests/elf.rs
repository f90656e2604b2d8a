//! A recipe in C, `examples/from_c`, as the compiler left it: run, listed, and held to what its
//! source says.
mod common;

use common::tool;
use phuyurik::{Row, Word, ROW};
use std::fs;
use std::process::Output;
use testing::Folder;

const SOURCE: &str = include_str!("../../examples/from_c/clock_trim.c");
const SCRIPT: &str = include_str!("../../examples/from_c/recipe.ld");
const FILE: &[u8] = include_bytes!("../../examples/from_c/clock_trim.elf");

const RUN: &str = "run clock_trim.elf --row part.row --slots line.slots --slot 0";

fn with_recipe() -> Folder {
    let folder = Folder::new();
    folder.write("clock_trim.elf", FILE);
    folder
}

/// The exit code has to be this one.
fn call(folder: &Folder, line: &str, code: i32) -> Output {
    let done = tool(folder, line).output().expect("started");
    assert_eq!(done.status.code(), Some(code), "{line}: {done:?}");
    done
}

fn text(bytes: Vec<u8>) -> String {
    String::from_utf8(bytes).expect("text")
}

/// What stands between two texts.
fn between<'a>(text: &'a str, before: &str, after: &str) -> &'a str {
    let (_, rest) = text.split_once(before).expect(before);
    rest.split_once(after).expect(after).0
}

/// The memory that the linker script is for.
fn memory() -> usize {
    let number = between(SCRIPT, "memory_end = ", ";");
    number.parse().expect("a number")
}

fn to_its_end() -> String {
    format!("{RUN} --budget 100000 --memory {} --new", memory())
}

fn readings() -> Vec<u16> {
    let list = between(SOURCE, "readings[READINGS] = {", "}");
    let numbers = list.split(", ").map(|word| word.parse().expect("a number"));
    numbers.collect()
}

/// Words 0 and 1, from the readings: their median, and how many steps of 25 kHz it is from 8000 kHz.
fn expected(mut readings: Vec<u16>) -> [u32; 2] {
    assert_eq!(readings.len(), 11);
    readings.sort();
    let steps = ((8000.0 - f64::from(readings[5])) / 25.0).round() as i32;
    let code = 0x100 + steps.rem_euclid(128) as u32;
    [code, u32::MAX - code]
}

fn row(folder: &Folder) -> Row {
    let bytes = fs::read(folder.file("part.row")).expect("a row");
    Row::try_from(&bytes[..]).expect("a row")
}

/// The two words are burnt, and the others blank.
fn is_trimmed(folder: &Folder, readings: Vec<u16>) {
    let mut words = vec![Word::Blank; ROW / 8];
    for (word, value) in words.iter_mut().zip(expected(readings)) {
        *word = Word::Burnt(value);
    }
    assert_eq!(row(folder).words().collect::<Vec<_>>(), words);
}

#[test]
fn it_burns_what_its_source_says() {
    let folder = with_recipe();
    let told = text(call(&folder, &to_its_end(), 0).stdout);
    assert!(told.contains("\nstop 1: ecall\n"), "{told}");
    for (k, value) in expected(readings()).iter().enumerate() {
        let burnt = format!("\nword {k} burnt with {value} ");
        assert!(told.contains(&burnt), "{told}");
    }
    is_trimmed(&folder, readings());
}

/// The file with other readings in its data, as a line would put them there.
fn with_readings(reading: u16) -> Folder {
    let old: Vec<u8> = readings().into_iter().flat_map(u16::to_le_bytes).collect();
    let at = FILE.windows(old.len()).position(|bytes| bytes == old);
    let at = at.expect("the readings are in the file");
    let mut file = FILE.to_vec();
    file[at..at + old.len()].copy_from_slice(&reading.to_le_bytes().repeat(11));
    let folder = Folder::new();
    folder.write("clock_trim.elf", &file);
    folder
}

#[test]
fn other_readings_give_another_code_or_none() {
    let line = to_its_end();
    for reading in [6425, 7987, 8012, 8013, 9600] {
        let folder = with_readings(reading);
        call(&folder, &line, 0);
        is_trimmed(&folder, vec![reading; 11]);
    }
    // 64 steps up and 65 down: one too many.
    for reading in [6400, 9625] {
        let folder = with_readings(reading);
        let told = text(call(&folder, &line, 12).stdout);
        assert!(told.contains("\nstop 2: ebreak\n"), "{told}");
        assert_eq!(row(&folder), Row::default());
    }
}

#[test]
fn cut_off_it_is_carried_on_in_the_memory_it_had() {
    let folder = with_recipe();
    let line = format!("{RUN} --budget 40 --memory {} --new", memory());
    call(&folder, &line, 10);
    assert_eq!(row(&folder), Row::default());
    call(&folder, &format!("{RUN} --budget 100000 --resume"), 0);
    is_trimmed(&folder, readings());
}

#[test]
fn without_room_for_its_stack_it_stops_and_burns_nothing() {
    let folder = with_recipe();
    let done = call(&folder, &format!("{RUN} --budget 100000 --new"), 18);
    assert!(text(done.stdout).contains("\nstop 8: store outside, at 0x00000f"));
    assert_eq!(row(&folder), Row::default());
}

/// One line on standard error that has these words in it, and no row.
fn is_refused(folder: &Folder, line: &str, code: i32, words: &[&str]) {
    let told = text(call(folder, line, code).stderr);
    assert_eq!(told.lines().count(), 1, "{told}");
    for word in words {
        assert!(told.contains(word), "{told}");
    }
    assert!(!folder.file("part.row").exists());
}

#[test]
fn what_cannot_be_run_is_refused_before_anything_is_made() {
    let folder = with_recipe();
    let line = format!("{RUN} --budget 100000 --new");
    let little = format!("{line} --memory 100");
    let words = [
        "--memory 100 ",
        "clock_trim.elf",
        "segment 1 (0x00000000 to",
    ];
    is_refused(&folder, &little, 2, &words);
    let much = format!("{line} --memory 65537");
    is_refused(&folder, &much, 31, &["clock_trim.elf"]);
    let mut other = FILE.to_vec();
    // The machine: x86-64.
    other[18] = 62;
    folder.write("clock_trim.elf", &other);
    let words = ["clock_trim.elf", "not for RISC-V"];
    is_refused(&folder, &line, 3, &words);
    is_refused(&folder, "list clock_trim.elf", 3, &words);
}

/// Lines that `objdump -d -M numeric,no-aliases` has, too.
#[test]
fn it_is_listed() {
    let folder = with_recipe();
    let listing = text(call(&folder, "list clock_trim.elf", 0).stdout);
    assert!(listing.starts_with("00000000 00001117 auipc x2,1\n"));
    for line in ["\n0000000c 00000073 ecall\n", "\n00000010 9002 c:ebreak\n"] {
        assert!(listing.contains(line), "{listing}");
    }
    let kept = include_str!("../../examples/from_c/clock_trim.txt");
    assert_eq!(listing, kept);
}
