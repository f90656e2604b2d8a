//! The tool as it is called: what it writes, what it leaves in the files, and its exit codes.
mod bench;
mod common;

use bench::{burnt_row, with_paper, Bench, COMMANDS, ENDLESS, FILES, PAPER};
use common::tool;
use phuyurik::{Stop, RECORD, ROW};
use std::fs;
use std::io::Read;
use std::process::Stdio;
use testing::Folder;

#[test]
fn help_is_there_for_every_command() {
    let folder = Folder::new();
    let program = folder.call("--help").out;
    let calls = COMMANDS.map(|command| format!("{command} --help"));
    let others = ["--help", "row x --help", "slot -h"].map(str::to_string);
    for line in calls.iter().chain(&others) {
        let answer = folder.call(line);
        assert_eq!((answer.code, &*answer.err), (0, ""), "{line}");
        assert!(answer.out.starts_with("Usage: phuyurik "), "{line}");
        let codes = answer.out.split("\nExit codes").nth(1).expect(line);
        assert!(answer.out.lines().all(|line| line.len() <= 80), "{line}");
        // What a command can end with, the program can; 0 and 2 have other words there.
        let coded = |text: &&str| {
            let rest = text.strip_prefix("  ").unwrap_or_default();
            let is_code = rest.starts_with(|c: char| ('1'..='9').contains(&c));
            is_code && !rest.starts_with("2 ")
        };
        for code in codes.lines().filter(coded) {
            assert!(program.contains(code), "{line}: {code}");
        }
    }
}

#[test]
fn every_stop_but_ecall_has_its_exit_code_in_the_help() {
    let run = Folder::new().call("run --help").out;
    for stop in Stop::ALL.iter().filter(|stop| **stop != Stop::Ecall) {
        let (number, words) = (stop.number(), stop.words());
        let code = format!("\n  {:<3} stop {number}: {words}\n", 10 + number);
        assert!(run.contains(&code), "{code}");
    }
}

#[test]
fn the_version_is_the_packages() {
    let version = format!("phuyurik {}\n", env!("CARGO_PKG_VERSION"));
    assert_eq!(Folder::new().call("--version").out, version);
}

#[test]
fn wrong_usage_is_2() {
    let folder = with_paper();
    folder.fails("", 2, &["no command", "--help"]);
    folder.fails("burn", 2, &["burn"]);
    folder.fails("list", 2, &["IMAGE"]);
    folder.fails("slot line.slots x", 2, &["K", "x"]);
    let line = format!("run trim.bin {FILES} --slot 0");
    folder.fails(&line, 2, &["--budget"]);
    folder.fails(&format!("{line} --budget -1"), 2, &["--budget", "-1"]);
    folder.fails(&format!("{line} --budget 1 --piece 0"), 2, &["--piece"]);
    let same = "run trim.bin --row a --slots ./a --slot 0 --budget 1";
    folder.fails(same, 2, &["files of their own"]);
    let same = "run trim.bin --row trim.bin --slots a --slot 0 --budget 1";
    folder.fails(same, 2, &["files of their own"]);
    folder.fails(
        &format!("{line} --budget 1 --memory 13"),
        2,
        &["--memory 13", "14 bytes"],
    );
    let many = format!("run trim.bin {FILES} --slot 4096 --budget 1");
    folder.fails(&many, 2, &["--slot 4096"]);
    assert_eq!(folder.snapshot().len(), 2);
}

#[test]
fn the_listing_is_the_papers() {
    let folder = with_paper();
    let paper = "00000000 429d c:addi x5,x0,7\n00000002 80000337 lui x6,524288\n\
                 00000006 00532023 sw x5,0(x6)\n0000000a 00000073 ecall\n";
    assert_eq!(folder.call("list trim.bin").out, paper);
    folder.write("odd.bin", &[0xFF, 0xFF, 0x01]);
    let odd = "00000000 ffff ?\n00000002 01 ?\n";
    assert_eq!(folder.call("list odd.bin").out, odd);
    folder.write("none.bin", &[]);
    assert_eq!(folder.call("list none.bin").out, "");
    folder.write("long.bin", &vec![0; 65_537]);
    assert_eq!(folder.call("list long.bin").out, "too long\n");
    folder.write("full.bin", &vec![0; 65_536]);
    let full = folder.call("list full.bin").out;
    assert_eq!(full.lines().count(), 32_768);
    assert!(full.ends_with("\n0000fffe 0000 ?\n"));
}

#[test]
fn a_reader_that_goes_away_is_no_error() {
    let folder = Folder::new();
    folder.write("full.bin", &vec![0; 65_536]);
    let mut command = tool(&folder, "list full.bin");
    command.stdout(Stdio::piped()).stderr(Stdio::piped());
    let mut child = command.spawn().expect("started");
    drop(child.stdout.take());
    let mut err = String::new();
    let mut stderr = child.stderr.take().expect("piped");
    stderr.read_to_string(&mut err).expect("text");
    assert_eq!(child.wait().expect("over").code(), Some(0));
    assert_eq!(err, "");
}

/// Cards 11 and 12 of the paper, through the files.
#[test]
fn the_papers_recipe_is_run_and_started_anew() {
    let folder = with_paper();
    let first = folder.run("--slot 0 --budget 100");
    let facts = "retired 3 in this run\ncount 3\nstop 1: ecall\npc 10 (0x0000000a)\n\
                 1 word burnt since the recipe's start, 1 of them in this run\n\
                 word 0 burnt with 7 (0x00000007) in this run\n";
    assert_eq!((first.code, &*first.out, &*first.err), (0, facts, ""));
    assert_eq!(folder.get("part.row"), burnt_row());
    let row = "word  0 at 0x80000000: 7 (0x00000007)\n1 burnt, 63 blank\n";
    assert_eq!(folder.call("row part.row").out, row);
    let slot = "pc 10 (0x0000000a)\nx5 7 (0x00000007)\nx6 2147483648 (0x80000000)\n\
                count 3\nstop 1: ecall\n";
    assert_eq!(folder.call("slot line.slots 0").out, slot);
    let again = folder.run("--slot 0 --budget 100");
    let facts = "retired 2 in this run\ncount 2\nstop 9: word already burnt, at 0x80000000\n\
                 pc 6 (0x00000006)\nno word burnt since the recipe's start\n";
    assert_eq!((again.code, &*again.out), (19, facts));
    assert_eq!(again.err, "");
    assert_eq!(folder.get("part.row"), burnt_row());
}

#[test]
fn a_budget_used_up_is_a_pause_and_the_run_is_resumed() {
    for resume in ["", "--resume"] {
        let folder = with_paper();
        let line = format!("--slot 2 --budget 1 {resume}");
        assert_eq!(folder.run("--slot 2 --budget 0").code, 10);
        assert_eq!(folder.get("line.slots"), vec![0; 3 * RECORD]);
        for count in 1..=3 {
            let piece = folder.run(&line);
            let facts =
                format!("retired 1 in this run\ncount {count}\nstop 0: paused, can go on\n");
            assert_eq!(piece.code, 10);
            assert!(piece.out.starts_with(&facts), "{}", piece.out);
            assert_eq!(piece.out.contains("word 0 burnt with 7"), count == 3);
            // Whoever did not ask for it is told.
            let note = format!("note: carrying on the run in slot 2, count {}", count - 1);
            assert_eq!(
                piece.err.contains(&note),
                resume.is_empty(),
                "{}",
                piece.err
            );
        }
        assert_eq!(folder.get("part.row"), burnt_row());
        let end = folder.run(&line);
        let facts = "retired 0 in this run\ncount 3\nstop 1: ecall\npc 10 (0x0000000a)\n\
                     1 word burnt since the recipe's start, 0 of them in this run\n\
                     word 0 burnt with 7 (0x00000007)\n";
        assert_eq!((end.code, &*end.out), (0, facts));
        // Resumed by name, an ended run tells of its end again; else the recipe starts anew.
        let again = folder.run(&format!("--slot 2 --budget 9 {resume}"));
        match resume {
            "" => assert_eq!(again.code, 19),
            _ => assert_eq!((again.code, &*again.out), (0, facts)),
        }
        assert_eq!(folder.get("part.row"), burnt_row());
        assert_eq!(folder.get("line.slots")[..2 * RECORD], [0; 2 * RECORD]);
    }
}

#[test]
fn a_stop_is_10_and_its_number() {
    // Each after a c.nop, so that pc is 2: c.ebreak, no instruction, nothing, half of a load,
    // lh x5,1(x0), lw x5,-4(x0), sh x0,1(x0), sw x0,-4(x0).
    let stops: [(&[u8], i32, &str); 8] = [
        (&[0x02, 0x90], 12, "ebreak"),
        (&[0x00, 0x00], 13, "illegal instruction, at 0x00000002"),
        (&[], 14, "fetch outside, at 0x00000002"),
        (&[0x83, 0x12], 14, "fetch outside, at 0x00000004"),
        (&[0x83, 0x12, 0x10, 0], 15, "load misaligned, at 0x00000001"),
        (&[0x83, 0x22, 0xC0, 0xFF], 16, "load outside, at 0xfffffffc"),
        (&[0xA3, 0x10, 0, 0], 17, "store misaligned, at 0x00000001"),
        (&[0x23, 0x2E, 0, 0xFE], 18, "store outside, at 0xfffffffc"),
    ];
    for (last, code, words) in stops {
        let folder = with_paper();
        folder.write("trim.bin", &[&[0x01, 0x00], last].concat());
        let first = folder.run("--slot 0 --budget 5");
        assert_eq!(first.code, code);
        let line = format!("\nstop {}: {words}\n", code - 10);
        assert!(first.out.contains(&line), "{}", first.out);
        let slot = folder.call("slot line.slots 0").out;
        assert!(slot.ends_with(&line), "{slot}");
        // Resumed, it stays stopped.
        let again = folder.run("--slot 0 --budget 5 --resume");
        let told = first.out.replace("retired 1", "retired 0");
        assert_eq!((again.code, again.out), (code, told));
        assert_eq!(folder.get("part.row"), vec![0; ROW]);
    }
}

/// Changes one file, sees the refusal on a new start and on resuming, with these words and no more,
/// and that nothing changes.
fn is_refused(name: &str, bytes: &[u8], code: i32, words: &str) {
    let folder = with_paper();
    assert_eq!(folder.run("--slot 0 --budget 1").code, 10);
    folder.write(name, bytes);
    let told = format!("phuyurik: {name}: {words}\n");
    let within = format!("{}/", folder.path().display());
    let before = folder.snapshot();
    for mode in ["", "--resume", "--restart", "--dry-run"] {
        let line = format!("run trim.bin {FILES} --budget 1 --slot 0 {mode}");
        let answer = folder.call(&line);
        assert_eq!((answer.code, &*answer.out), (code, ""), "{line}");
        assert_eq!(answer.err.replace(&within, ""), told, "{line}");
    }
    folder.is_as(&before);
}

#[test]
fn a_refusal_of_the_image_or_the_row_is_30_and_its_number() {
    let words = "refusal 1: memory longer than 65,536";
    is_refused("trim.bin", &[0; 65_537], 31, words);
    let words = "refusal 2: row not 512 bytes";
    for length in [0, 511, 513, 1024] {
        is_refused("part.row", &vec![0; length], 32, words);
    }
    let rules = [
        (0, 1, "mark 0 with value 1"),
        (4, 1, "mark 1 with value 0"),
        (4, 2, "mark 2"),
        (5, 1, "bytes 5 to 7 are not zero"),
        (7, 1, "bytes 5 to 7 are not zero"),
    ];
    for (word, (at, byte, rule)) in [0, 17, 62].iter().flat_map(|word| rules.map(|r| (word, r))) {
        let mut row = [0; ROW];
        // of two words the lower is told
        (row[511], row[8 * word + at]) = (128, byte);
        let words = format!("refusal 3: record of word {word} breaks its rules: {rule}");
        is_refused("part.row", &row, 33, &words);
    }
}

#[test]
fn a_refusal_of_the_slots_is_30_and_its_number() {
    let words = "refusal 4: slot buffer not a multiple of 144, or no such slot";
    is_refused("line.slots", &[0; RECORD - 1], 34, words);
    is_refused("line.slots", &[0; RECORD + 1], 34, words);
    for (first, last, code, fault) in RECORD_FAULTS {
        let words = format!("refusal {}: slot 0: {fault}", code - 30);
        is_refused("line.slots", &record_with(first, last), code, &words);
    }
}

const NOT_ZERO: &str = "bytes 137 to 139 are not zero";
const OF_A_PAUSE: &str = "address 0x00000004 with stop 0, which has none";
const OF_A_FULL_COUNT: &str = "address 0x80000000 with stop 10, which has none";

/// The first byte of a record, its last eight, the exit code, and what stands there.
const RECORD_FAULTS: [(u8, [u8; 8], i32, &str); 8] = [
    (1, [0, 0, 0, 0, 0, 0, 0, 0], 35, "odd pc"),
    (1, [23, 0, 0, 1, 0, 0, 0, 1], 35, "odd pc"),
    (2, [12, 0, 0, 0, 0, 0, 0, 0], 44, "stop number 12"),
    (2, [23, 0, 0, 1, 0, 0, 0, 1], 44, "stop number 23"),
    (0, [0, 1, 0, 0, 0, 0, 0, 0], 45, NOT_ZERO),
    (0, [6, 0, 0, 1, 0, 0, 0, 1], 45, NOT_ZERO),
    (0, [0, 0, 0, 0, 4, 0, 0, 0], 45, OF_A_PAUSE),
    (0, [10, 0, 0, 0, 0, 0, 0, 128], 45, OF_A_FULL_COUNT),
];

fn record_with(first: u8, last: [u8; 8]) -> [u8; RECORD] {
    let mut record = [0; RECORD];
    record[0] = first;
    record[136..].copy_from_slice(&last);
    record
}

/// The slot that is named is the one that is told, and another one is shown all the same.
#[test]
fn a_bad_record_is_told_with_its_slot() {
    for (first, last, code, fault) in RECORD_FAULTS {
        let folder = with_paper();
        let (fresh, bad) = ([0; RECORD], record_with(first, last));
        let slots = [fresh, fresh, bad, fresh];
        folder.write("line.slots", &slots.concat());
        let words = format!("line.slots: refusal {}: slot 2: {fault}", code - 30);
        folder.fails("slot line.slots 2", code, &[&words]);
        let run = format!("run trim.bin {FILES} --budget 1 --slot 2");
        folder.fails(&run, code, &[&words]);
        let status = folder.call("status").out;
        let line = format!("slot 2: no state that a run could have ({fault}), no memory file");
        assert!(status.contains(&line), "{status}");
        assert_eq!(folder.call("slot line.slots 3").code, 0);
    }
}

#[test]
fn row_and_slot_refuse_what_is_none() {
    let folder = Folder::new();
    folder.write("short", &[0; 143]);
    folder.write("burnt", &[1; ROW]);
    folder.write("odd", &[1; RECORD]);
    folder.fails("row short", 32, &["short: refusal 2"]);
    folder.fails("row burnt", 33, &["burnt: refusal 3"]);
    folder.fails("slot short 0", 34, &["short: refusal 4"]);
    folder.fails("slot odd 1", 34, &["odd: refusal 4"]);
    folder.fails("slot odd 0", 35, &["odd: refusal 5"]);
    folder.write("blank", &[0; ROW]);
    assert_eq!(folder.call("row blank").out, "0 burnt, 64 blank\n");
}

#[test]
fn a_file_that_is_missing_is_6() {
    let folder = with_paper();
    folder.fails("list none", 6, &["none: missing"]);
    folder.fails("row none", 6, &["none: missing"]);
    folder.fails("slot none 0", 6, &["none: missing"]);
    let line = "--slot 0 --budget 1";
    folder.fails(&format!("run none {FILES} {line}"), 6, &["none: missing"]);
    let nowhere = format!("run trim.bin --row no/part.row --slots line.slots {line}");
    folder.fails(&nowhere, 6, &["no: missing"]);
    let resume = format!("run trim.bin {FILES} {line} --resume");
    folder.fails(
        &resume,
        6,
        &["line.slots.0.memory: missing", "no run to resume"],
    );
    assert_eq!(folder.run(line).code, 10);
    // The record is that of a run that has begun: without its memory file it is lost, not empty.
    for name in ["part.row", "line.slots", "line.slots.0.memory"] {
        let bytes = folder.get(name);
        folder.remove(name);
        for mode in ["", "--resume", "--restart"] {
            let line = format!("run trim.bin {FILES} {line} {mode}");
            folder.fails(&line, 6, &[&format!("{name}: missing")]);
            assert!(!folder.has(name));
        }
        folder.write(name, &bytes);
    }
    assert_eq!(folder.run(&format!("{line} --resume")).code, 10);
}

#[test]
fn missing_slots_with_a_memory_of_any_slot_are_not_made_anew() {
    let folder = with_paper();
    assert_eq!(folder.run("--slot 1 --budget 1").code, 10);
    folder.remove("line.slots");
    for slot in 0..2 {
        let line = format!("run trim.bin {FILES} --slot {slot} --budget 1");
        folder.fails(&line, 6, &["line.slots: missing", "slot 1", "mend"]);
        assert!(!folder.has("line.slots"));
    }
}

#[test]
fn a_run_of_another_row_or_image_is_not_resumed() {
    let folder = with_paper();
    assert_eq!(folder.run("--slot 0 --budget 1").code, 10);
    folder.write("other.row", &[0; ROW]);
    let mut other = PAPER;
    other[0] ^= 4;
    folder.write("other.bin", &other);
    folder.write("longer.bin", &[&PAPER[..], &[0]].concat());
    for mode in ["", "--resume"] {
        let line = format!("--slots line.slots --slot 0 --budget 9 {mode}");
        let row = format!("run trim.bin --row other.row {line}");
        folder.fails(&row, 7, &["slot 0", "another row", "part.row"]);
        for image in ["other.bin", "longer.bin"] {
            let line = format!("run {image} --row part.row {line}");
            folder.fails(
                &line,
                7,
                &["line.slots.0.memory", "another image", "--restart"],
            );
        }
        let memory = format!("run trim.bin --row part.row {line} --memory 15");
        folder.fails(&memory, 7, &["line.slots.0.memory", "memory of 14 bytes"]);
    }
    assert_eq!(folder.get("other.row"), vec![0; ROW]);
    assert_eq!(
        folder.run("--slot 0 --budget 9 --resume --memory 14").code,
        0
    );
}

#[test]
fn a_longer_memory_is_the_image_with_zeros_after_it() {
    let folder = with_paper();
    // lw x5,2044(x0); sw x5,2040(x0); ecall
    let image: [u8; 12] = [
        0x83, 0x22, 0xC0, 0x7F, 0x23, 0x2C, 0x50, 0x7E, 0x73, 0x00, 0x00, 0x00,
    ];
    folder.write("trim.bin", &image);
    assert_eq!(folder.run("--slot 0 --budget 9").code, 16);
    assert_eq!(folder.run("--slot 0 --budget 1 --memory 2048").code, 10);
    // A resumed run has the memory that it was started with.
    assert_eq!(folder.run("--slot 0 --budget 9").code, 0);
    assert_eq!(folder.run("--slot 0 --budget 9 --memory 65536").code, 0);
    for memory in ["65537", "18446744073709551615"] {
        let line = format!("run trim.bin {FILES} --slot 0 --budget 9 --memory {memory}");
        folder.fails(&line, 31, &["trim.bin: refusal 1"]);
    }
}

#[test]
fn a_record_that_was_not_saved_with_the_memory_is_not_used() {
    let folder = with_paper();
    assert_eq!(folder.run("--slot 0 --budget 1").code, 10);
    folder.write("line.slots", &[0; RECORD]);
    for mode in ["", "--resume", "--restart"] {
        let line = format!("run trim.bin {FILES} --slot 0 --budget 9 {mode}");
        folder.fails(
            &line,
            5,
            &["line.slots", "slot 0 is not the record", "mend"],
        );
    }
}

#[test]
fn a_paused_run_of_another_row_keeps_its_slot() {
    let folder = with_paper();
    folder.write("other.row", &[0; ROW]);
    assert_eq!(folder.run("--slot 0 --budget 1").code, 10);
    let files = ["line.slots", "line.slots.0.memory"];
    let before = files.map(|file| folder.get(file));
    let other = "run trim.bin --row other.row --slots line.slots --slot 0 --budget 9";
    for mode in ["", " --restart"] {
        let words = ["slot 0", "paused run", "part.row", "another slot", "forget"];
        folder.fails(&format!("{other}{mode}"), 7, &words);
    }
    assert_eq!(before, files.map(|file| folder.get(file)));
    assert_eq!(folder.get("other.row"), vec![0; ROW]);
    // Once it has stopped, another row's run may have the slot.
    assert_eq!(folder.run("--slot 0 --budget 100").code, 0);
    assert_eq!(folder.call(other).code, 0);
    assert_eq!(folder.get("other.row"), burnt_row());
    let line = format!("run trim.bin {FILES} --slot 0 --budget 9 --resume");
    folder.fails(&line, 7, &["another row", "other.row"]);
}

#[test]
fn a_paused_record_without_its_memory_is_kept() {
    let folder = with_paper();
    let mut record = [0; RECORD];
    record[128] = 1;
    folder.write("line.slots", &record);
    for mode in ["", "--resume", "--restart"] {
        let line = format!("run trim.bin {FILES} --slot 0 --budget 1 {mode}");
        folder.fails(
            &line,
            6,
            &["line.slots.0.memory: missing", "paused", "forget"],
        );
    }
    assert_eq!(folder.get("line.slots"), record);
}

/// A run that is carried on sees the words that a run in another slot burnt meanwhile, and does not
/// take them for its own.
#[test]
fn an_old_copy_of_the_row_never_comes_back() {
    let folder = with_paper();
    assert_eq!(folder.run("--slot 0 --budget 2").code, 10);
    let second = folder.run("--slot 1 --budget 100 --restart");
    assert!(second.out.contains("word 0 burnt with 7"));
    let first = folder.run("--slot 0 --budget 100 --resume");
    assert_eq!(first.code, 19);
    assert!(first.out.contains("no word burnt since"));
    assert_eq!(folder.get("part.row"), burnt_row());
}

#[test]
fn damaged_files_are_5_and_never_ignored() {
    let folder = with_paper();
    assert_eq!(folder.run("--slot 0 --budget 1").code, 10);
    for name in ["line.slots.0.memory", "part.row.seen"] {
        let mut bytes = folder.get(name);
        let last = bytes.len() - 10;
        bytes[last] ^= 1;
        folder.write(name, &bytes);
        for mode in ["", "--resume", "--restart", "--dry-run"] {
            let line = format!("run trim.bin {FILES} --slot 0 --budget 1 {mode}");
            folder.fails(&line, 5, &[&format!("{name}: damaged")]);
        }
        bytes[last] ^= 1;
        folder.write(name, &bytes);
    }
    folder.write("part.row.journal", b"phuyJRN2 torn");
    for mode in ["", "--resume", "--restart", "--dry-run"] {
        let line = format!("run trim.bin {FILES} --slot 0 --budget 1 {mode}");
        folder.fails(&line, 5, &["part.row.journal: damaged", "settle"]);
    }
    for line in ["row part.row", "slot line.slots 0"] {
        let shown = folder.call(line);
        assert_eq!(shown.code, 0);
        assert!(
            shown.err.contains("damaged") && shown.err.contains("shown is what the file holds")
        );
    }
    assert_eq!(folder.get("part.row.journal"), b"phuyJRN2 torn");
}

/// Whoever looked at the row may say that it is right.
#[test]
fn a_damaged_seen_file_is_made_anew_for_an_accepted_row() {
    let folder = with_paper();
    assert_eq!(folder.run("--slot 0 --budget 1").code, 10);
    folder.write("part.row.seen", b"");
    let accepted = folder.run("--slot 0 --budget 9 --accept-row");
    assert_eq!(accepted.code, 0, "{}", accepted.err);
    assert!(accepted.err.contains("part.row.seen: damaged"));
    folder.write("part.row", &[0; ROW]);
    let line = format!("run trim.bin {FILES} --slot 0 --budget 9");
    folder.fails(&line, 9, &["word 0 (burnt with 7) is blank"]);
}

#[test]
fn stray_tmp_files_are_harmless() {
    let folder = with_paper();
    folder.remove("part.row");
    let strays = [
        "part.row",
        "part.row.journal",
        "part.row.seen",
        "line.slots.0.memory",
    ];
    for name in strays {
        folder.write(&format!("{name}.tmp"), &[0xAA; 5000]);
    }
    assert_eq!(folder.run("--slot 0 --budget 100 --new").code, 0);
    assert_eq!(folder.get("part.row"), burnt_row());
    for name in strays {
        assert!(!folder.has(&format!("{name}.tmp")));
    }
}

#[test]
fn a_file_that_cannot_be_written_is_3() {
    let folder = with_paper();
    fs::create_dir(folder.file("part.row.journal.tmp")).expect("made");
    let line = format!("run trim.bin {FILES} --slot 0 --budget 100");
    folder.fails(&line, 3, &["part.row.journal"]);
    assert_eq!(folder.get("part.row"), vec![0; ROW]);
    assert!(!folder.has("part.row.journal"));
    fs::create_dir(folder.file("folder")).expect("made");
    let line = "--slots line.slots --slot 0 --budget 1";
    let words = ["folder: not a regular file"];
    folder.fails(&format!("run trim.bin --row folder {line}"), 3, &words);
}

/// The memory cannot be written, but the burnt word is in the journal by then.
#[test]
fn a_save_that_fails_half_way_is_carried_out_by_the_next_run() {
    let folder = with_paper();
    assert_eq!(folder.run("--slot 0 --budget 2").code, 10);
    let in_the_way = folder.file("line.slots.0.memory.tmp");
    fs::create_dir(&in_the_way).expect("made");
    let line = format!("run trim.bin {FILES} --slot 0 --budget 9 --resume");
    folder.fails(&line, 3, &["line.slots.0.memory: "]);
    assert_eq!(folder.get("part.row"), vec![0; ROW]);
    fs::remove_dir(&in_the_way).expect("removed");
    let resumed = folder.call(&line);
    assert!(resumed.err.contains("note: ") && resumed.err.contains("carried out"));
    let facts = "retired 0 in this run\ncount 3\nstop 1: ecall\npc 10 (0x0000000a)\n\
                 1 word burnt since the recipe's start, 0 of them in this run\n\
                 word 0 burnt with 7 (0x00000007)\n";
    assert_eq!((resumed.code, &*resumed.out), (0, facts));
    assert_eq!(folder.get("part.row"), burnt_row());
    assert!(!folder.has("part.row.journal"));
}

#[test]
fn a_second_run_at_the_same_time_is_busy() {
    let folder = with_paper();
    folder.write("endless.bin", &ENDLESS);
    folder.write("other.row", &[0; ROW]);
    let line = format!("run endless.bin {FILES} --slot 0 --budget {}", u64::MAX);
    let mut command = tool(&folder, &line);
    command.stdout(Stdio::null()).stderr(Stdio::null());
    let mut first = command.spawn().expect("started");
    folder.waits_for("part.row.seen");
    for dry_run in ["", "--dry-run"] {
        let row = "run trim.bin --row part.row --slots other.slots --slot 0 --budget 9";
        let words = ["part.row.lock: held by another run"];
        folder.fails(&format!("{row} {dry_run}"), 4, &words);
        let slot = "run trim.bin --row other.row --slots line.slots --slot 0 --budget 9";
        let words = ["line.slots.0.lock: held by another run"];
        folder.fails(&format!("{slot} {dry_run}"), 4, &words);
    }
    assert!(!folder.has("other.row.seen") && !folder.has("other.slots"));
    first.kill().expect("killed");
    first.wait().expect("over");
    // The lock went with its process.
    let resumed = folder.call(&format!(
        "run endless.bin {FILES} --slot 0 --budget 7 --resume"
    ));
    assert_eq!(resumed.code, 10, "{}", resumed.err);
    assert!(resumed.out.starts_with("retired 7 in this run\n"));
}

#[test]
fn the_demo_shows_the_papers_facts_and_leaves_nothing() {
    let folder = Folder::new();
    let mut command = tool(&folder, "demo");
    let done = command
        .env("TMPDIR", folder.path())
        .output()
        .expect("started");
    assert_eq!(done.status.code(), Some(0));
    let out = String::from_utf8(done.stdout).expect("text");
    for fact in [
        "00000006 00532023 sw x5,0(x6)\n",
        "retired 3 in this run\n",
        "stop 1: ecall\npc 10 ",
        "word 0 burnt with 7 ",
        "1 burnt, 63 blank\n",
        "retired 2 in this run\n",
        "stop 9: word already burnt, at 0x80000000\npc 6 ",
        "no word burnt since the recipe's start\n",
    ] {
        assert!(out.contains(fact), "{fact}");
    }
    assert_eq!(fs::read_dir(folder.path()).expect("there").count(), 0);
}
