//! The tool with masks: words that are not a recipe's own, masks that are remembered, and which runs may
//! be paused on one row.
mod bench;
mod common;

use bench::{burning, row_of, Bench, ENDLESS, FILES};
use common::tool;
use phuyurik::{Slots, State, Stop, RECORD, ROW};
use std::fs;
use std::os::unix::ffi::OsStrExt;
use std::process::Stdio;
use testing::Folder;

const LOW: &str = "--own 0-31 --other 32-63";
const HIGH: &str = "--own 32-63 --other 0-31";
const MODES: [&str; 4] = ["", "--resume", "--restart", "--dry-run"];

/// A blank part; a recipe that burns words 0 to 7, and one that burns words 32 to 39, four steps each.
fn with_two() -> Folder {
    let folder = Folder::new();
    folder.write("low.bin", &burning(0, 8));
    folder.write("high.bin", &burning(32, 8));
    folder.write("part.row", &[0; ROW]);
    folder
}

fn low(more: &str) -> String {
    format!("run low.bin {FILES} --slot 0 {more}")
}

fn high(more: &str) -> String {
    format!("run high.bin {FILES} --slot 1 {more}")
}

/// The low recipe is paused in slot 0, and the high one in slot 1; each has burnt a word.
fn with_both_paused() -> Folder {
    let folder = with_two();
    assert_eq!(folder.call(&low(&format!("--budget 4 {LOW}"))).code, 10);
    let second = folder.call(&high(&format!("--budget 4 {HIGH}")));
    assert_eq!((second.code, second.err), (10, started(1, HIGH)));
    folder
}

/// What a start with masks tells of itself.
fn started(k: usize, masks: &str) -> String {
    format!("phuyurik: note: the run in slot {k} starts with {masks}\n")
}

/// The first words of the low recipe and of the high one.
fn burnt(low: usize, high: usize) -> Vec<u8> {
    let words = (0..low).chain(32..32 + high);
    let words: Vec<(usize, u32)> = words.map(|k| (k, 100 + k as u32)).collect();
    row_of(&words)
}

/// Refused with this code and these words, and nothing changes.
fn is_refused(folder: &Folder, line: &str, code: i32, words: &[&str]) {
    let before = folder.snapshot();
    folder.fails(line, code, words);
    folder.is_as(&before);
}

// Words that are not its own.

#[test]
fn a_store_at_a_word_that_is_not_its_own_is_21_and_told_with_the_word() {
    let folder = with_two();
    let stopped = folder.call(&high("--budget 100 --own 0-31"));
    let facts =
        "retired 3 in this run\ncount 3\nstop 11: word not its own, at 0x80000080 (word 32)\n\
                 pc 12 (0x0000000c)\nno word burnt since the recipe's start\n";
    assert_eq!((stopped.code, &*stopped.out), (21, facts));
    let stop = "stop 11: word not its own, at 0x80000080 (word 32)";
    assert!(folder
        .call("slot line.slots 1")
        .out
        .ends_with(&format!("{stop}\n")));
    assert!(folder.call("status").out.contains(stop));
    let again = folder.call(&high("--budget 100 --resume"));
    assert_eq!(
        (again.code, again.out),
        (21, facts.replace("retired 3", "retired 0"))
    );
    assert_eq!(folder.get("part.row"), vec![0; ROW]);
}

/// Also where it would only be read, or is burnt already; and what is no word at all comes first.
#[test]
fn which_accesses_stop_with_11() {
    // lui x6,0x80000, then lw x5,252(x6); sw x0,252(x6); lw x5,254(x6); sw x5,256(x6)
    let accesses: [(u32, i32, &str); 4] = [
        (0x0FC3_2283, 21, "word not its own, at 0x800000fc (word 63)"),
        (0x0E03_2E23, 21, "word not its own, at 0x800000fc (word 63)"),
        (0x0FE3_2283, 15, "load misaligned, at 0x800000fe"),
        (0x1053_2023, 18, "store outside, at 0x80000100"),
    ];
    for (access, code, words) in accesses {
        let folder = with_two();
        folder.write("part.row", &row_of(&[(63, 9)]));
        let image = [0x8000_0337_u32, access, 0x0000_0073];
        folder.write("low.bin", &image.map(u32::to_le_bytes).concat());
        let done = folder.call(&low(&format!("--budget 9 {LOW}")));
        assert_eq!(done.code, code, "{}", done.err);
        assert!(done.out.contains(&format!(": {words}\n")), "{}", done.out);
        assert_eq!(folder.get("part.row"), row_of(&[(63, 9)]));
    }
}

/// A state may come with any address; only one of the row has a word.
#[test]
fn a_record_with_stop_11_is_shown_with_the_word_if_it_has_one() {
    let folder = Folder::new();
    for (address, text) in [
        (0x8000_0004, "at 0x80000004 (word 1)\n"),
        (0x8000_0100, "at 0x80000100\n"),
        (0x0000_0004, "at 0x00000004\n"),
    ] {
        let mut state = State::fresh();
        state.set_stop_at(Stop::NotOwned, address);
        folder.write("line.slots", &state.to_bytes());
        let shown = folder.call("slot line.slots 0").out;
        assert!(shown.ends_with(text), "{shown}");
    }
}

// Masks that share a word, and lists that are none.

#[test]
fn masks_that_share_a_word_are_46_and_nothing_is_left_behind() {
    let folder = with_two();
    let refusal = "refusal 16: masks that share a bit";
    for (masks, shared) in [
        ("--own 0-31 --other 31-63", "word 31"),
        ("--own 0x0f --other 0,2-63", "words 0,2-3"),
        ("--own all --other 0", "word 0"),
    ] {
        for mode in MODES {
            let line = low(&format!("--budget 9 {masks} {mode}"));
            is_refused(
                &folder,
                &line,
                46,
                &[refusal, &format!("(both have {shared})")],
            );
        }
        let row = format!("row part.row {masks}");
        is_refused(&folder, &row, 46, &[refusal, shared]);
    }
    // With a run in the slot, too; and after what is wrong with the memory or the row.
    assert_eq!(folder.call(&low(&format!("--budget 4 {LOW}"))).code, 10);
    let shared = "--budget 9 --own 0-31 --other 31-63";
    for mode in MODES {
        is_refused(&folder, &low(&format!("{shared} {mode}")), 46, &[refusal]);
    }
    folder.write("part.row", &[1; ROW]);
    is_refused(&folder, &low(shared), 33, &["refusal 3"]);
    folder.write("low.bin", &vec![0; 65_537]);
    is_refused(&folder, &low(shared), 31, &["refusal 1"]);
}

#[test]
fn a_list_that_is_none_is_2() {
    let folder = with_two();
    for (masks, words) in [
        (
            "--own 5-3",
            "--own: \"5-3\": the last word of a range is below the first",
        ),
        ("--own 64", "--own: no word \"64\": a row has words 0 to 63"),
        ("--own 1,,2", "--own: no word \"\""),
        ("--own 0x", "--own: \"0x\": a mask is"),
        ("--own 0-31,31", "--own: word 31 is named twice"),
        ("--own 0-31 --other 32-64", "--other: no word \"64\""),
        ("--other 0-31", "--other needs --own"),
    ] {
        is_refused(&folder, &low(&format!("--budget 9 {masks}")), 2, &[words]);
        is_refused(&folder, &format!("row part.row {masks}"), 2, &[words]);
    }
}

// Masks are remembered.

#[test]
fn a_run_keeps_its_masks() {
    let folder = with_two();
    // Its eighth word is not its own.
    let masks = "--own 0-6 --other 32-63";
    assert_eq!(folder.call(&low(&format!("--budget 4 {masks}"))).code, 10);
    for mode in ["", "--resume"] {
        let next = folder.call(&low(&format!("--budget 4 {mode}")));
        assert_eq!(next.code, 10, "{}", next.err);
        let note = format!("note: the run in slot 0 goes on as it was started: {masks}\n");
        assert_eq!(next.err.matches(&note).count(), 1, "{}", next.err);
    }
    // Named, also otherwise, they are no news.
    let named = folder.call(&low(
        "--budget 4 --own 0x7f --other 0xffffffff00000000 --resume",
    ));
    assert_eq!((named.code, &*named.err), (10, ""));
    assert_eq!(folder.call(&low("--budget 100")).code, 21);
    assert_eq!(folder.get("part.row"), burnt(7, 0));
    // Its end is told with the same masks, or with none.
    for more in [masks, ""] {
        let told = folder.call(&low(&format!("--budget 9 --resume {more}")));
        assert_eq!((told.code, &*told.err), (21, ""));
    }
}

#[test]
fn a_run_is_not_carried_on_with_other_masks() {
    let folder = with_two();
    assert_eq!(folder.call(&low(&format!("--budget 4 {LOW}"))).code, 10);
    let words = ["line.slots.0.memory", LOW, "or none", "--restart"];
    for other in [
        "--own 0-31",
        "--own 0-30 --other 32-63",
        "--own 0-31 --other 33-63",
        "--own all",
        HIGH,
    ] {
        for mode in ["", "--resume", "--dry-run"] {
            let line = low(&format!("--budget 9 {other} {mode}"));
            is_refused(&folder, &line, 7, &words);
        }
    }
    // Started over it has those that are given.
    let anew = folder.call(&low("--budget 9 --own 1-63 --restart"));
    assert_eq!(anew.code, 21, "{}", anew.err);
    is_refused(
        &folder,
        &low(&format!("--budget 9 --resume {LOW}")),
        7,
        &["--own 1-63"],
    );
}

#[test]
fn a_run_without_masks_gets_none_later() {
    let folder = with_two();
    assert_eq!(folder.call(&low("--budget 4")).code, 10);
    for mode in ["", "--resume"] {
        let line = low(&format!("--budget 9 {LOW} {mode}"));
        is_refused(&folder, &line, 7, &["without masks", "--restart"]);
    }
    let same = folder.call(&low("--budget 4 --own all --other none --resume"));
    assert_eq!((same.code, &*same.err), (10, ""));
    let done = folder.call(&low("--budget 100"));
    assert_eq!(done.code, 0);
    assert!(!done.err.contains("--own"), "{}", done.err);
    assert_eq!(folder.get("part.row"), burnt(8, 0));
}

// Files of earlier versions.

/// FNV-1a, as published.
fn digest(bytes: &[u8]) -> u64 {
    bytes.iter().fold(0xcbf2_9ce4_8422_2325, |hash, byte| {
        (hash ^ u64::from(*byte)).wrapping_mul(0x0000_0100_0000_01b3)
    })
}

fn sealed(kind: &[u8; 8], fields: &[&[u8]]) -> Vec<u8> {
    let mut bytes = kind.to_vec();
    for field in fields {
        bytes.extend_from_slice(&(field.len() as u32).to_le_bytes());
        bytes.extend_from_slice(field);
    }
    bytes.extend_from_slice(&digest(&bytes).to_le_bytes());
    bytes
}

/// The files of the low recipe after its first save but one, as version 0.6.0 wrote them: memory file,
/// what was seen, and journal.
fn old_files(folder: &Folder, record: &[u8], row: &[u8]) -> [Vec<u8>; 3] {
    let path = |name: &str| folder.file(name).as_os_str().as_bytes().to_vec();
    let (image, number) = (burning(0, 8), |value: u64| value.to_le_bytes());
    let (row_path, slots_path) = (path("part.row"), path("line.slots"));
    let place = [&number(0)[..], &slots_path].concat();
    let (serial, length, mark) = (
        number(2),
        number(image.len() as u64),
        number(digest(&image)),
    );
    let (burnt, slot) = (number(1), number(0));
    let run: [&[u8]; 9] = [
        &row_path,
        &serial,
        &length,
        &mark,
        record,
        row,
        &burnt,
        &[0],
        &image,
    ];
    let mut journal: Vec<&[u8]> = vec![&slots_path, &slot, &place];
    journal.extend(run);
    [
        sealed(b"phuyMEM2", &run),
        sealed(b"phuySEE1", &[&serial, row, &place]),
        sealed(b"phuyJRN2", &journal),
    ]
}

/// Four steps of the low recipe: addi, lui, addi and the first store.
fn record_after_4() -> [u8; RECORD] {
    let mut state = State::fresh();
    (state.pc, state.count) = (16, 4);
    state.set_reg(5, 100);
    state.set_reg(6, 0x8000_0000);
    state.to_bytes()
}

#[test]
fn runs_of_earlier_versions_are_carried_on() {
    let (record, row) = (record_after_4(), burnt(1, 0));
    for is_cut_short in [false, true] {
        let folder = with_two();
        let [memory, seen, journal] = old_files(&folder, &record, &row);
        match is_cut_short {
            true => {
                folder.write("line.slots", &[0; RECORD]);
                folder.write("part.row.journal", &journal);
            }
            false => {
                folder.write("line.slots", &record);
                folder.write("part.row", &row);
                folder.write("line.slots.0.memory", &memory);
                folder.write("part.row.seen", &seen);
            }
        }
        let beside = high(&format!("--budget 9 {HIGH}"));
        assert_eq!(folder.call(&beside).code, 7, "it has all words");
        let line = low(&format!("--budget 9 {LOW}"));
        folder.fails(&line, 7, &["without masks"]);
        let next = folder.call(&low("--budget 4"));
        assert_eq!(next.code, 10, "{}", next.err);
        assert!(next.err.contains("carrying on the run in slot 0, count 4"));
        assert_eq!(folder.call(&low("--budget 100")).code, 0);
        assert_eq!(folder.get("part.row"), burnt(8, 0));
    }
}

/// What has no masks is written as it was, so that an earlier version can go back to it; what has masks
/// it does not take for its own.
#[test]
fn only_files_with_masks_are_of_a_new_version() {
    let folder = with_two();
    assert_eq!(folder.call(&low("--budget 4")).code, 10);
    let [memory, seen, _] = old_files(&folder, &record_after_4(), &burnt(1, 0));
    assert_eq!(folder.get("line.slots.0.memory"), memory);
    assert_eq!(folder.get("part.row.seen"), seen);
    let folder = with_both_paused();
    let kind = |name: &str| folder.get(name)[..8].to_vec();
    assert_eq!(kind("line.slots.0.memory"), b"phuyMEM3");
    assert_eq!(kind("part.row.seen"), b"phuySEE2");
    let in_the_way = folder.file("line.slots.1.memory.tmp");
    fs::create_dir(&in_the_way).expect("made");
    assert_eq!(folder.call(&high("--budget 1")).code, 3);
    assert_eq!(kind("part.row.journal"), b"phuyJRN3");
}

// Two paused runs on one row.

#[test]
fn two_recipes_take_turns() {
    let folder = with_both_paused();
    for _ in 0..7 {
        for line in [low("--budget 4"), high("--budget 4")] {
            assert_eq!(folder.call(&line).code, 10);
        }
    }
    for line in [low("--budget 4"), high("--budget 4")] {
        let end = folder.call(&line);
        assert_eq!(end.code, 0, "{}", end.err);
        let facts = "8 words burnt since the recipe's start, 0 of them in this run\n";
        assert!(end.out.contains(facts), "{}", end.out);
    }
    assert_eq!(folder.get("part.row"), burnt(8, 8));
}

/// The row is locked as ever, whosever its words are.
#[test]
fn two_recipes_do_not_run_at_the_same_time() {
    let folder = with_two();
    folder.write("endless.bin", &ENDLESS);
    let line = format!(
        "run endless.bin {FILES} --slot 0 --budget {} {LOW}",
        u64::MAX
    );
    let mut command = tool(&folder, &line);
    command.stdout(Stdio::null()).stderr(Stdio::null());
    let mut first = command.spawn().expect("started");
    folder.waits_for("part.row.seen");
    let words = ["part.row.lock: held by another run"];
    folder.fails(&high(&format!("--budget 9 {HIGH}")), 4, &words);
    first.kill().expect("killed");
    first.wait().expect("over");
    assert_eq!(folder.call(&high(&format!("--budget 100 {HIGH}"))).code, 0);
    assert_eq!(folder.get("part.row"), burnt(0, 8));
}

/// Refused for the low recipe's run, or for the high one's.
fn is_refused_beside(folder: &Folder, line: &str, own: &str, k: usize) {
    let place = format!("a run on it, with its own words {own}, is paused in slot {k} of ");
    let command = format!("--slots line.slots --slot {k} --budget N)");
    let words = [
        "part.row: ",
        &place,
        &command,
        "--own of other words",
        "--restart",
    ];
    for mode in ["", "--dry-run"] {
        is_refused(folder, &format!("{line} {mode}"), 7, &words);
    }
}

#[test]
fn a_start_that_shares_a_word_with_a_paused_run_is_refused() {
    let folder = with_both_paused();
    for place in ["line.slots --slot 2", "third.slots --slot 0"] {
        let start = format!("run low.bin --row part.row --slots {place} --budget 9");
        let first = if place.starts_with("line") {
            ("0-31", 0)
        } else {
            ("32-63", 1)
        };
        is_refused_beside(&folder, &start, first.0, first.1);
        is_refused_beside(&folder, &format!("{start} --own 31"), "0-31", 0);
        is_refused_beside(
            &folder,
            &format!("{start} --own 0-31 --other 32-63"),
            "0-31",
            0,
        );
        is_refused_beside(&folder, &format!("{start} --own 40-45"), "32-63", 1);
    }
}

#[test]
fn a_start_that_shares_no_word_is_let_through() {
    for (slots, k) in [("line.slots", 1), ("other.slots", 0), ("other.slots", 5)] {
        for (own, told) in [
            ("--own 32-63 --other 0-31", "--own 32-63 --other 0-31"),
            ("--own 32-39", "--own 32-39"),
            ("--own 0x000000ff00000000", "--own 32-39"),
        ] {
            let folder = with_two();
            assert_eq!(folder.call(&low("--budget 4 --own 0-31")).code, 10);
            let files = format!("--row part.row --slots {slots} --slot {k}");
            let start = format!("run high.bin {files} --budget 100 {own}");
            let done = folder.call(&start);
            assert_eq!((done.code, done.err), (0, started(k, told)), "{start}");
            assert_eq!(folder.call(&low("--budget 100")).code, 0);
            assert_eq!(folder.get("part.row"), burnt(8, 8));
        }
    }
}

/// It is let through, for neither has a word of the other, but one of the masks may be mistyped.
#[test]
fn a_start_that_does_not_agree_with_a_paused_run_is_told() {
    for (own, is_told) in [
        ("--own 40-63 --other 0-31", false),
        ("--own 32-63", true),
        ("--own 40-63 --other 0-30", true),
    ] {
        let folder = with_two();
        let first = "--budget 4 --own 0-31 --other 40-63";
        assert_eq!(folder.call(&low(first)).code, 10);
        let start = folder.call(&high(&format!("--budget 0 {own}")));
        assert_eq!(start.code, 10, "{}", start.err);
        let words = [
            "slot 0 of",
            "--own 0-31 --other 40-63,",
            own,
            "do not agree",
        ];
        let has_all = words.iter().all(|word| start.err.contains(word));
        assert_eq!(
            (has_all, start.err.lines().count()),
            (is_told, 1 + usize::from(is_told))
        );
        // Once is enough.
        assert!(!folder.call(&high("--budget 0")).err.contains("agree"));
    }
}

/// By name a start is let through as ever, and gives the run in its slot up; words that it shares with
/// others are told.
#[test]
fn a_restart_beside_paused_runs_is_asked_for_by_name() {
    let folder = with_both_paused();
    let third = format!("run low.bin {FILES} --slot 2 --budget 1 --restart --own all");
    let start = folder.call(&third);
    assert_eq!(start.code, 10, "{}", start.err);
    for (k, masks, shared) in [(0, LOW, "words 0-31"), (1, HIGH, "words 32-63")] {
        let both = format!("has {masks}, and this one --own all: both have {shared}");
        let place = format!("paused in slot {k} of ");
        let is_told = |line: &str| line.contains(&place) && line.ends_with(&both);
        assert!(start.err.lines().any(is_told), "{}", start.err);
    }
    assert_eq!(start.err.lines().count(), 3, "{}", start.err);
    // It has all words, and was saved last.
    for line in [low("--budget 1"), high("--budget 1")] {
        is_refused(&folder, &line, 7, &["saved later in slot 2", "--resume"]);
        assert_eq!(folder.call(&format!("{line} --resume")).code, 10);
        // Now it is the one that was saved last.
        assert_eq!(folder.call(&line).code, 10);
    }
    // Of the run that it gives up nothing is told.
    let folder = with_both_paused();
    let anew = folder.call(&low(&format!("--budget 9 --restart {LOW}")));
    assert_eq!((anew.code, anew.err), (19, started(0, LOW)));
}

// A start that names no masks, where runs have some.

/// Refused with these masks, in every mode that starts.
fn needs_masks(folder: &Folder, line: &str, modes: &[&str], masks: &str) {
    let has = format!("has {masks}: name the words of this one");
    for mode in modes {
        let line = format!("{line} {mode}");
        is_refused(folder, &line, 7, &["part.row: ", &has, "--own all"]);
    }
}

#[test]
fn a_start_beside_paused_runs_names_its_masks() {
    let folder = with_both_paused();
    let modes = ["--restart", "--restart --dry-run", "--restart --accept-row"];
    needs_masks(&folder, &low("--budget 9"), &modes, LOW);
    needs_masks(&folder, &high("--budget 9"), &modes, HIGH);
    let third = format!("run low.bin {FILES} --slot 2 --budget 9");
    needs_masks(&folder, &third, &modes, LOW);
    // From another slots file only their own words are looked for, also while they are away.
    let other = "run low.bin --row part.row --slots other.slots --slot 0 --budget 9";
    needs_masks(&folder, other, &modes, "--own 32-63");
    for name in ["line.slots", "line.slots.1.memory", "line.slots.0.memory"] {
        folder.remove(name);
    }
    needs_masks(&folder, other, &modes, "--own 32-63");
    let named = folder.call(&format!("{other} --restart --own all"));
    assert_eq!(named.code, 19, "{}", named.err);
}

/// Also where they have ended, and in their slots on any row: the next die's, perhaps.
#[test]
fn a_start_after_a_run_with_masks_names_its_own() {
    let folder = with_two();
    assert_eq!(folder.call(&low(&format!("--budget 100 {LOW}"))).code, 0);
    let modes = ["", "--dry-run", "--restart"];
    needs_masks(&folder, &low("--budget 9"), &modes, LOW);
    needs_masks(&folder, &high("--budget 9"), &modes, LOW);
    let next = |recipe: &str, k: usize, more: &str| {
        let files = format!("--row next-part.row --slots line.slots --slot {k}");
        format!("run {recipe}.bin {files} --budget 100 --new {more}")
    };
    for mode in modes {
        folder.fails(
            &next("low", 0, mode),
            7,
            &["next-part.row: ", LOW, "--own all"],
        );
    }
    assert!(!folder.has("next-part.row"));
    assert_eq!(folder.call(&next("low", 0, LOW)).code, 0);
    assert_eq!(folder.call(&high(&format!("--budget 100 {HIGH}"))).code, 0);
    assert_eq!(folder.get("part.row"), burnt(8, 8));
    // All words are had by name, and from then on without.
    for (own, code) in [("--own all", 19), ("", 19)] {
        let line = format!("run low.bin --row next-part.row --slots line.slots --slot 0 {own}");
        let done = folder.call(&format!("{line} --budget 100"));
        assert_eq!(done.code, code, "{}", done.err);
    }
}

/// A slot and a row that have nothing to do with masks need none.
#[test]
fn a_start_elsewhere_names_no_masks() {
    let folder = with_both_paused();
    let line = "run low.bin --row next.row --slots line.slots --slot 2 --budget 100 --new";
    let done = folder.call(line);
    assert_eq!(done.code, 0, "{}", done.err);
    assert!(!done.err.contains("--own"), "{}", done.err);
}

/// The report of the low recipe's end could not be written.
#[test]
fn an_end_that_was_not_told_is_not_passed_over_with_other_masks() {
    let folder = with_two();
    let full = fs::File::create("/dev/full").expect("there");
    let mut command = tool(&folder, &low(&format!("--budget 100 {LOW}")));
    let ended = command.stdout(full).stderr(Stdio::null()).status();
    assert_eq!(ended.expect("started").code(), Some(8));
    for other in ["--own 0-30 --other 32-63", "--own 0-31", "--own all", HIGH] {
        for mode in ["", "--resume", "--new", "--dry-run"] {
            let line = low(&format!("--budget 100 {other} {mode}"));
            is_refused(&folder, &line, 7, &[LOW, "or none", "--restart"]);
        }
    }
    let told = folder.call(&low(&format!("--budget 100 {LOW}")));
    assert_eq!(told.code, 0, "{}", told.err);
    assert!(told.out.starts_with("retired 0 in this run\n"));
    // Once it is told, a start may have others.
    let anew = folder.call(&low("--budget 100 --own 1-63"));
    assert_eq!(anew.code, 21, "{}", anew.err);
}

/// Also where the runs are in slots files of their own, and the other was paused or has ended later.
#[test]
fn each_paused_run_is_remembered_until_its_own_end() {
    let folder = with_two();
    let run = |recipe: &str, more: &str| {
        let files = format!("--row part.row --slots {recipe}.slots --slot 0");
        format!("run {recipe}.bin {files} {more}")
    };
    assert_eq!(
        folder.call(&run("low", &format!("--budget 4 {LOW}"))).code,
        10
    );
    assert_eq!(
        folder
            .call(&run("high", &format!("--budget 4 {HIGH}")))
            .code,
        10
    );
    let third = "run low.bin --row part.row --slots third.slots --slot 0 --budget 9";
    is_refused(&folder, third, 7, &["its own words 32-63", "high.slots"]);
    is_refused(
        &folder,
        &format!("{third} --own 0-7"),
        7,
        &["0-31", "low.slots"],
    );
    assert_eq!(folder.call(&run("high", "--budget 100")).code, 0);
    is_refused(&folder, third, 7, &["its own words 0-31", "low.slots"]);
    assert_eq!(folder.call(&run("low", "--budget 100")).code, 0);
    // None waits any more.
    assert_eq!(folder.call(third).code, 19);
}

/// That the other was saved later does not make an old copy a run of its own.
#[test]
fn a_copy_of_a_paused_run_is_told_from_it() {
    let folder = with_both_paused();
    for name in ["", ".0.memory"] {
        let bytes = folder.get(&format!("line.slots{name}"));
        folder.write(&format!("copy.slots{name}"), &bytes);
    }
    assert_eq!(folder.call(&low("--budget 4")).code, 10);
    assert_eq!(folder.call(&high("--budget 4")).code, 10);
    let copy = "run low.bin --row part.row --slots copy.slots --slot 0 --budget 100";
    folder.fails(copy, 7, &["saved later in slot 0", "line.slots", "copy"]);
    assert_eq!(folder.call(&low("--budget 100")).code, 0);
    assert_eq!(folder.call(&high("--budget 100")).code, 0);
    assert_eq!(folder.get("part.row"), burnt(8, 8));
}

#[test]
fn a_run_that_is_away_is_waited_for_by_those_that_share_its_words() {
    let folder = with_two();
    assert_eq!(folder.call(&low(&format!("--budget 4 {LOW}"))).code, 10);
    let names = ["line.slots", "line.slots.0.memory", "line.slots.0.lock"];
    let files = names.map(|name| (name, folder.get(name)));
    names.iter().for_each(|name| folder.remove(name));
    let words = ["line.slots", "bring it back", "--restart"];
    let other = |image: &str, more: &str| {
        format!("run {image} --row part.row --slots other.slots --slot 0 {more}")
    };
    for own in ["", "--own 31-63"] {
        is_refused(
            &folder,
            &other("low.bin", &format!("--budget 9 {own}")),
            6,
            &words,
        );
    }
    // Its own slots file is not made anew, whoever asks for it.
    for line in [low("--budget 9"), high(&format!("--budget 9 {HIGH}"))] {
        is_refused(&folder, &line, 6, &words);
    }
    let high = folder.call(&other("high.bin", &format!("--budget 4 {HIGH}")));
    assert_eq!((high.code, high.err), (10, started(0, HIGH)));
    for (name, bytes) in files {
        folder.write(name, &bytes);
    }
    assert_eq!(folder.call(&low("--budget 100")).code, 0);
    assert_eq!(folder.call(&other("high.bin", "--budget 100")).code, 0);
    assert_eq!(folder.get("part.row"), burnt(8, 8));
}

/// A save of one that was cut short is carried out by the other's next call, before it looks at the row.
#[test]
fn a_save_that_was_cut_short_is_carried_out_by_the_other() {
    let folder = with_both_paused();
    let in_the_way = folder.file("line.slots.1.memory.tmp");
    fs::create_dir(&in_the_way).expect("made");
    assert_eq!(folder.call(&high("--budget 8")).code, 3);
    fs::remove_dir(&in_the_way).expect("removed");
    assert_eq!(folder.get("part.row"), burnt(1, 1));
    let row = folder.call(&format!("row part.row {LOW}"));
    assert!(
        row.out
            .ends_with("(0xffffffff00000000), 3 burnt, 29 blank\n"),
        "{}",
        row.out
    );
    let next = folder.call(&low("--budget 4"));
    assert_eq!(next.code, 10, "{}", next.err);
    assert!(next.err.contains("has been carried out"), "{}", next.err);
    assert_eq!(folder.get("part.row"), burnt(2, 3));
    let state = Slots::new(folder.get("line.slots"))
        .read(1)
        .expect("a state");
    assert_eq!((state.count, state.stop()), (12, Ok(Stop::Paused)));
    assert_eq!(folder.call(&high("--budget 100")).code, 0);
    assert_eq!(folder.call(&low("--budget 100")).code, 0);
    assert_eq!(folder.get("part.row"), burnt(8, 8));
}

/// An old copy of the one's journal takes back none of the other's words.
#[test]
fn an_old_journal_takes_none_of_the_others_words_back() {
    let folder = with_both_paused();
    let in_the_way = folder.file("line.slots.1.memory.tmp");
    fs::create_dir(&in_the_way).expect("made");
    assert_eq!(folder.call(&high("--budget 8")).code, 3);
    fs::remove_dir(&in_the_way).expect("removed");
    folder.copy("part.row.journal", "old.journal");
    assert_eq!(folder.call(&low("--budget 8")).code, 10);
    folder.copy("old.journal", "part.row.journal");
    for line in [low("--budget 9"), high("--budget 9")] {
        let words = ["part.row.journal", "word 1 (burnt with 101) is blank"];
        is_refused(&folder, &line, 9, &words);
    }
    folder.remove("part.row.journal");
    assert_eq!(folder.call(&low("--budget 100")).code, 0);
}

#[test]
fn a_run_that_is_given_up_leaves_the_other_remembered() {
    let folder = with_both_paused();
    assert_eq!(folder.call("forget line.slots 1 --yes").code, 0);
    let third = "run low.bin --row part.row --slots third.slots --slot 0 --budget 9";
    is_refused(&folder, third, 7, &["its own words 0-31", "slot 0"]);
    let high =
        format!("run high.bin --row part.row --slots fourth.slots --slot 0 --budget 9 {HIGH}");
    assert_eq!(folder.call(&high).code, 19);
    assert_eq!(folder.call("forget line.slots 0 --yes").code, 0);
    assert_eq!(folder.call(third).code, 19);
}

#[test]
fn runs_in_a_folder_that_was_moved_are_adopted_with_their_masks() {
    let folder = with_two();
    fs::create_dir(folder.file("old")).expect("made");
    folder.write("old/part.row", &[0; ROW]);
    let run = |place: &str, recipe: &str, k: usize, more: &str| {
        let files = format!("--row {place}/part.row --slots {place}/line.slots --slot {k}");
        folder.call(&format!("run {recipe}.bin {files} {more}"))
    };
    assert_eq!(run("old", "low", 0, &format!("--budget 4 {LOW}")).code, 10);
    assert_eq!(
        run("old", "high", 1, &format!("--budget 4 {HIGH}")).code,
        10
    );
    fs::rename(folder.file("old"), folder.file("new")).expect("moved");
    for k in 0..2 {
        let adopted = folder.call(&format!(
            "adopt new/line.slots {k} --row new/part.row --yes"
        ));
        assert_eq!(adopted.code, 0, "{}", adopted.err);
        assert!(
            adopted.out.contains(&format!("is paused in slot {k} of ")),
            "{}",
            adopted.out
        );
    }
    let third = "run low.bin --row new/part.row --slots third.slots --slot 0 --budget 9";
    for (own, k) in [("--own 0-31", 0), ("--own 32-63", 1)] {
        let refused = folder.call(&format!("{third} {own}"));
        assert_eq!(refused.code, 7, "{}", refused.err);
        let command = format!("--slots new/line.slots --slot {k} ");
        assert!(refused.err.contains(&command), "{}", refused.err);
    }
    assert_eq!(run("new", "low", 0, "--budget 100").code, 0);
    assert_eq!(run("new", "high", 1, "--budget 100").code, 0);
    assert_eq!(folder.get("new/part.row"), burnt(8, 8));
}

/// On an exchanged part each is started over, with its masks.
#[test]
fn an_exchanged_part_is_trimmed_from_the_start_by_both() {
    let folder = with_both_paused();
    folder.write("part.row", &[0; ROW]);
    let words = "word 0 (burnt with 100) is blank, word 32 (burnt with 132) is blank";
    is_refused(&folder, &low("--budget 9"), 9, &[words]);
    let how = format!("(--accept-row --restart {LOW})");
    is_refused(&folder, &low("--budget 9 --accept-row"), 7, &[&how]);
    let anew = folder.call(&low(&format!("--budget 9 --accept-row --restart {LOW}")));
    assert_eq!(anew.code, 10, "{}", anew.err);
    let words = "word 32 (burnt with 132) is blank";
    is_refused(&folder, &high("--budget 9"), 9, &[words]);
    let anew = high(&format!("--budget 100 --accept-row --restart {HIGH}"));
    assert_eq!(folder.call(&anew).code, 0);
    assert_eq!(folder.call(&low("--budget 100")).code, 0);
    assert_eq!(folder.get("part.row"), burnt(8, 8));
}

#[test]
fn a_dry_run_in_turns_changes_no_file() {
    let folder = with_both_paused();
    let before = folder.snapshot();
    let dry = folder.call(&low("--budget 100 --dry-run"));
    assert_eq!(dry.code, 0, "{}", dry.err);
    assert!(
        dry.out.contains("\n7 words would be burnt in this run\n"),
        "{}",
        dry.out
    );
    let dry = folder.call(&high("--budget 100 --own 40 --restart --dry-run"));
    assert_eq!(dry.code, 21, "{}", dry.err);
    folder.is_as(&before);
}

// What is shown.

#[test]
fn status_shows_the_masks() {
    let folder = with_both_paused();
    let status = folder.call("status").out;
    for (k, masks) in [(0, LOW), (1, HIGH)] {
        let line = format!(
            "  slot {k}: paused at count 4, pc 16 (0x00000010), row part.row, 1 word burnt by it, {masks}\n    \
             next: phuyurik run IMAGE --row part.row --slots line.slots --slot {k} --budget N\n"
        );
        assert!(status.contains(&line), "{status}");
    }
    assert!(status.ends_with("nothing is wrong\n"), "{status}");
    let folder = with_two();
    assert_eq!(folder.call(&low("--budget 4")).code, 10);
    assert!(!folder.call("status").out.contains("--own"));
}

#[test]
fn row_shows_whose_each_word_is() {
    let folder = Folder::new();
    folder.write("part.row", &row_of(&[(0, 7), (33, 9), (40, 8)]));
    let words = |whose: [&str; 3]| {
        let [first, second, third] = whose;
        format!(
            "word  0 at 0x80000000: 7 (0x00000007){first}\n\
             word 33 at 0x80000084: 9 (0x00000009){second}\n\
             word 40 at 0x800000a0: 8 (0x00000008){third}\n3 burnt, 61 blank\n"
        )
    };
    let plain = folder.call("row part.row");
    assert_eq!((plain.code, plain.out), (0, words(["", "", ""])));
    let both = folder.call("row part.row --own 0-31 --other 32,40-63");
    let owners = "own: 0-31 (0x00000000ffffffff), 1 burnt, 31 blank\n\
                  the other's: 32,40-63 (0xffffff0100000000), 1 burnt, 24 blank\n\
                  no one's: 33-39 (0x000000fe00000000), 1 burnt, 6 blank\n";
    let text = words([", own", ", no one's", ", the other's"]) + owners;
    assert_eq!((both.code, both.out), (0, text));
    let own = folder.call("row part.row --own 0x1").out;
    let owners = "own: 0 (0x0000000000000001), 1 burnt, 0 blank\n\
                  not its own: 1-63 (0xfffffffffffffffe), 2 burnt, 61 blank\n";
    let whose = [", own", ", not its own", ", not its own"];
    assert_eq!(own, words(whose) + owners);
    let all = folder.call("row part.row --own all").out;
    let owners = "own: all (0xffffffffffffffff), 3 burnt, 61 blank\n";
    assert_eq!(all, words([", own", ", own", ", own"]) + owners);
}
