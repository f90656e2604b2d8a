//! What people do to a part and its files: they bring old copies back, mistype names, forget
//! options, take locks away. No burnt word is forgotten, and no run is thrown away.
mod bench;
mod common;

use bench::{burning, burnt_row, row_of, with_paper, Answer, Bench, ENDLESS, FILES};
use common::tool;
use phuyurik::{Slots, Stop, RECORD, ROW};
use std::fs::{self, File, Permissions};
use std::io::{ErrorKind, Read, Write};
use std::os::fd::OwnedFd;
use std::os::unix::fs::{symlink, MetadataExt, PermissionsExt};
use std::os::unix::net::UnixStream;
use std::process::{Child, Command, Stdio};
use std::time::{Duration, Instant};
use testing::Folder;

const MODES: [&str; 4] = ["", "--resume", "--restart", "--dry-run"];

/// A blank part, and a recipe that burns so many words, each with its own number, in four steps.
fn with_words(words: u32) -> Folder {
    let folder = with_paper();
    folder.write("trim.bin", &burning(0, words));
    folder
}

/// The first words, each burnt with 100 more than its number.
fn burnt(words: u32) -> Vec<u8> {
    let words: Vec<(usize, u32)> = (0..words).map(|word| (word as usize, 100 + word)).collect();
    row_of(&words)
}

fn run_line(more: &str) -> String {
    format!("run trim.bin {FILES} {more}")
}

/// Runs, but lets the save fail right after the journal was written, as a kill there would.
fn run_cut_short(folder: &Folder, more: &str) {
    let in_the_way = folder.file("line.slots.0.memory.tmp");
    fs::create_dir(&in_the_way).expect("made");
    let failed = folder.run(more);
    assert_eq!(failed.code, 3);
    assert!(failed.err.contains("line.slots.0.memory"), "{}", failed.err);
    fs::remove_dir(&in_the_way).expect("removed");
    assert!(folder.has("part.row.journal"));
}

/// In every mode refused with this code and these words, and nothing changes.
fn is_refused(folder: &Folder, more: &str, code: i32, words: &[&str]) {
    let before = folder.snapshot();
    for mode in MODES {
        folder.fails(&run_line(&format!("{more} {mode}")), code, words);
    }
    folder.is_as(&before);
}

fn remove_locks(folder: &Folder) {
    for name in folder.snapshot().keys() {
        if name.ends_with(".lock") {
            folder.remove(name);
        }
    }
}

fn in_background(folder: &Folder, line: &str) -> Child {
    let mut command = tool(folder, line);
    command.stdout(Stdio::null()).stderr(Stdio::null());
    command.spawn().expect("started")
}

// Point 1.

#[test]
fn an_old_journal_copied_back_unburns_nothing() {
    let folder = with_words(64);
    assert_eq!(folder.run("--slot 0 --budget 16").code, 10);
    run_cut_short(&folder, "--slot 0 --budget 4");
    folder.copy("part.row.journal", "old.journal");
    assert_eq!(folder.run("--slot 0 --budget 1000").code, 0);
    assert_eq!(folder.get("part.row"), burnt(64));
    folder.copy("old.journal", "part.row.journal");
    let words = [
        "part.row.journal",
        "word 5 (burnt with 105) is blank",
        "word 63 (burnt with 163) is blank",
        "settle",
    ];
    is_refused(&folder, "--slot 0 --budget 9", 9, &words);
    // That the part was exchanged does not make the journal newer.
    is_refused(&folder, "--slot 0 --budget 9 --accept-row", 9, &words);
    folder.fails(&run_line("--slot 1 --budget 9"), 9, &words);
    let shown = folder.call("row part.row");
    assert!(shown.out.ends_with("64 burnt, 0 blank\n"));
    assert!(shown.err.contains("shown is what the file holds"));
    // Also without the locks, without what was seen, and without both.
    remove_locks(&folder);
    is_refused_without_locks(&folder, &words);
    folder.remove("part.row.seen");
    is_refused_without_locks(&folder, &words);
    assert_eq!(folder.get("part.row"), burnt(64));
}

/// Lock files are made again; but for them nothing changes.
fn is_refused_without_locks(folder: &Folder, words: &[&str]) {
    remove_locks(folder);
    let before = folder.snapshot();
    folder.fails(&run_line("--slot 0 --budget 9"), 9, words);
    remove_locks(folder);
    folder.is_as(&before);
}

#[test]
fn a_journal_with_another_value_changes_none() {
    let folder = with_words(8);
    assert_eq!(folder.run("--slot 0 --budget 8").code, 10);
    run_cut_short(&folder, "--slot 0 --budget 8");
    // The row of another part, which has another value in word 2.
    let other = row_of(&[(0, 0), (1, 1), (2, 99)]);
    folder.write("part.row", &other);
    is_refused(
        &folder,
        "--slot 0 --budget 9",
        9,
        &["word 2 (burnt with 99) is 102"],
    );
    assert_eq!(folder.get("part.row"), other);
}

// Point 2.

#[test]
fn an_old_row_brought_back_is_refused() {
    let folder = with_words(8);
    assert_eq!(folder.run("--slot 0 --budget 8").code, 10);
    folder.copy("part.row", "old.row");
    folder.copy("part.row.seen", "old.seen");
    assert_eq!(folder.run("--slot 0 --budget 8").code, 10);
    folder.copy("old.row", "part.row");
    let words = [
        "part.row: ",
        "word 2 (burnt with 102) is blank, word 3 (burnt with 103) is blank",
        "--accept-row",
    ];
    is_refused(&folder, "--slot 0 --budget 9", 9, &words);
    // Also where what was seen is of that time: the run in slot 0 knows it, for all slots.
    folder.copy("old.seen", "part.row.seen");
    is_refused(&folder, "--slot 0 --budget 9", 9, &words);
    folder.fails(&run_line("--slot 1 --budget 9 --restart"), 9, &words);
    folder.remove("part.row.seen");
    is_refused(&folder, "--slot 0 --budget 9", 9, &words);
    folder.write("part.row", &burnt(4));
    assert_eq!(folder.run("--slot 0 --budget 100").code, 0);
    assert_eq!(folder.get("part.row"), burnt(8));
}

#[test]
fn a_blanked_row_is_refused() {
    let folder = with_words(2);
    assert_eq!(folder.run("--slot 0 --budget 5").code, 10);
    folder.write("part.row", &[0; ROW]);
    is_refused(
        &folder,
        "--slot 0 --budget 9",
        9,
        &["word 0 (burnt with 100) is blank"],
    );
    assert_eq!(folder.get("part.row"), vec![0; ROW]);
}

#[test]
fn swapped_rows_are_refused() {
    let folder = with_words(2);
    folder.write("other.bin", &burning(1, 2));
    folder.write("other.row", &row_of(&[(1, 77)]));
    assert_eq!(folder.run("--slot 0 --budget 8").code, 10);
    let other = "run trim.bin --row other.row --slots line.slots --slot 1 --budget 8";
    assert_eq!(folder.call(other).code, 19);
    folder.copy("part.row", "swap");
    folder.copy("other.row", "part.row");
    folder.copy("swap", "other.row");
    let words = ["word 1 (burnt with 101) is 77"];
    is_refused(&folder, "--slot 0 --budget 9", 9, &words);
    folder.fails(other, 9, &["other.row", "word 1 (burnt with 77) is 101"]);
}

#[test]
fn an_exchanged_part_is_accepted_by_name() {
    let folder = with_words(4);
    assert_eq!(folder.run("--slot 0 --budget 8").code, 10);
    folder.write("part.row", &row_of(&[(10, 5)]));
    let words = ["word 0 (burnt with 100) is blank, word 1 (burnt with 101) is blank"];
    is_refused(&folder, "--slot 0 --budget 4", 9, &words);
    // What the run burnt is not on this part: carried on, it would come out half trimmed.
    let line = run_line("--slot 0 --budget 4 --accept-row");
    folder.fails(&line, 7, &["burnt words", "--accept-row --restart"]);
    let accepted = folder.call(&format!("{line} --restart"));
    assert_eq!(accepted.code, 10, "{}", accepted.err);
    assert!(accepted.err.contains("accepted"), "{}", accepted.err);
    assert!(accepted.err.contains(words[0]), "{}", accepted.err);
    let facts = "1 word burnt since the recipe's start, 1 of them in this run\n\
                 word 0 burnt with 100 (0x00000064) in this run\n";
    assert!(accepted.out.ends_with(facts), "{}", accepted.out);
    // From now on it is this part that is known.
    assert_eq!(folder.run("--slot 0 --budget 100").code, 0);
    let all = [(0, 100), (1, 101), (2, 102), (3, 103), (10, 5)];
    assert_eq!(folder.get("part.row"), row_of(&all));
    folder.write("part.row", &burnt(4));
    let words = ["word 10 (burnt with 5) is blank"];
    is_refused(&folder, "--slot 0 --budget 4", 9, &words);
}

/// That a part was exchanged was said for one run; another one that was paused on the old part knows
/// better what it burnt.
#[test]
fn a_run_paused_on_the_old_part_is_asked_for_itself() {
    let folder = with_words(4);
    assert_eq!(folder.run("--slot 0 --budget 6").code, 10);
    folder.write("part.row", &[0; ROW]);
    let other = folder.run("--slot 1 --budget 1 --accept-row --restart");
    assert_eq!(other.code, 10, "{}", other.err);
    for mode in ["", "--dry-run"] {
        let line = run_line(&format!("--slot 0 --budget 9 {mode}"));
        folder.fails(&line, 7, &["saved later", "slot 1", "--resume"]);
    }
    let line = run_line("--slot 0 --budget 9 --resume");
    folder.fails(&line, 9, &["word 0 (burnt with 100) is blank"]);
    let line = run_line("--slot 0 --budget 100 --accept-row");
    folder.fails(&format!("{line} --resume"), 7, &["--accept-row --restart"]);
    // Started over it is this part's run.
    assert_eq!(folder.call(&format!("{line} --restart")).code, 0);
    assert_eq!(folder.get("part.row"), burnt(4));
}

// Point 3.

#[test]
fn a_mistyped_name_is_no_new_part() {
    let folder = with_words(1);
    let before = folder.snapshot();
    for mode in MODES {
        let line =
            format!("run trim.bin --row prat.row --slots line.slots --slot 0 --budget 9 {mode}");
        folder.fails(&line, 6, &["prat.row: missing", "--new"]);
    }
    folder.is_as(&before);
}

#[test]
fn a_new_part_is_asked_for_by_name() {
    let folder = with_words(1);
    let line = run_line("--slot 0 --budget 9 --new");
    let before = folder.snapshot();
    folder.fails(&line, 2, &["part.row is there already", "leave --new out"]);
    folder.is_as(&before);
    folder.remove("part.row");
    let made = folder.call(&line);
    assert_eq!(made.code, 0, "{}", made.err);
    assert!(made.err.contains("part.row: a new part, its row blank"));
    assert_eq!(folder.get("part.row"), burnt(1));
}

#[test]
fn a_row_that_is_gone_is_no_new_part_either() {
    let folder = with_words(2);
    assert_eq!(folder.run("--slot 0 --budget 1").code, 10);
    folder.remove("part.row");
    // No word was burnt, but a run is paused there: in this slot and for all others.
    for slot in 0..2 {
        let line = run_line(&format!("--slot {slot} --budget 9 --new"));
        let words = ["part.row: missing", "slot 0", "paused run", "--accept-row"];
        folder.fails(&line, 7, &words);
        assert!(!folder.has("part.row"));
    }
    folder.write("part.row", &[0; ROW]);
    assert_eq!(folder.run("--slot 0 --budget 9").code, 0);
    folder.remove("part.row");
    let line = run_line("--slot 0 --budget 9 --new");
    folder.fails(&line, 9, &["word 0 (burnt with 100) is blank"]);
    assert!(!folder.has("part.row"));
    let accepted = folder.call(&format!("{line} --accept-row"));
    assert_eq!(accepted.code, 0, "{}", accepted.err);
    assert_eq!(folder.get("part.row"), burnt(2));
}

#[test]
fn a_link_into_an_unmounted_folder_is_kept() {
    let folder = with_words(1);
    folder.remove("part.row");
    symlink("stick/part.row", folder.file("part.row")).expect("linked");
    let before = folder.snapshot();
    for more in ["", "--new", "--resume", "--dry-run"] {
        let line = run_line(&format!("--slot 0 --budget 9 {more}"));
        folder.fails(
            &line,
            6,
            &["part.row: a link to stick/part.row, which is missing"],
        );
    }
    folder.is_as(&before);
    // Mounted, it is the part; its files are beside it there.
    fs::create_dir(folder.file("stick")).expect("made");
    folder.write("stick/part.row", &[0; ROW]);
    assert_eq!(folder.run("--slot 0 --budget 9").code, 0);
    assert_eq!(folder.get("stick/part.row"), burnt(1));
    assert!(folder.has("stick/part.row.seen") && !folder.has("part.row.seen"));
    let link = fs::read_link(folder.file("part.row")).expect("still a link");
    assert_eq!(link.as_os_str(), "stick/part.row");
}

// Point 4.

fn set_mode(folder: &Folder, name: &str, mode: u32) {
    fs::set_permissions(folder.file(name), Permissions::from_mode(mode)).expect("set");
}

#[test]
fn a_write_protected_row_is_refused() {
    let folder = with_words(2);
    set_mode(&folder, "part.row", 0o444);
    let line = run_line("--slot 0 --budget 9");
    folder.fails(&line, 3, &["part.row: write-protected"]);
    assert_eq!(folder.get("part.row"), vec![0; ROW]);
    assert!(!folder.has("line.slots") && !folder.has("part.row.journal"));
    set_mode(&folder, "part.row", 0o644);
    assert_eq!(folder.run("--slot 0 --budget 1").code, 10);
    for name in ["part.row", "line.slots"] {
        set_mode(&folder, name, 0o444);
        let words = [&*format!("{name}: write-protected")];
        is_refused(&folder, "--slot 0 --budget 9", 3, &words);
        set_mode(&folder, name, 0o644);
    }
    // A save that was cut short waits until it may be written.
    run_cut_short(&folder, "--slot 0 --budget 9");
    set_mode(&folder, "part.row", 0o400);
    is_refused(
        &folder,
        "--slot 0 --budget 9",
        3,
        &["part.row: write-protected"],
    );
    set_mode(&folder, "part.row", 0o600);
    assert_eq!(folder.run("--slot 0 --budget 9 --resume").code, 0);
    assert_eq!(folder.get("part.row"), burnt(2));
}

#[test]
fn mode_owner_and_the_file_itself_are_kept() {
    let folder = with_words(2);
    assert_eq!(folder.run("--slot 0 --budget 1").code, 10);
    let files = [
        "part.row",
        "line.slots",
        "part.row.seen",
        "line.slots.0.memory",
    ];
    for name in files {
        set_mode(&folder, name, 0o640);
        // Only root can; for others the owner stays the same one anyway.
        let _ = std::os::unix::fs::chown(folder.file(name), Some(12345), Some(12346));
    }
    let about = |name: &str| fs::metadata(folder.file(name)).expect("there");
    let kept = |name: &str| (about(name).mode(), about(name).uid(), about(name).gid());
    let inodes = || files.map(|name| about(name).ino());
    let (before, inodes_before) = (files.map(kept), inodes());
    assert_eq!(folder.run("--slot 0 --budget 9").code, 0);
    assert_eq!(files.map(kept), before);
    assert_eq!(inodes()[..2], inodes_before[..2]);
    assert_eq!(folder.get("part.row"), burnt(2));
}

#[test]
fn a_row_with_a_second_name_is_refused() {
    let folder = with_words(1);
    fs::hard_link(folder.file("part.row"), folder.file("same.row")).expect("linked");
    let line = run_line("--slot 0 --budget 9");
    folder.fails(&line, 3, &["part.row", "2 names (hard links)"]);
    assert_eq!(folder.get("same.row"), vec![0; ROW]);
    folder.remove("same.row");
    assert_eq!(folder.call(&line).code, 0);
}

#[test]
fn a_row_behind_a_link_is_written_where_it_is() {
    let folder = with_words(1);
    fs::rename(folder.file("part.row"), folder.file("real.row")).expect("renamed");
    symlink("real.row", folder.file("part.row")).expect("linked");
    assert_eq!(folder.run("--slot 0 --budget 9").code, 0);
    assert_eq!(folder.get("real.row"), burnt(1));
    assert!(fs::read_link(folder.file("part.row")).is_ok());
    // It is one part under both names.
    let line = "run trim.bin --row real.row --slots line.slots --slot 0 --budget 9 --resume";
    assert_eq!(folder.call(line).code, 0);
}

#[test]
fn no_link_is_followed_to_a_victim() {
    let folder = with_words(1);
    folder.remove("part.row");
    folder.write("victim", b"kept");
    let names = [
        "part.row.tmp",
        "part.row.journal.tmp",
        "part.row.seen.tmp",
        "line.slots.tmp",
        "line.slots.0.memory.tmp",
    ];
    for name in names {
        symlink("victim", folder.file(name)).expect("linked");
    }
    assert_eq!(folder.run("--slot 0 --budget 9 --new").code, 0);
    assert_eq!(folder.get("victim"), b"kept");
    assert_eq!(folder.get("part.row"), burnt(1));
    assert!(folder
        .file("part.row")
        .symlink_metadata()
        .expect("there")
        .is_file());
    for (name, target) in [
        ("part.row.lock", "victim"),
        ("line.slots.0.lock", "nowhere"),
    ] {
        folder.remove(name);
        symlink(target, folder.file(name)).expect("linked");
        let line = run_line("--slot 0 --budget 9");
        folder.fails(&line, 3, &[name, "a lock file goes there"]);
        folder.remove(name);
    }
    assert_eq!(folder.get("victim"), b"kept");
    assert!(!folder.has("nowhere"));
}

// Point 5.

#[test]
fn a_paused_run_is_carried_on_and_given_up_only_by_name() {
    let folder = with_words(8);
    assert_eq!(folder.run("--slot 0 --budget 6").code, 10);
    // The command that once began anew.
    let again = folder.run("--slot 0 --budget 6");
    assert_eq!(again.code, 10);
    assert!(again.out.contains("\ncount 12\n"), "{}", again.out);
    assert!(again.err.contains("carrying on the run in slot 0, count 6"));
    // With another recipe it is refused, not replaced.
    folder.write("other.bin", &burning(20, 1));
    let before = folder.snapshot();
    let other = format!("run other.bin {FILES} --slot 0 --budget 9");
    folder.fails(&other, 7, &["another image", "--restart"]);
    folder.is_as(&before);
    // By name it is.
    let other = folder.call(&format!("{other} --restart"));
    assert_eq!(other.code, 0, "{}", other.err);
    assert_eq!(
        folder.get("part.row"),
        row_of(&[(0, 100), (1, 101), (2, 102), (20, 120)])
    );
    let line = run_line("--slot 0 --budget 9 --resume");
    folder.fails(&line, 7, &["another image"]);
}

#[test]
fn a_restart_of_a_recipe_that_had_burnt_stops_at_its_first_word() {
    let folder = with_words(8);
    assert_eq!(folder.run("--slot 0 --budget 6").code, 10);
    let restarted = folder.run("--slot 0 --budget 100 --restart");
    assert_eq!(restarted.code, 19);
    assert!(restarted
        .out
        .starts_with("retired 3 in this run\ncount 3\n"));
    assert_eq!(folder.get("part.row"), burnt(1));
}

// An end that was not told.

/// What is told of the end of a recipe of two words by a call that did nothing else.
const END: &str = "retired 0 in this run\ncount 8\nstop 1: ecall\npc 32 (0x00000020)\n\
                   2 words burnt since the recipe's start, 0 of them in this run\n\
                   word 0 burnt with 100 (0x00000064)\nword 1 burnt with 101 (0x00000065)\n";
const NOT_TOLD: &str = "phuyurik: note: the run in slot 0 had ended, and its end was not told\n";

/// The recipe comes to its end, and its report cannot be written.
fn ends_unheard(folder: &Folder) {
    let run = run_line("--slot 0 --budget 100");
    let full = in_shell(folder, &format!("phuyurik {run} > /dev/full"));
    assert_eq!((full.code, &*full.out), (8, ""));
}

fn with_end_not_told() -> Folder {
    let folder = with_words(2);
    ends_unheard(&folder);
    assert_eq!(folder.get("part.row"), burnt(2));
    folder
}

/// The same command tells the end, and when it has, starts the recipe anew.
fn tells_its_end(folder: &Folder) {
    let told = folder.run("--slot 0 --budget 100");
    assert_eq!((told.code, &*told.out, &*told.err), (0, END, NOT_TOLD));
    starts_anew(folder, "");
}

fn starts_anew(folder: &Folder, mode: &str) {
    let anew = folder.run(&format!("--slot 0 --budget 100 {mode}"));
    assert_eq!((anew.code, &*anew.err), (19, ""));
    assert!(anew.out.starts_with("retired 3 in this run\ncount 3\n"));
    assert_eq!(folder.get("part.row"), burnt(2));
}

/// A standard output that takes nothing more, and its other end.
fn full_output() -> (UnixStream, UnixStream) {
    let (mut full, reader) = UnixStream::pair().expect("made");
    full.set_nonblocking(true).expect("set");
    let failed = loop {
        if let Err(why) = full.write_all(b"x") {
            break why;
        }
    };
    assert_eq!(failed.kind(), ErrorKind::WouldBlock);
    full.set_nonblocking(false).expect("set");
    (full, reader)
}

/// Not only dropped: a process that another test has just started may still have the file open.
fn let_go(lock: &File) {
    lock.unlock().expect("let go");
}

/// A run in slot 0 that has saved its end and let its locks go, and cannot print.
fn before_it_prints(folder: &Folder, line: &str) -> (Child, UnixStream) {
    let (full, reader) = full_output();
    let mut command = tool(folder, line);
    command.stdout(OwnedFd::from(full)).stderr(Stdio::null());
    let child = command.spawn().expect("started");
    let has_ended = || {
        let slots = fs::read(folder.file("line.slots")).unwrap_or_default();
        slots.get(136) == Some(&Stop::Ecall.number()) && !folder.has("part.row.journal")
    };
    let is_free = |name: &str| {
        let lock = File::open(folder.file(name)).expect("there");
        let is_free = lock.try_lock().is_ok();
        let_go(&lock);
        is_free
    };
    let clock = Instant::now();
    while !(has_ended() && is_free("part.row.lock") && is_free("line.slots.0.lock")) {
        assert!(clock.elapsed() < Duration::from_secs(20), "no end");
        std::thread::sleep(Duration::from_millis(2));
    }
    (child, reader)
}

#[test]
fn an_end_that_could_not_be_written_is_told_by_the_next_call() {
    tells_its_end(&with_end_not_told());
    // By name, too, and again and again.
    let folder = with_end_not_told();
    for _ in 0..2 {
        let told = folder.run("--slot 0 --budget 100 --resume");
        assert_eq!((told.code, &*told.out, &*told.err), (0, END, ""));
    }
    starts_anew(&folder, "");
    starts_anew(&with_end_not_told(), "--restart");
}

#[test]
fn a_run_killed_between_its_last_save_and_its_report_tells_its_end_later() {
    let folder = with_words(2);
    let line = run_line("--slot 0 --budget 100 --piece 3");
    let (mut killed, _reader) = before_it_prints(&folder, &line);
    killed.kill().expect("killed");
    assert_eq!(killed.wait().expect("over").code(), None);
    tells_its_end(&folder);
}

#[test]
fn a_reader_that_went_away_has_heard_of_no_end() {
    let folder = with_words(2);
    let (output, reader) = UnixStream::pair().expect("made");
    drop(reader);
    let mut command = tool(&folder, &run_line("--slot 0 --budget 100"));
    command.stdout(OwnedFd::from(output));
    assert_eq!(command.status().expect("started").code(), Some(0));
    drop(command);
    tells_its_end(&folder);
}

#[test]
fn a_dry_run_tells_an_end_and_leaves_it_to_be_told() {
    let folder = with_end_not_told();
    let before = folder.snapshot();
    let dry = folder.run("--slot 0 --budget 100 --dry-run");
    assert_eq!((dry.code, &*dry.err), (0, NOT_TOLD));
    assert!(dry.out.ends_with("dry run: no file was changed\n"));
    folder.is_as(&before);
    tells_its_end(&folder);
}

/// Printed while another has the slot, or after another run was started in it.
#[test]
fn an_end_is_marked_as_told_only_where_it_is_still_the_slots_own() {
    let folder = with_words(2);
    let line = run_line("--slot 0 --budget 100");
    let (mut first, mut reader) = before_it_prints(&folder, &line);
    let held = File::open(folder.file("line.slots.0.lock")).expect("there");
    held.try_lock().expect("free");
    let mut read = Vec::new();
    reader.read_to_end(&mut read).expect("read");
    assert!(read.ends_with(b"word 1 burnt with 101 (0x00000065) in this run\n"));
    assert_eq!(first.wait().expect("over").code(), Some(0));
    let_go(&held);
    tells_its_end(&folder);

    let folder = with_words(2);
    let (mut first, mut reader) = before_it_prints(&folder, &line);
    let other = folder.run("--slot 0 --budget 100 --restart");
    assert_eq!((other.code, &*other.err), (19, ""));
    assert_eq!(folder.run("--slot 0 --budget 1").code, 10);
    let before = folder.snapshot();
    reader.read_to_end(&mut read).expect("read");
    assert_eq!(first.wait().expect("over").code(), Some(0));
    folder.is_as(&before);
}

/// The end of another recipe, of one with another memory, or of one on another part.
#[test]
fn the_end_of_another_run_is_not_told_for_this_one() {
    let folder = with_end_not_told();
    folder.write("other.bin", &burning(20, 1));
    let other = folder.call(&format!("run other.bin {FILES} --slot 0 --budget 100"));
    assert_eq!((other.code, &*other.err), (0, ""));
    assert!(other.out.starts_with("retired 4 in this run\n"));
    starts_anew(&with_end_not_told(), "--memory 100");
    for (new, is_there) in [("--accept-row", true), ("--accept-row --new", false)] {
        let folder = with_end_not_told();
        match is_there {
            true => drop(folder.write("part.row", &[0; ROW])),
            false => folder.remove("part.row"),
        }
        let part = folder.run(&format!("--slot 0 --budget 100 {new}"));
        assert_eq!(part.code, 0, "{}", part.err);
        assert!(part.out.starts_with("retired 8 in this run\n"));
        assert!(!part.err.contains("not told"), "{}", part.err);
        assert_eq!(folder.get("part.row"), burnt(2));
    }
}

/// Also where nothing was burnt that would tell the two parts apart.
#[test]
fn the_end_on_another_part_is_not_told_for_a_new_one() {
    let folder = with_paper();
    // addi x0,x0,0; ecall
    folder.write("trim.bin", &[0x13, 0, 0, 0, 0x73, 0, 0, 0]);
    ends_unheard(&folder);
    folder.remove("part.row");
    let part = folder.run("--slot 0 --budget 100 --new");
    assert_eq!(part.code, 0, "{}", part.err);
    assert!(part.out.starts_with("retired 1 in this run\n"));
}

#[test]
fn status_says_how_an_end_is_told() {
    let folder = with_end_not_told();
    let status = folder.call("status").out;
    let next = "phuyurik run IMAGE --row part.row --slots line.slots --slot 0 --budget N --resume";
    let words = format!(
        "  slot 0: stop 1: ecall at count 8, pc 32 (0x00000020), row part.row, 2 words burnt by it\n    \
         note: it has ended, and its end was not told\n    next: {next}\n"
    );
    assert!(status.contains(&words), "{status}");
    let typed = next.replace("IMAGE", "trim.bin").replace('N', "9");
    assert_eq!(in_shell(&folder, &typed).out, END);
    let status = folder.call("status").out;
    assert!(!status.contains("told") && !status.contains("next"));
}

// A start beside a paused run.

/// Refused for the run that is paused there, and nothing is changed or left behind.
fn is_refused_beside(folder: &Folder, line: &str, slots: &str, k: usize) {
    let before = folder.snapshot();
    let place = format!("a run on it is paused in slot {k} of ");
    let command =
        format!("(phuyurik run IMAGE --row part.row --slots {slots} --slot {k} --budget N)");
    let words = ["part.row: ", &place, slots, &command, "--restart"];
    for mode in ["", "--dry-run", "--accept-row"] {
        folder.fails(&format!("{line} {mode}"), 7, &words);
    }
    folder.is_as(&before);
}

fn line_in(slots: &str, more: &str) -> String {
    format!("run trim.bin --row part.row --slots {slots} --slot 0 {more}")
}

#[test]
fn a_mistyped_slot_starts_nothing_beside_a_paused_run() {
    let folder = with_words(4);
    folder.write("other.bin", &burning(20, 1));
    let other = format!("run other.bin {FILES} --slot 2 --budget 9");
    assert_eq!(folder.call(&other).code, 0);
    assert_eq!(folder.run("--slot 0 --budget 6").code, 10);
    // In a slot that is empty, and in one that has the end of another run.
    for slot in 1..3 {
        let line = run_line(&format!("--slot {slot} --budget 100"));
        is_refused_beside(&folder, &line, "line.slots", 0);
    }
    is_refused_beside(&folder, &other, "line.slots", 0);
    assert_eq!(folder.run("--slot 0 --budget 100").code, 0);
    let anew = folder.run("--slot 1 --budget 100");
    assert_eq!((anew.code, &*anew.err), (19, ""));
}

#[test]
fn a_mistyped_slots_file_starts_nothing_beside_a_paused_run() {
    let folder = with_words(4);
    assert_eq!(folder.run("--slot 0 --budget 6").code, 10);
    let mistyped = line_in("lien.slots", "--budget 100");
    is_refused_beside(&folder, &mistyped, "line.slots", 0);
    let done = folder.run("--slot 0 --budget 100");
    assert_eq!(done.code, 0);
    assert!(done.out.contains("4 words burnt since the recipe's start"));
    // It waits no more.
    assert_eq!(folder.call(&mistyped).code, 19);
}

#[test]
fn a_start_beside_a_paused_run_is_asked_for_by_name() {
    let folder = with_words(4);
    folder.write("other.bin", &burning(20, 1));
    assert_eq!(folder.run("--slot 0 --budget 6").code, 10);
    let before = slot_files(&folder);
    for slots in ["line.slots --slot 1", "more.slots --slot 0"] {
        let other = format!("run other.bin --row part.row --slots {slots} --budget 1");
        assert_eq!(folder.call(&other).code, 7);
        let started = folder.call(&format!("{other} --restart"));
        assert_eq!((started.code, &*started.err), (10, ""));
        let [slots, memory] = slot_files(&folder);
        assert_eq!((&slots[..RECORD], &memory), (&before[0][..], &before[1]));
    }
    // All of them are carried on where they are.
    let other = "run other.bin --row part.row --slots more.slots --slot 0 --budget 9";
    assert_eq!(folder.call(other).code, 0);
    // Whatever was last paused elsewhere, the slots of a slots file are looked at themselves.
    let line = run_line("--slot 2 --budget 9");
    is_refused_beside(&folder, &line, "line.slots", 0);
    assert_eq!(folder.run("--slot 0 --budget 100").code, 0);
    let other = format!("run other.bin {FILES} --slot 1 --budget 9");
    assert_eq!(folder.call(&other).code, 19);
}

/// Another run's end does not make the paused one forgotten.
#[test]
fn the_run_that_was_last_paused_is_remembered_until_its_own_end() {
    let folder = with_words(4);
    folder.write("other.bin", &burning(20, 2));
    let other = "run other.bin --row part.row --slots more.slots --slot 0";
    assert_eq!(folder.run("--slot 0 --budget 2").code, 10);
    assert_eq!(
        folder.call(&format!("{other} --budget 2 --restart")).code,
        10
    );
    let third = line_in("third.slots", "--budget 9");
    is_refused_beside(&folder, &third, "more.slots", 0);
    // Of the two the default carries on the one that was saved last.
    folder.fails(
        &run_line("--slot 0 --budget 2"),
        7,
        &["more.slots", "--resume"],
    );
    assert_eq!(folder.run("--slot 0 --budget 2 --resume").code, 10);
    assert_eq!(
        folder.call(&format!("{other} --budget 100 --resume")).code,
        0
    );
    is_refused_beside(&folder, &third, "line.slots", 0);
    assert_eq!(folder.run("--slot 0 --budget 100").code, 0);
    assert_eq!(folder.call(&third).code, 19);
}

#[test]
fn a_run_that_is_away_is_waited_for_until_it_is_given_up() {
    let mistyped = line_in("lien.slots", "--budget 100");
    let remembers = |folder: &Folder| {
        let seen = folder.get("part.row.seen");
        seen.windows(10).any(|bytes| bytes == b"line.slots")
    };
    let paused = || {
        let folder = with_words(4);
        assert_eq!(folder.run("--slot 0 --budget 6").code, 10);
        assert!(remembers(&folder));
        folder
    };
    let folder = paused();
    assert_eq!(folder.call("forget line.slots 0 --yes").code, 0);
    assert!(!remembers(&folder));
    assert_eq!(folder.call(&mistyped).code, 19);
    // Gone, or damaged: a folder that is not mounted, a file that will be brought back.
    let words = ["line.slots", "bring it back", "--restart"];
    let folder = paused();
    folder.remove("line.slots.0.memory");
    folder.fails(&mistyped, 6, &words);
    let folder = paused();
    folder.write("line.slots.0.memory", b"torn");
    folder.fails(&mistyped, 6, &words);
    folder.fails(&run_line("--slot 1 --budget 100"), 6, &words);
    let beside = folder.run("--slot 1 --budget 100 --restart");
    assert_eq!(beside.code, 19);
    assert!(beside.err.contains("line.slots.0.memory: damaged"));
    assert!(beside.err.contains("passed over"));
}

/// The first save of a run, too, is one of a paused run.
#[test]
fn a_save_that_was_cut_short_is_carried_out_before_a_start_beside_it_is_refused() {
    let folder = with_words(4);
    run_cut_short(&folder, "--slot 0 --budget 6");
    let refused = folder.run("--slot 1 --budget 100");
    assert_eq!((refused.code, &*refused.out), (7, ""));
    assert!(refused.err.contains("has been carried out"));
    assert!(refused.err.contains("paused in slot 0 of"));
    assert_eq!(folder.run("--slot 0 --budget 100").code, 0);
}

/// With its files in a folder that is moved, and a save that was cut short, or none.
#[test]
fn a_run_that_was_moved_is_remembered_where_it_is_now() {
    for is_cut_short in [false, true] {
        let folder = with_words(4);
        fs::create_dir(folder.file("old")).expect("made");
        let run = |place: &str, slots: &str, more: &str| {
            let files = format!("--row {place}/part.row --slots {place}/{slots}");
            folder.call(&format!("run trim.bin {files} --slot 0 {more}"))
        };
        assert_eq!(run("old", "line.slots", "--budget 6 --new").code, 10);
        if is_cut_short {
            let in_the_way = folder.file("old/line.slots.0.memory.tmp");
            fs::create_dir(&in_the_way).expect("made");
            assert_eq!(run("old", "line.slots", "--budget 4").code, 3);
            fs::remove_dir(&in_the_way).expect("removed");
        }
        fs::rename(folder.file("old"), folder.file("new")).expect("moved");
        let adopted = folder.call("adopt new/line.slots 0 --row new/part.row --yes");
        assert_eq!(adopted.code, 0, "{}", adopted.err);
        let refused = run("new", "lien.slots", "--budget 100");
        assert_eq!(refused.code, 7, "{}", refused.err);
        let command = "--row new/part.row --slots new/line.slots --slot 0 ";
        assert!(refused.err.contains(command), "{}", refused.err);
        assert_eq!(run("new", "line.slots", "--budget 100").code, 0);
        assert_eq!(folder.get("new/part.row"), burnt(4));
    }
}

// Point 6.

/// The slots file, and the memory file of slot 0.
fn slot_files(folder: &Folder) -> [Vec<u8>; 2] {
    ["line.slots", "line.slots.0.memory"].map(|name| folder.get(name))
}

#[test]
fn without_locks_an_old_journal_overwrites_no_other_run() {
    let folder = with_words(2);
    folder.write("other.row", &[0; ROW]);
    run_cut_short(&folder, "--slot 0 --budget 100");
    folder.copy("part.row.journal", "old.journal");
    assert_eq!(folder.run("--slot 0 --budget 100").code, 0);
    run_over_again(&folder);
    let other = "run trim.bin --row other.row --slots line.slots --slot 0 --budget 6";
    assert_eq!(folder.call(other).code, 10);
    let before = slot_files(&folder);
    let taken_back = "word 0 (burnt with 100) is blank";
    is_refused_for_slot(&folder, "old.journal", true, 9, taken_back);
    is_refused_for_slot(&folder, "old.journal", false, 9, taken_back);
    is_refused_for_slot(&folder, "last.journal", true, 7, "an old copy of a save");
    is_refused_for_slot(
        &folder,
        "last.journal",
        false,
        7,
        "slot 0 holds a paused run on",
    );
    assert_eq!(slot_files(&folder), before);
    let resumed = folder.call(&format!("{other} --resume"));
    let facts = "retired 2 in this run\ncount 8\nstop 1: ecall\n";
    assert!(resumed.out.starts_with(facts), "{}", resumed.out);
}

/// An old journal, copied back where the locks were removed, and what was seen, too, if it is so:
/// refused in the slot that it would be carried out in, and in any other.
fn is_refused_for_slot(folder: &Folder, journal: &str, with_seen: bool, code: i32, words: &str) {
    let seen = folder.get("part.row.seen");
    if !with_seen {
        folder.remove("part.row.seen");
    }
    remove_locks(folder);
    folder.copy(journal, "part.row.journal");
    for slot in 0..2 {
        let line = run_line(&format!("--slot {slot} --budget 9"));
        folder.fails(&line, code, &["part.row.journal", words]);
    }
    folder.remove("part.row.journal");
    folder.write("part.row.seen", &seen);
}

/// The recipe once more, its last save cut short: that journal has all burnt words.
fn run_over_again(folder: &Folder) {
    run_cut_short(folder, "--slot 0 --budget 0 --restart");
    folder.copy("part.row.journal", "last.journal");
    assert_eq!(folder.run("--slot 0 --budget 100").code, 19);
}

/// Two runs of one row at the same time, with the locks removed: the one that comes second to a save
/// sees it, and writes nothing.
#[test]
fn without_locks_two_runs_of_one_row_do_not_both_go_on() {
    let folder = with_words(1);
    folder.write("endless.bin", &ENDLESS);
    // Its first piece takes far longer than the other run.
    let (budget, piece) = (u64::MAX, 200_000_000);
    let line = format!("run endless.bin {FILES} --slot 0 --budget {budget} --piece {piece}");
    let mut command = tool(&folder, &line);
    command.stdout(Stdio::null()).stderr(Stdio::piped());
    let first = command.spawn().expect("started");
    folder.waits_for("part.row.seen");
    while folder.has("part.row.journal") {
        std::thread::yield_now();
    }
    remove_locks(&folder);
    assert_eq!(folder.run("--slot 1 --budget 100 --restart").code, 0);
    let before = folder.snapshot();
    let first = Answer::of(first.wait_with_output().expect("over"));
    assert_eq!(first.code, 7, "{}", first.err);
    assert!(
        first.err.contains("another run has used it meanwhile"),
        "{}",
        first.err
    );
    folder.is_as(&before);
    assert_eq!(folder.get("part.row"), burnt(1));
}

#[test]
fn two_sockets_run_side_by_side_on_one_slots_file() {
    let folder = with_words(1);
    folder.write("endless.bin", &ENDLESS);
    let line = |socket: usize, image: &str, budget: u64| {
        let files = format!("--row part-{socket}.row --slots line.slots --slot {socket}");
        format!("run {image} {files} --budget {budget} --piece 1")
    };
    for socket in 0..3 {
        folder.write(&format!("part-{socket}.row"), &[0; ROW]);
    }
    let mut first = in_background(&folder, &line(0, "endless.bin", u64::MAX));
    folder.waits_for("part-0.row.seen");
    // While the first is at work the others come to their ends.
    folder.write("long.bin", &burning(0, 40));
    let mut others = [1, 2].map(|socket| in_background(&folder, &line(socket, "long.bin", 1000)));
    for other in &mut others {
        assert_eq!(other.wait().expect("over").code(), Some(0));
    }
    assert_eq!(
        first.try_wait().expect("asked"),
        None,
        "the first has ended"
    );
    first.kill().expect("killed");
    first.wait().expect("over");
    assert_eq!(folder.call(&line(0, "endless.bin", 0)).code, 10);
    let slots = Slots::new(folder.get("line.slots"));
    assert_eq!(slots.read(0).expect("a state").stop(), Ok(Stop::Paused));
    for socket in 1..3 {
        let state = slots.read(socket).expect("a state");
        assert_eq!((state.count, state.stop()), (160, Ok(Stop::Ecall)));
        assert_eq!(folder.get(&format!("part-{socket}.row")), burnt(40));
    }
}

#[test]
fn a_slots_file_grows_when_a_higher_slot_is_asked_for() {
    let folder = with_words(2);
    assert_eq!(folder.run("--slot 0 --budget 5").code, 10);
    let first = folder.get("line.slots");
    assert_eq!(first.len(), RECORD);
    folder.write("other.row", &[0; ROW]);
    let other = "run trim.bin --row other.row --slots line.slots --slot 5 --budget 100";
    assert_eq!(folder.call(other).code, 0);
    let grown = folder.get("line.slots");
    assert_eq!(grown.len(), 6 * RECORD);
    assert_eq!(grown[..RECORD], first);
    assert_eq!(grown[RECORD..5 * RECORD], [0; 4 * RECORD]);
    assert_eq!(folder.run("--slot 0 --budget 100").code, 0);
}

#[test]
fn many_sockets_may_make_and_grow_the_slots_file_at_once() {
    const SOCKETS: usize = 12;
    let folder = with_words(3);
    let started: Vec<Child> = (0..SOCKETS)
        .map(|socket| {
            folder.write(&format!("part-{socket}.row"), &[0; ROW]);
            let files = format!("--row part-{socket}.row --slots line.slots --slot {socket}");
            in_background(
                &folder,
                &format!("run trim.bin {files} --budget 100 --piece 1"),
            )
        })
        .collect();
    for mut child in started {
        assert_eq!(child.wait().expect("over").code(), Some(0));
    }
    let slots = folder.get("line.slots");
    assert_eq!(slots.len(), SOCKETS * RECORD);
    for socket in 0..SOCKETS {
        let state = Slots::new(&slots).read(socket).expect("a state");
        assert_eq!((state.count, state.stop()), (12, Ok(Stop::Ecall)));
        assert_eq!(folder.get(&format!("part-{socket}.row")), burnt(3));
    }
}

// Point 8.

#[test]
fn a_resumed_run_tells_all_words_since_the_recipes_start() {
    let folder = with_words(3);
    let first = folder.run("--slot 0 --budget 4");
    assert!(first.out.ends_with(
        "1 word burnt since the recipe's start, 1 of them in this run\n\
         word 0 burnt with 100 (0x00000064) in this run\n"
    ));
    // What another slot's run burns meanwhile is not this recipe's.
    folder.write("other.bin", &burning(30, 1));
    let other = format!("run other.bin {FILES} --slot 1 --budget 100 --restart");
    assert_eq!(folder.call(&other).code, 0);
    let second = folder.run("--slot 0 --budget 100");
    let facts = "retired 8 in this run\ncount 12\nstop 1: ecall\npc 48 (0x00000030)\n\
                 3 words burnt since the recipe's start, 2 of them in this run\n\
                 word 0 burnt with 100 (0x00000064)\n\
                 word 1 burnt with 101 (0x00000065) in this run\n\
                 word 2 burnt with 102 (0x00000066) in this run\n";
    assert_eq!((second.code, &*second.out), (0, facts));
}

#[test]
fn a_killed_run_tells_all_words_when_it_is_resumed() {
    let folder = with_words(64);
    let line = run_line("--slot 0 --budget 1000 --piece 1");
    let mut killed = in_background(&folder, &line);
    let words = |row: &[u8]| row.chunks_exact(8).filter(|word| word[4] == 1).count();
    while words(&folder.get("part.row")) < 3 {
        std::thread::yield_now();
    }
    killed.kill().expect("killed, or over already");
    killed.wait().expect("over");
    // With the save that was cut short, if one was.
    let before = folder.call("row part.row").out.lines().count() - 1;
    let resumed = folder.run("--slot 0 --budget 1000 --resume");
    assert_eq!(resumed.code, 0, "{}", resumed.err);
    let new = 64 - before;
    let head = format!("64 words burnt since the recipe's start, {new} of them in this run\n");
    assert!(resumed.out.contains(&head), "{head}{}", resumed.out);
    for word in 0..64 {
        let when = if word < before { "" } else { " in this run" };
        let value = 100 + word;
        let line = format!("\nword {word} burnt with {value} (0x{value:08x}){when}\n");
        assert!(resumed.out.contains(&line), "{line}{}", resumed.out);
    }
}

#[test]
fn row_and_slot_show_what_a_pending_save_holds() {
    let folder = with_words(2);
    assert_eq!(folder.run("--slot 0 --budget 1").code, 10);
    run_cut_short(&folder, "--slot 0 --budget 4");
    assert_eq!(folder.get("part.row"), vec![0; ROW]);
    let before = folder.snapshot();
    let row = folder.call("row part.row");
    let text = "word  0 at 0x80000000: 100 (0x00000064)\n1 burnt, 63 blank\n";
    assert_eq!((row.code, &*row.out), (0, text));
    assert!(
        row.err.contains("note: ") && row.err.contains("cut short"),
        "{}",
        row.err
    );
    let slot = folder.call("slot line.slots 0");
    assert!(
        slot.out.contains("count 5\nstop 0: paused, can go on\n"),
        "{}",
        slot.out
    );
    assert!(slot.err.contains("cut short"), "{}", slot.err);
    folder.is_as(&before);
}

#[test]
fn row_and_slot_show_the_files_where_a_pending_save_would_be_refused() {
    let folder = with_words(2);
    assert_eq!(folder.run("--slot 0 --budget 1").code, 10);
    run_cut_short(&folder, "--slot 0 --budget 4");
    folder.write("part.row", &row_of(&[(9, 9)]));
    let row = folder.call("row part.row");
    assert!(row.out.starts_with("word  9 "), "{}", row.out);
    let slot = folder.call("slot line.slots 0");
    assert!(slot.out.contains("count 1\n"), "{}", slot.out);
    for shown in [row, slot] {
        for words in [
            "word 9 (burnt with 9) is blank",
            "shown is what the file holds",
        ] {
            assert!(shown.err.contains(words), "{}", shown.err);
        }
    }
}

// Point 9.

/// The tool's line in a shell, with the tool as `phuyurik`.
fn in_shell(folder: &Folder, script: &str) -> Answer {
    let phuyurik = env!("CARGO_BIN_EXE_phuyurik");
    let script = format!("phuyurik() {{ '{phuyurik}' \"$@\"; }}\n{script}");
    let mut shell = Command::new("sh");
    shell.current_dir(folder.path()).args(["-c", &script]);
    Answer::of(shell.output().expect("started"))
}

#[test]
fn a_loop_carries_a_run_on_to_its_end() {
    let folder = with_words(5);
    let run = run_line("--slot 0 --budget 3");
    let script = format!("while phuyurik {run}; [ $? -eq 10 ]; do :; done");
    let done = in_shell(&folder, &script);
    assert_eq!(done.code, 0, "{}", done.err);
    // Twenty steps in calls of three: the seventh comes to the ecall.
    assert_eq!(done.out.matches("stop 0: paused").count(), 6);
    assert_eq!(done.out.matches("stop 1: ecall").count(), 1);
    assert_eq!(folder.get("part.row"), burnt(5));
}

#[test]
fn output_that_cannot_be_written_is_8_and_the_run_is_done() {
    let folder = with_words(1);
    let run = run_line("--slot 0 --budget 100");
    let full = in_shell(&folder, &format!("phuyurik {run} > /dev/full"));
    assert_eq!(full.code, 8);
    assert!(full.err.contains("standard output") && full.err.contains("done"));
    assert!(!full.err.contains("panic"), "{}", full.err);
    assert_eq!(folder.get("part.row"), burnt(1));
    let again = folder.run("--slot 0 --budget 100 --resume");
    assert_eq!(again.code, 0);
    assert!(again.out.contains("1 word burnt since the recipe's start"));
}

#[test]
fn a_full_or_closed_standard_error_ends_no_run() {
    for (ends, code) in [
        ("2> /dev/full", 0),
        ("2>&-", 0),
        (">&- 2>&-", 0),
        (">&-", 0),
        ("> /dev/full 2> /dev/full", 8),
        ("> /dev/full 2>&-", 8),
    ] {
        let folder = with_words(1);
        folder.remove("part.row");
        // With a note to tell of, and with an error.
        let run = run_line("--slot 0 --budget 100 --new");
        let done = in_shell(&folder, &format!("phuyurik {run} {ends}"));
        assert_eq!(done.code, code, "{ends}");
        assert!(!done.err.contains("panic"), "{}", done.err);
        assert_eq!(folder.get("part.row"), burnt(1));
        let failed = in_shell(&folder, &format!("phuyurik {run} {ends}"));
        // The end that no one heard of is told again.
        assert_eq!(failed.code, if code == 8 { 8 } else { 2 }, "{ends}");
        assert!(!failed.err.contains("panic"), "{}", failed.err);
    }
}

/// The command of a new part, given again after a pause.
#[test]
fn the_command_of_a_new_part_is_repeated_to_the_recipes_end() {
    let folder = with_words(4);
    folder.remove("part.row");
    let line = run_line("--slot 0 --budget 4 --new");
    for _ in 0..4 {
        assert_eq!(folder.call(&line).code, 10);
    }
    assert_eq!(folder.call(&line).code, 0);
    assert_eq!(folder.get("part.row"), burnt(4));
    // It has been told: now the part is none that is new.
    folder.fails(&line, 2, &["--new", "there already"]);
}

/// The folder of the slots is not mounted, and the same command is given.
#[test]
fn a_run_whose_own_slots_are_away_is_not_started_over() {
    let folder = with_words(4);
    assert_eq!(folder.run("--slot 0 --budget 6").code, 10);
    let names = ["line.slots", "line.slots.0.memory", "line.slots.0.lock"];
    let files = names.map(|name| (name, folder.get(name)));
    names.iter().for_each(|name| folder.remove(name));
    let line = run_line("--slot 0 --budget 100");
    folder.fails(&line, 6, &["line.slots", "bring it back", "--restart"]);
    for (name, bytes) in files {
        folder.write(name, &bytes);
    }
    assert_eq!(folder.call(&line).code, 0);
    assert_eq!(folder.get("part.row"), burnt(4));
}

/// A copy of a paused run, beside it or in another folder, is not carried on unasked.
#[test]
fn a_copy_of_a_paused_run_is_told_from_it() {
    let folder = with_words(4);
    assert_eq!(folder.run("--slot 0 --budget 6").code, 10);
    for name in ["", ".0.memory"] {
        let bytes = folder.get(&format!("line.slots{name}"));
        folder.write(&format!("copy.slots{name}"), &bytes);
    }
    let copy = line_in("copy.slots", "--budget 100");
    folder.fails(&copy, 7, &["line.slots", "copy", "--resume"]);
    assert_eq!(folder.run("--slot 0 --budget 100").code, 0);
    assert_eq!(folder.get("part.row"), burnt(4));
}

/// A run that was saved later and is gone keeps no other from going on.
#[test]
fn a_later_run_that_is_gone_is_no_copy() {
    let folder = with_words(4);
    assert_eq!(folder.run("--slot 0 --budget 6").code, 10);
    let later = line_in("more.slots", "--budget 1 --restart");
    assert_eq!(folder.call(&later).code, 10);
    let line = run_line("--slot 0 --budget 100");
    folder.fails(&line, 7, &["more.slots", "saved later"]);
    for name in ["", ".0.memory", ".0.lock"] {
        folder.remove(&format!("more.slots{name}"));
    }
    assert_eq!(folder.call(&line).code, 0);
    assert_eq!(folder.get("part.row"), burnt(4));
}

// Point 10.

#[test]
fn a_dry_run_tells_the_words_and_changes_no_file() {
    let folder = with_words(3);
    assert_eq!(folder.run("--slot 0 --budget 5").code, 10);
    let before = folder.snapshot();
    let dry = folder.run("--slot 0 --budget 100 --dry-run");
    let facts = "retired 7 in this run\ncount 12\nstop 1: ecall\npc 48 (0x00000030)\n\
                 1 word burnt since the recipe's start\n\
                 word 0 burnt with 100 (0x00000064)\n\
                 2 words would be burnt in this run\n\
                 word 1 would be burnt with 101 (0x00000065)\n\
                 word 2 would be burnt with 102 (0x00000066)\n\
                 dry run: no file was changed\n";
    assert_eq!((dry.code, &*dry.out), (0, facts));
    let paused = folder.run("--slot 0 --budget 1 --dry-run");
    assert_eq!(paused.code, 10);
    assert!(paused
        .out
        .contains("\nno word would be burnt in this run\n"));
    let restarted = folder.run("--slot 0 --budget 100 --dry-run --restart");
    assert_eq!(restarted.code, 19);
    folder.is_as(&before);
    // The run itself then does just that.
    let run = folder.run("--slot 0 --budget 100");
    assert!(run
        .out
        .starts_with("retired 7 in this run\ncount 12\nstop 1: ecall\n"));
    assert_eq!(folder.get("part.row"), burnt(3));
}

#[test]
fn a_dry_run_makes_no_file_for_a_new_part() {
    let folder = with_words(1);
    folder.remove("part.row");
    let before = folder.snapshot();
    assert_eq!(folder.run("--slot 3 --budget 9 --dry-run").code, 6);
    let dry = folder.run("--slot 3 --budget 9 --dry-run --new");
    assert_eq!(dry.code, 0, "{}", dry.err);
    assert!(dry.out.contains("word 0 would be burnt with 100"));
    folder.is_as(&before);
}

#[test]
fn a_dry_run_sees_a_pending_save_as_carried_out() {
    let folder = with_words(2);
    assert_eq!(folder.run("--slot 0 --budget 1").code, 10);
    run_cut_short(&folder, "--slot 0 --budget 4");
    let before = folder.snapshot();
    let dry = folder.run("--slot 0 --budget 100 --dry-run");
    assert_eq!(dry.code, 0, "{}", dry.err);
    assert!(dry.err.contains("would be carried out"), "{}", dry.err);
    assert!(
        dry.out.starts_with("retired 3 in this run\ncount 8\n"),
        "{}",
        dry.out
    );
    // Another row's run would settle that save for the slot, and then find it paused.
    folder.write("other.row", &[0; ROW]);
    let other = "run trim.bin --row other.row --slots line.slots --slot 0 --budget 9 --dry-run";
    assert_eq!(folder.call(other).code, 7);
    folder.remove("other.row");
    folder.is_as(&before);
    let run = folder.run("--slot 0 --budget 100");
    assert!(
        run.out.starts_with("retired 3 in this run\ncount 8\n"),
        "{}",
        run.out
    );
}

#[test]
fn a_dry_run_with_an_accepted_row_accepts_nothing() {
    let folder = with_words(2);
    assert_eq!(folder.run("--slot 0 --budget 5").code, 10);
    folder.write("part.row", &[0; ROW]);
    let before = folder.snapshot();
    let dry = folder.run("--slot 0 --budget 100 --dry-run --accept-row --restart");
    assert_eq!(dry.code, 0, "{}", dry.err);
    folder.is_as(&before);
    folder.fails(
        &run_line("--slot 0 --budget 9"),
        9,
        &["word 0 (burnt with 100) is blank"],
    );
}

/// The paper's recipe is still the paper's.
#[test]
fn nothing_of_this_is_in_the_way_of_a_plain_run() {
    let folder = with_paper();
    let done = folder.run("--slot 0 --budget 100");
    assert_eq!((done.code, &*done.err), (0, ""));
    assert_eq!(folder.get("part.row"), burnt_row());
}
