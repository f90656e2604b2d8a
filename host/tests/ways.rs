//! Dead ends, made with the tool's own commands and with what people do to files, and the way out
//! of each as `status` prints it.
mod common;

use common::tool;
use phuyurik::ROW;
use std::collections::BTreeMap;
use std::fs::{self, File};
use std::os::unix::fs::{MetadataExt, PermissionsExt};
use std::path::{Path, PathBuf};
use std::process::{Command, Output};
use std::time::{Duration, Instant};
use testing::Folder;

/// Burns words 0 to 3 with 7, 9, 11 and 13, as GNU as has it. The first word is burnt with step 3,
/// and then one with every second step.
const RECIPE: [u32; 10] = [
    0x80000337, // lui  x6,0x80000
    0x00700293, // addi x5,x0,7
    0x00532023, // sw   x5,0(x6)
    0x00228293, // addi x5,x5,2
    0x00532223, // sw   x5,4(x6)
    0x00228293, // addi x5,x5,2
    0x00532423, // sw   x5,8(x6)
    0x00228293, // addi x5,x5,2
    0x00532623, // sw   x5,12(x6)
    0x00000073, // ecall
];
const VALUES: [u8; 4] = [7, 9, 11, 13];

/// A row with the first so many words of the recipe burnt.
fn row_with(words: usize) -> Vec<u8> {
    let mut row = vec![0; ROW];
    for (record, value) in row.chunks_exact_mut(8).zip(VALUES).take(words) {
        record[..5].copy_from_slice(&[value, 0, 0, 0, 1]);
    }
    row
}

/// What a call of the tool gave.
struct Answer {
    code: i32,
    out: String,
    err: String,
}

fn answer(done: Output) -> Answer {
    Answer {
        code: done.status.code().expect("it ends by itself"),
        out: String::from_utf8(done.stdout).expect("text"),
        err: String::from_utf8(done.stderr).expect("text"),
    }
}

/// All that can be seen of a file.
type About = (Vec<u8>, u32, u64, i64, i64);

/// A folder in which people work; it may move.
struct Bench {
    folder: Folder,
    path: PathBuf,
}

impl Bench {
    fn new() -> Bench {
        let folder = Folder::new();
        let path = folder.file("line");
        fs::create_dir(&path).expect("made");
        let image: Vec<u8> = RECIPE.iter().flat_map(|word| word.to_le_bytes()).collect();
        fs::write(path.join("trim.bin"), image).expect("written");
        Bench { folder, path }
    }

    fn file(&self, name: &str) -> PathBuf {
        self.path.join(name)
    }

    fn get(&self, name: &str) -> Vec<u8> {
        fs::read(self.file(name)).expect(name)
    }

    fn has(&self, name: &str) -> bool {
        self.file(name).exists()
    }

    fn copy(&self, from: &str, to: &str) {
        fs::copy(self.file(from), self.file(to)).expect(from);
    }

    fn remove(&self, name: &str) {
        fs::remove_file(self.file(name)).expect(name);
    }

    fn answer_to(&self, line: &str) -> Answer {
        let mut command = tool(&self.folder, line);
        answer(command.current_dir(&self.path).output().expect("started"))
    }

    /// Whatever the exit code is, the command's help lists it.
    fn call(&self, line: &str) -> Answer {
        let answer = self.answer_to(line);
        let command = line.split(' ').next().expect("a command");
        let help = self.answer_to(&format!("{command} --help")).out;
        let code = format!("\n  {:<3} ", answer.code);
        assert!(help.contains(&code), "{line}: {}", answer.code);
        answer
    }

    /// The recipe on a row, in a slot of `line.slots`.
    fn run(&self, row: &str, slot: usize, more: &str) -> Answer {
        let files = format!("--row {row} --slots line.slots --slot {slot}");
        self.call(&format!("run trim.bin {files} {more}"))
    }

    /// A command as it was printed, given to a shell.
    fn typed(&self, command: &str) -> Answer {
        let program = Path::new(env!("CARGO_BIN_EXE_phuyurik"));
        let folder = program.parent().expect("a folder").display();
        let path = std::env::var("PATH").unwrap_or_default();
        let done = Command::new("sh")
            .env("PATH", format!("{folder}:{path}"))
            .current_dir(&self.path)
            .args(["-c", command])
            .output();
        answer(done.expect("started"))
    }

    fn all(&self) -> BTreeMap<PathBuf, About> {
        let entries = fs::read_dir(&self.path).expect("a folder");
        let about = |path: PathBuf| {
            let meta = fs::symlink_metadata(&path).expect("there");
            let bytes = if meta.is_file() {
                fs::read(&path).expect("read")
            } else {
                Vec::new()
            };
            let about = (
                bytes,
                meta.mode(),
                meta.ino(),
                meta.mtime(),
                meta.mtime_nsec(),
            );
            (path, about)
        };
        entries
            .map(|entry| about(entry.expect("read").path()))
            .collect()
    }

    fn changes_nothing(&self, call: impl FnOnce() -> Answer) -> Answer {
        let before = self.all();
        let answer = call();
        let after = self.all();
        let is_same = before == after;
        assert!(is_same, "changed: {}{}", answer.out, answer.err);
        answer
    }

    fn status(&self) -> String {
        let status = self.changes_nothing(|| self.call("status"));
        assert_eq!((status.code, &*status.err), (0, ""));
        status.out
    }

    /// The command that `status` prints and that begins so.
    fn printed(&self, command: &str) -> String {
        let status = self.status();
        let typed = status.lines().filter_map(|line| {
            let line = line.trim_start();
            line.strip_prefix("next: ").or(line.strip_prefix("or: "))
        });
        let mut typed = typed.filter(|typed| typed.starts_with(command));
        typed
            .next()
            .unwrap_or_else(|| panic!("no {command} in:\n{status}"))
            .to_string()
    }

    /// The way out that begins so: it is only told, then done, and a second time it is harmless.
    fn way_out(&self, command: &str) -> String {
        let printed = self.printed(command);
        let told = self.changes_nothing(|| self.typed(&printed));
        assert_eq!((told.code, &*told.err), (2, ""), "{printed}");
        let last = told.out.lines().last().expect("a line");
        let with_yes = last.strip_prefix("nothing was changed; to do it: ");
        let with_yes = with_yes.expect("how to do it");
        assert_eq!(with_yes, format!("{printed} --yes"));
        let done = self.typed(with_yes);
        assert_eq!((done.code, &*done.err), (0, ""), "{with_yes}");
        let body = |text: &str| text.lines().skip(1).map(str::to_string).collect::<Vec<_>>();
        let mut told = body(&told.out);
        told.pop();
        assert_eq!(body(&done.out), told, "done is not what was told");
        let again = self.changes_nothing(|| self.typed(with_yes));
        assert_eq!(again.code, 0, "{with_yes}: {}", again.err);
        assert!(again.out.starts_with("nothing to do:"), "{}", again.out);
        done.out
    }

    /// Paused with the first so many words burnt.
    fn paused(&self, row: &str, slot: usize, words: usize) {
        let steps = 1 + 2 * words;
        let run = self.run(row, slot, &format!("--budget {steps} --new"));
        assert_eq!(run.code, 10, "{}", run.err);
        assert!(self.get(row) == row_with(words));
    }

    /// A run of two more steps, which burn one more word; its save is cut short at this file.
    fn cut_short(&self, row: &str, slot: usize, at: &str) {
        let obstacle = self.file(&format!("{at}.tmp"));
        fs::create_dir(&obstacle).expect("made");
        assert_eq!(self.run(row, slot, "--budget 2").code, 3);
        fs::remove_dir(&obstacle).expect("removed");
        assert!(self.has(&format!("{row}.journal")));
    }

    /// The run in the slot goes on to its end, and each word is burnt once.
    fn comes_to_its_end(&self, row: &str, slot: usize) {
        let mut last = self.run(row, slot, "--resume --budget 1");
        for _ in 0..9 {
            if last.code != 10 {
                break;
            }
            last = self.run(row, slot, "--resume --budget 1");
        }
        let facts = format!("{}{}", last.out, last.err);
        assert_eq!(last.code, 0, "{facts}");
        assert!(facts.contains("count 9\nstop 1: ecall"), "{facts}");
        assert!(facts.contains("4 words burnt since the recipe's start"));
        assert!(self.get(row) == row_with(4));
        assert!(!self.has(&format!("{row}.journal")));
        assert!(self.status().ends_with("nothing is wrong\n"));
    }

    fn is_refused(&self, row: &str, slot: usize, code: i32, words: &[&str]) {
        let refused = self.run(row, slot, "--budget 1");
        assert_eq!((refused.code, &*refused.out), (code, ""), "{}", refused.err);
        for word in words {
            assert!(refused.err.contains(word), "{}", refused.err);
        }
    }

    fn moved(&mut self, name: &str) {
        let to = self.folder.file(name);
        fs::rename(&self.path, &to).expect("moved");
        self.path = to;
    }
}

#[test]
fn a_row_is_gone_and_its_run_is_given_up() {
    let bench = Bench::new();
    bench.paused("part.row", 0, 2);
    bench.remove("part.row");
    bench.is_refused("part.row", 0, 6, &["part.row", "missing"]);
    assert!(bench.status().contains("its row is missing"));
    let done = bench.way_out("phuyurik forget line.slots 0");
    for words in [
        "on the row part.row",
        "word 0 burnt with 7, word 1 burnt with 9",
        "line.slots.0.memory is set aside as line.slots.0.memory.old",
        "(paused at count 5, pc 20 (0x00000014)) becomes zeros",
    ] {
        assert!(done.contains(words), "{words} in {done}");
    }
    assert!(bench.get("line.slots").iter().all(|byte| *byte == 0));
    // What was burnt at this path is not forgotten, and another part has the slot.
    let again = bench.run("part.row", 0, "--budget 9 --new");
    assert_eq!(again.code, 9);
    assert!(again.err.contains("word 1 (burnt with 9) is blank"));
    bench.paused("other.row", 0, 1);
    bench.comes_to_its_end("other.row", 0);
}

#[test]
fn what_a_run_alone_knew_goes_into_seen_or_is_told() {
    let bench = Bench::new();
    bench.paused("part.row", 0, 2);
    bench.remove("part.row");
    bench.remove("part.row.seen");
    let done = bench.way_out("phuyurik forget line.slots 0");
    let words = "word 0 burnt with 7, word 1 burnt with 9";
    assert!(done.contains(&format!("part.row.seen comes to know {words}")));
    let again = bench.run("part.row", 0, "--budget 9 --new");
    assert_eq!(again.code, 9);
    fs::create_dir(bench.file("rows")).expect("made");
    bench.paused("rows/a.row", 1, 2);
    fs::remove_dir_all(bench.file("rows")).expect("removed");
    let done = bench.way_out("phuyurik forget line.slots 1");
    let words = format!("the folder of rows/a.row is gone; note what was known of it: {words}");
    assert!(done.contains(&words), "{done}");
    assert!(!bench.has("rows"));
}

#[test]
fn a_save_is_carried_out_before_its_run_is_given_up() {
    let bench = Bench::new();
    bench.paused("part.row", 0, 1);
    bench.cut_short("part.row", 0, "line.slots.0.memory");
    bench.remove("part.row");
    let done = bench.typed("phuyurik forget line.slots 0 --yes");
    assert_eq!(done.code, 0, "{}", done.err);
    assert!(done.out.contains("cut short is carried out first"));
    assert!(bench.get("part.row") == row_with(2) && !bench.has("part.row.journal"));
    // A new start finds word 0 burnt.
    assert_eq!(bench.run("part.row", 0, "--budget 9").code, 19);
    assert!(bench.get("part.row") == row_with(2));
}

#[test]
fn a_folder_is_moved() {
    let mut bench = Bench::new();
    bench.paused("part.row", 0, 2);
    bench.paused("other.row", 1, 1);
    bench.moved("elsewhere");
    bench.is_refused(
        "part.row",
        0,
        7,
        &["which is not there", "adopt", "part.row"],
    );
    let done = bench.way_out("phuyurik adopt line.slots 0 --row part.row");
    assert!(done.contains("is told that its row is part.row"));
    bench.way_out("phuyurik adopt line.slots 1 --row other.row");
    bench.comes_to_its_end("part.row", 0);
    bench.comes_to_its_end("other.row", 1);
}

/// Wherever the save was cut short: these files were not written yet.
#[test]
fn a_folder_is_moved_with_a_save_that_was_cut_short() {
    for (at, not_yet) in [
        ("line.slots.0.memory", &[][..]),
        ("part.row.seen", &["part.row", "line.slots"]),
        ("part.row.seen", &["part.row"]),
        ("part.row.seen", &[]),
    ] {
        let mut bench = Bench::new();
        bench.paused("part.row", 0, 1);
        let before = not_yet.iter().map(|name| (name, bench.get(name)));
        let before: Vec<_> = before.collect();
        bench.cut_short("part.row", 0, at);
        for (name, bytes) in before {
            fs::write(bench.file(name), bytes).expect("written");
        }
        bench.moved("else where");
        bench.is_refused("part.row", 0, 7, &["of another row"]);
        bench.way_out("phuyurik adopt line.slots 0 --row part.row");
        bench.comes_to_its_end("part.row", 0);
    }
}

#[test]
fn a_folder_is_moved_with_a_first_save_that_was_cut_short() {
    let mut bench = Bench::new();
    let obstacle = bench.file("line.slots.0.memory.tmp");
    fs::create_dir(&obstacle).expect("made");
    assert_eq!(bench.run("part.row", 0, "--budget 2 --new").code, 3);
    fs::remove_dir(&obstacle).expect("removed");
    assert!(!bench.has("part.row"), "not made yet");
    bench.moved("elsewhere");
    bench.way_out("phuyurik adopt line.slots 0 --row part.row");
    // The slot knows of the save where it is now, and does not go to another part.
    let other = bench.run("other.row", 0, "--budget 1 --new");
    assert_eq!(other.code, 7, "{}", other.err);
    bench.comes_to_its_end("part.row", 0);
}

/// Seen from the folder above, with names that a shell would take apart.
#[test]
fn printed_names_are_quoted() {
    let mut bench = Bench::new();
    bench.paused("part.row", 0, 1);
    fs::create_dir(bench.file("it's")).expect("made");
    for name in [
        "part.row",
        "part.row.seen",
        "line.slots",
        "line.slots.0.memory",
    ] {
        fs::rename(bench.file(name), bench.file(&format!("it's/{name}"))).expect(name);
    }
    let status = bench.changes_nothing(|| bench.typed("phuyurik status \"it's\""));
    let printed = "phuyurik adopt 'it'\\''s/line.slots' 0 --row 'it'\\''s/part.row'";
    assert!(
        status.out.contains(&format!("next: {printed}\n")),
        "{}",
        status.out
    );
    assert_eq!(bench.typed(&format!("{printed} --yes")).code, 0);
    bench.copy("trim.bin", "it's/trim.bin");
    bench.path = bench.file("it's");
    bench.comes_to_its_end("part.row", 0);
}

#[test]
fn a_copied_folder_or_another_row_is_not_adopted() {
    let mut bench = Bench::new();
    bench.paused("part.row", 0, 2);
    let copied = bench.folder.file("copied");
    let copy = format!("cp -r . {}", copied.display());
    assert_eq!(bench.typed(&copy).code, 0);
    let first = std::mem::replace(&mut bench.path, copied);
    let adopt = "adopt line.slots 0 --row part.row --yes";
    let refused = bench.changes_nothing(|| bench.call(adopt));
    assert_eq!(refused.code, 7);
    assert!(refused.err.contains("copied, not moved"), "{}", refused.err);
    fs::rename(first.join("part.row"), first.join("gone")).expect("moved");
    fs::write(bench.file("part.row"), row_with(1)).expect("written");
    let refused = bench.changes_nothing(|| bench.call(adopt));
    assert_eq!(refused.code, 9);
    let words = "word 1 (burnt with 9) is blank";
    assert!(refused.err.contains(words), "{}", refused.err);
}

/// A save that stayed behind, and one that is older than the row beside it.
#[test]
fn a_row_is_not_adopted_without_its_save_or_with_an_old_one() {
    let mut bench = Bench::new();
    bench.paused("part.row", 0, 1);
    bench.cut_short("part.row", 0, "line.slots.0.memory");
    bench.copy("part.row.journal", "backup");
    fs::rename(bench.file("part.row"), bench.file("new.row")).expect("moved");
    let adopt = "adopt line.slots 0 --row new.row --yes";
    let refused = bench.changes_nothing(|| bench.call(adopt));
    assert_eq!(refused.code, 7);
    let words = "see to it first (phuyurik settle part.row)";
    assert!(refused.err.contains(words), "{}", refused.err);
    fs::rename(bench.file("new.row"), bench.file("part.row")).expect("moved");
    assert_eq!(bench.run("part.row", 0, "--budget 2").code, 10);
    bench.copy("backup", "part.row.journal");
    bench.remove("line.slots.0.memory");
    bench.moved("elsewhere");
    let adopt = "adopt line.slots 0 --row part.row --yes";
    let refused = bench.changes_nothing(|| bench.call(adopt));
    assert_eq!(refused.code, 9, "{}", refused.err);
    assert!(refused.err.contains("word 2 (burnt with 11) is blank"));
    bench.way_out("phuyurik settle part.row --discard");
    bench.way_out("phuyurik forget line.slots 0");
    assert!(bench.get("part.row") == row_with(3));
}

/// Each is cut short after its first step: given again, it does the rest.
#[test]
fn ways_out_that_are_cut_short_are_taken_again() {
    let mut bench = Bench::new();
    bench.paused("part.row", 0, 1);
    bench.cut_short("part.row", 0, "line.slots.0.memory");
    bench.moved("elsewhere");
    let obstacle = bench.file("line.slots.0.memory.tmp");
    fs::create_dir(&obstacle).expect("made");
    let adopt = bench.printed("phuyurik adopt");
    assert_eq!(bench.typed(&format!("{adopt} --yes")).code, 3);
    fs::remove_dir(&obstacle).expect("removed");
    bench.is_refused("part.row", 0, 7, &["slot 0 holds a paused run on"]);
    bench.way_out("phuyurik adopt line.slots 0 --row part.row");
    bench.remove("line.slots");
    fs::create_dir(&obstacle).expect("made");
    let settle = bench.printed("phuyurik settle part.row");
    assert_eq!(bench.typed(&format!("{settle} --yes")).code, 3);
    fs::remove_dir(&obstacle).expect("removed");
    assert!(bench.has("line.slots") && bench.has("part.row.journal"));
    bench.way_out("phuyurik settle part.row");
    bench.comes_to_its_end("part.row", 0);
}

/// The record of another run's slot comes back too.
#[test]
fn a_slots_file_is_removed_while_a_save_is_pending() {
    let bench = Bench::new();
    bench.paused("part.row", 0, 1);
    bench.paused("other.row", 2, 2);
    let slots = bench.get("line.slots");
    bench.cut_short("part.row", 0, "line.slots.0.memory");
    bench.remove("line.slots");
    bench.is_refused("part.row", 0, 6, &["line.slots", "missing"]);
    let done = bench.way_out("phuyurik settle part.row");
    assert!(done.contains("line.slots is made anew"), "{done}");
    assert!(done.contains("part.row gets word 1 burnt with 9"), "{done}");
    assert!(bench.get("line.slots")[144..] == slots[144..]);
    bench.comes_to_its_end("part.row", 0);
    bench.comes_to_its_end("other.row", 2);
}

#[test]
fn a_slots_file_is_removed() {
    let bench = Bench::new();
    bench.paused("part.row", 1, 1);
    let slots = bench.get("line.slots");
    bench.remove("line.slots");
    bench.is_refused("part.row", 1, 6, &["line.slots", "missing"]);
    bench.way_out("phuyurik mend line.slots");
    assert!(bench.get("line.slots") == slots);
    bench.comes_to_its_end("part.row", 1);
}

#[test]
fn a_slots_file_is_restored_from_an_older_copy_or_cut() {
    let bench = Bench::new();
    bench.paused("part.row", 0, 1);
    bench.copy("line.slots", "backup");
    assert_eq!(bench.run("part.row", 0, "--budget 2").code, 10);
    bench.copy("backup", "line.slots");
    bench.is_refused("part.row", 0, 5, &["mend"]);
    let done = bench.way_out("phuyurik mend line.slots");
    let words = "paused at count 5, pc 20 (0x00000014), row part.row; it is: paused at count 3";
    assert!(done.contains(words), "{done}");
    let slots = bench.get("line.slots");
    fs::write(bench.file("line.slots"), &slots[..100]).expect("written");
    bench.way_out("phuyurik mend line.slots");
    assert!(bench.get("line.slots") == slots);
    bench.comes_to_its_end("part.row", 0);
}

#[test]
fn one_damaged_memory_file_blocks_no_other_slot() {
    let bench = Bench::new();
    bench.paused("part.row", 0, 2);
    bench.paused("other.row", 1, 1);
    fs::write(bench.file("line.slots.0.memory"), b"torn").expect("written");
    bench.is_refused("part.row", 0, 5, &["line.slots.0.memory", "damaged"]);
    assert_eq!(bench.run("other.row", 1, "--budget 2").code, 10);
    let done = bench.way_out("phuyurik forget line.slots 0");
    assert!(done.contains("line.slots.0.memory is damaged"), "{done}");
    assert_eq!(bench.get("line.slots.0.memory.old"), b"torn");
    bench.comes_to_its_end("other.row", 1);
    // The run is given up, its words are not: a new start finds them burnt.
    assert_eq!(bench.run("part.row", 0, "--budget 9").code, 19);
    assert!(bench.get("part.row") == row_with(2));
}

/// The save has all that the damaged file had, and more.
#[test]
fn a_save_outlives_the_damaged_memory_file_of_its_slot() {
    let bench = Bench::new();
    bench.paused("part.row", 0, 1);
    bench.cut_short("part.row", 0, "line.slots.0.memory");
    fs::write(bench.file("line.slots.0.memory"), b"torn").expect("written");
    bench.is_refused("part.row", 0, 5, &["line.slots.0.memory"]);
    bench.way_out("phuyurik forget line.slots 0");
    bench.way_out("phuyurik settle part.row");
    bench.comes_to_its_end("part.row", 0);
}

#[test]
fn a_memory_file_is_removed() {
    let bench = Bench::new();
    bench.paused("part.row", 0, 1);
    bench.remove("line.slots.0.memory");
    bench.is_refused("part.row", 0, 6, &["line.slots.0.memory"]);
    bench.way_out("phuyurik forget line.slots 0");
    bench.paused("other.row", 0, 1);
    bench.comes_to_its_end("other.row", 0);
}

#[test]
fn an_old_journal_is_copied_back_and_set_aside() {
    let bench = Bench::new();
    bench.paused("part.row", 0, 1);
    bench.cut_short("part.row", 0, "line.slots.0.memory");
    bench.copy("part.row.journal", "backup");
    assert_eq!(bench.run("part.row", 0, "--budget 2").code, 10);
    assert!(bench.get("part.row") == row_with(3));
    bench.copy("backup", "part.row.journal");
    bench.is_refused("part.row", 0, 9, &["word 2 (burnt with 11) is blank"]);
    let refused = bench.changes_nothing(|| bench.call("settle part.row --yes"));
    assert_eq!(refused.code, 9);
    let done = bench.way_out("phuyurik settle part.row --discard");
    assert!(done.contains("part.row.journal.old"), "{done}");
    assert!(bench.get("part.row") == row_with(3));
    assert!(bench.get("part.row.journal.old") == bench.get("backup"));
    bench.comes_to_its_end("part.row", 0);
    // A second one does not take the first one's place.
    bench.copy("backup", "part.row.journal");
    bench.way_out("phuyurik settle part.row --discard");
    assert!(bench.has("part.row.journal.old") && bench.has("part.row.journal.old2"));
    fs::write(bench.file("part.row.journal"), b"torn").expect("written");
    bench.is_refused("part.row", 0, 5, &["part.row.journal", "damaged"]);
    bench.way_out("phuyurik settle part.row --discard");
    assert!(bench.get("part.row") == row_with(4));
}

/// Lock files and slots are removed while a save is pending, and another part gets the slot.
fn two_parts_in_one_slot() -> Bench {
    let bench = Bench::new();
    bench.paused("part.row", 0, 1);
    bench.cut_short("part.row", 0, "line.slots.0.memory");
    for name in [
        "line.slots",
        "line.slots.0.memory",
        "line.slots.0.lock",
        "part.row.lock",
    ] {
        bench.remove(name);
    }
    bench.paused("other.row", 0, 1);
    bench.is_refused("part.row", 0, 7, &["other.row"]);
    bench
}

#[test]
fn a_save_whose_slot_was_taken_is_given_up_but_not_its_words() {
    let bench = two_parts_in_one_slot();
    let done = bench.way_out("phuyurik settle part.row --discard");
    assert!(done.contains("word 1 burnt with 9"), "{done}");
    assert!(bench.get("part.row") == row_with(2));
    bench.comes_to_its_end("other.row", 0);
    assert_eq!(bench.run("part.row", 1, "--budget 9").code, 19);
    assert!(bench.get("part.row") == row_with(2));
}

#[test]
fn a_save_gets_its_slot_back() {
    let bench = two_parts_in_one_slot();
    bench.way_out("phuyurik forget line.slots 0");
    bench.way_out("phuyurik settle part.row");
    assert!(bench.get("other.row") == row_with(1));
    bench.comes_to_its_end("part.row", 0);
}

#[test]
fn lock_files_are_removed() {
    let bench = Bench::new();
    bench.paused("part.row", 0, 1);
    bench.cut_short("part.row", 0, "line.slots.0.memory");
    for name in ["line.slots.lock", "line.slots.0.lock", "part.row.lock"] {
        bench.remove(name);
    }
    bench.status();
    // The slot is still known to be this run's, and its save is not lost.
    let other = bench.run("other.row", 0, "--budget 1 --new");
    assert_eq!(other.code, 7, "{}", other.err);
    assert!(bench.get("part.row") == row_with(2));
    bench.comes_to_its_end("part.row", 0);
}

#[test]
fn a_row_that_may_not_be_written_or_is_older() {
    let bench = Bench::new();
    bench.paused("part.row", 0, 1);
    bench.copy("part.row", "backup");
    assert_eq!(bench.run("part.row", 0, "--budget 2").code, 10);
    let mode = |mode| fs::set_permissions(bench.file("part.row"), fs::Permissions::from_mode(mode));
    mode(0o444).expect("set");
    bench.is_refused("part.row", 0, 3, &["write-protected"]);
    assert_eq!(bench.typed(&bench.printed("chmod")).code, 0);
    fs::hard_link(bench.file("part.row"), bench.file("linked")).expect("linked");
    bench.is_refused("part.row", 0, 3, &["hard links"]);
    let names = bench.typed(&bench.printed("find")).out;
    assert!(names.contains("linked"), "{names}");
    bench.remove("linked");
    bench.copy("part.row", "newer");
    bench.copy("backup", "part.row");
    bench.is_refused("part.row", 0, 9, &["word 1 (burnt with 9) is blank"]);
    let status = bench.status();
    assert!(
        status.contains("word 1 (burnt with 9) is blank"),
        "{status}"
    );
    assert!(bench.printed("phuyurik run").ends_with(" --accept-row"));
    bench.copy("newer", "part.row");
    bench.comes_to_its_end("part.row", 0);
}

/// Whatever is in the way of one file, the others are told of.
#[test]
fn status_goes_on_past_what_it_cannot_read() {
    let bench = Bench::new();
    let nothing = bench.status();
    assert!(nothing.starts_with("no run and no row in "), "{nothing}");
    bench.paused("part.row", 0, 2);
    for name in ["a.row.seen", "b.row.journal", "c.slots.0.memory"] {
        fs::write(bench.file(name), b"torn").expect("written");
    }
    fs::create_dir(bench.file("d.row.seen")).expect("made");
    fs::create_dir(bench.file("e.slots.3.memory")).expect("made");
    std::os::unix::fs::symlink("nowhere", bench.file("f.row.journal")).expect("linked");
    fs::write(bench.file("plain"), [0; 144]).expect("written");
    let status = bench.status();
    for words in [
        "a.row.seen is damaged",
        "b.row.journal is damaged",
        "c.slots.0.memory is damaged",
        "d.row.seen: not a regular file",
        "e.slots.3.memory: not a regular file",
        "f.row.journal: a link to nowhere",
        "part.row: 2 burnt, 62 blank",
        "slot 0: paused at count 5, pc 20 (0x00000014), row part.row, 2 words burnt by it",
    ] {
        assert!(status.contains(words), "{words} in {status}");
    }
    assert!(!status.contains("plain"));
    assert_eq!(bench.call("status nowhere").code, 6);
}

#[test]
fn mistyped_names_leave_nothing_behind() {
    let bench = Bench::new();
    bench.paused("part.row", 0, 1);
    for (line, code) in [
        ("forget no.slots 0 --yes", 0),
        ("forget line.slots 7 --yes", 0),
        ("settle no.row --yes", 0),
        ("settle no.row --discard --yes", 0),
        ("mend no.slots --yes", 6),
        ("mend line.slots --yes", 0),
        ("adopt no.slots 0 --row part.row --yes", 6),
        ("adopt line.slots 0 --row no.row --yes", 7),
        ("forget nowhere/line.slots 0 --yes", 6),
    ] {
        let answer = bench.changes_nothing(|| bench.call(line));
        assert_eq!(answer.code, code, "{line}: {}{}", answer.out, answer.err);
    }
}

/// The lock in this file. A process that another test has just started may for a moment have one
/// that was dropped here.
fn hold(path: &Path) -> File {
    let file = File::open(path).expect("there");
    let clock = Instant::now();
    while file.try_lock().is_err() {
        assert!(clock.elapsed() < Duration::from_secs(20), "free");
        std::thread::sleep(Duration::from_millis(1));
    }
    file
}

#[test]
fn what_a_run_holds_is_busy() {
    let bench = Bench::new();
    bench.paused("part.row", 0, 1);
    bench.cut_short("part.row", 0, "line.slots.0.memory");
    fs::write(bench.file("line.slots"), [0; 144]).expect("written");
    for lock in ["line.slots.0.lock", "part.row.lock"] {
        let _held = hold(&bench.file(lock));
        let mut lines = vec!["forget line.slots 0 --yes", "settle part.row --yes"];
        match lock {
            "part.row.lock" => lines.push("settle part.row --discard --yes"),
            _ => lines.push("mend line.slots --yes"),
        }
        for line in lines {
            let answer = bench.changes_nothing(|| bench.call(line));
            assert_eq!(answer.code, 4, "{line}: {}{}", answer.out, answer.err);
        }
    }
    let held = hold(&bench.file("part.row.lock"));
    let at_work = "part.row: 2 burnt, 62 blank (a run is at work on it";
    assert!(bench.status().contains(at_work));
    held.unlock().expect("let go");
    bench.comes_to_its_end("part.row", 0);
}
