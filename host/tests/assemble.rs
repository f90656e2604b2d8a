//! A fix at night: `list --text`, an editor, `assemble`. What is written and said, the exit codes, and
//! that no slip costs an image, a row or a run.
mod bench;
mod common;

use bench::{burnt_row, with_paper, Answer, Bench, PAPER};
use common::tool;
use phuyurik::ROW;
use std::collections::BTreeSet;
use std::fs::{self, File, Permissions};
use std::os::unix::fs::{symlink, PermissionsExt};
use std::os::unix::net::UnixListener;
use std::path::Path;
use testing::{example::LINES, Folder};

/// `c:addi x2,x2,16` as 0x6141, which is not the smallest; then ecall.
const LARGER_HALF: [u8; 6] = [0x41, 0x61, 0x73, 0, 0, 0];

fn with_text(text: &str) -> Folder {
    let folder = with_paper();
    folder.write("night.s", text.as_bytes());
    folder
}

fn recipe(name: &str) -> Vec<u8> {
    let path = Path::new(env!("CARGO_MANIFEST_DIR")).join("../examples");
    fs::read(path.join(name)).expect(name)
}

/// The example recipes' names.
fn recipes() -> BTreeSet<String> {
    let folder = Path::new(env!("CARGO_MANIFEST_DIR")).join("../examples");
    let entries = fs::read_dir(folder).expect("there");
    let name = |entry: fs::DirEntry| entry.file_name().into_string().expect("a plain name");
    let names = entries.map(|entry| name(entry.expect("there")));
    names
        .filter_map(|name| Some(name.strip_suffix(".bin")?.to_string()))
        .collect()
}

/// The call is accepted, and says this and nothing else.
fn says(folder: &Folder, line: &str, out: &str) {
    let answer = folder.call(line);
    assert_eq!((answer.code, &*answer.err), (0, ""), "{line}");
    assert_eq!(answer.out, out, "{line}");
}

/// The text is refused with exactly this on standard error, and no file is made or changed.
fn is_refused(text: &str, code: i32, told: &str) {
    let folder = with_text(text);
    folder.write("old.bin", &PAPER);
    let before = folder.snapshot();
    let onto = "--onto old.bin --until 14 -o old.bin";
    for line in ["-o new.bin", "-o old.bin", onto] {
        let answer = folder.call(&format!("assemble night.s {line}"));
        assert_eq!((answer.code, &*answer.out), (code, ""), "{text:?}");
        assert_eq!(answer.err, told);
    }
    folder.is_as(&before);
}

/// One line on standard error with these words, and no file is made or changed.
fn is_kept(folder: &Folder, line: &str, code: i32, words: &[&str]) {
    let before = folder.snapshot();
    folder.fails(line, code, words);
    folder.is_as(&before);
}

fn with_input(folder: &Folder, line: &str, input: &str) -> Answer {
    let input = File::open(folder.file(input)).expect(input);
    let done = tool(folder, line).stdin(input).output();
    Answer::of(done.expect("started"))
}

#[test]
fn the_papers_recipe_is_its_text() {
    let folder = with_text(LINES);
    says(&folder, "list --text trim.bin", LINES);
    let told = "14 bytes, 4 instructions\n";
    says(&folder, "assemble night.s -o night.bin", told);
    assert_eq!(folder.get("night.bin"), PAPER);
    // One that is there is replaced, and keeps its mode.
    let mode = Permissions::from_mode(0o640);
    fs::set_permissions(folder.file("night.bin"), mode).expect("set");
    folder.write("night.s", b"c:ebreak\n");
    let shorter = folder.call("assemble night.s -o night.bin");
    let told = "2 bytes, 1 instruction; what night.bin was is kept as night.bin.old\n";
    assert_eq!((shorter.code, &*shorter.out), (0, told));
    let note = "phuyurik: note: night.bin: 14 bytes before, 2 now; --onto keeps what follows the \
                instructions\n";
    assert_eq!(shorter.err, note);
    assert_eq!(folder.get("night.bin"), [0x02, 0x90]);
    assert_eq!(folder.get("night.bin.old"), PAPER);
    let about = fs::metadata(folder.file("night.bin")).expect("there");
    assert_eq!(about.permissions().mode() & 0o777, 0o640);
    assert!(!folder.has("night.bin.tmp"));
}

#[test]
fn a_text_may_come_from_standard_input() {
    let folder = with_text(LINES);
    let accepted = with_input(&folder, "assemble - -o night.bin", "night.s");
    assert_eq!((accepted.code, &*accepted.err), (0, ""));
    assert_eq!(accepted.out, "14 bytes, 4 instructions\n");
    assert_eq!(folder.get("night.bin"), PAPER);
    folder.write("night.s", b"ecall\necal\n");
    let refused = with_input(&folder, "assemble - -o night.bin", "night.s");
    let told = "standard input:2:5: 10 unreadable\necal\n    ^\n\
                note: the line ends early: expected `l`\n";
    assert_eq!((refused.code, &*refused.err), (40, told));
    assert_eq!(folder.get("night.bin"), PAPER);
    folder.write("night.s", LINES.as_bytes());
    let same = with_input(&folder, "assemble - -o night.s", "night.s");
    assert_eq!((same.code, folder.get("night.s")), (2, LINES.into()));
}

/// An image is data from the first line on that its listing has no instruction for.
#[test]
fn every_example_comes_back_from_its_text() {
    let names = recipes();
    assert!(names.len() >= 8);
    let mut without_data = 0;
    for name in names {
        let folder = Folder::new();
        let image = recipe(&format!("{name}.bin"));
        folder.write("recipe.bin", &image);
        let listing = String::from_utf8(recipe(&format!("{name}.txt"))).expect("text");
        let data = listing.lines().find(|line| line.ends_with(" ?"));
        let (until, onto) = match data {
            Some(line) => (format!("--until 0x{}", &line[..8]), "--onto recipe.bin"),
            None => (String::new(), ""),
        };
        let text = folder.call(&format!("list --text {until} recipe.bin"));
        assert_eq!((text.code, &*text.err), (0, ""), "{name}");
        folder.write("night.s", text.out.as_bytes());
        let line = format!("assemble night.s {onto} {until} -o night.bin");
        assert_eq!(folder.call(&line).code, 0, "{name}");
        assert_eq!(folder.get("night.bin"), image, "{name}");
        without_data += usize::from(data.is_none());
    }
    assert!(without_data >= 2);
}

/// 112 bytes of code, then 16 readings of 2 bytes.
fn with_readings() -> Folder {
    let folder = with_paper();
    folder.write("voltage_trim.bin", &recipe("voltage_trim.bin"));
    folder
}

/// The texts of its code, as its listing has them.
fn code_before_readings() -> String {
    let listing = String::from_utf8(recipe("voltage_trim.txt")).expect("text");
    let lines = listing.lines();
    let code = lines.take_while(|line| !line.starts_with("00000070"));
    let text = |line: &str| line.splitn(3, ' ').nth(2).expect("a text").to_string() + "\n";
    code.map(text).collect()
}

#[test]
fn what_follows_the_code_stays() {
    let (folder, text) = (with_readings(), code_before_readings());
    for until in ["112", "0x70"] {
        let line = format!("list --text --until {until} voltage_trim.bin");
        says(&folder, &line, &text);
    }
    let mut changed = recipe("voltage_trim.bin");
    // c:addi x12,x0,3 at 0x44 is 0x460d, and with 2 it is 0x4609.
    assert_eq!(changed[0x44..0x46], [0x0D, 0x46]);
    changed[0x44] = 0x09;
    let edited = text.replace("c:addi x12,x0,3\n", "c:addi x12,x0,2\n");
    folder.write("night.s", edited.as_bytes());
    let told = "112 bytes, 40 instructions, then 32 bytes of voltage_trim.bin";
    let onto = "assemble night.s --onto voltage_trim.bin --until";
    says(
        &folder,
        &format!("{onto} 112 -o night.bin"),
        &format!("{told}\n"),
    );
    assert_eq!(folder.get("night.bin"), changed);
    // A longer file in the place of the image is no sign that --onto was forgotten.
    folder.write("night.bin", &[7; 150]);
    let told_kept = |name: &str| format!("{told}; what {name} was is kept as {name}.old\n");
    let kept = [
        ("night.bin", vec![7; 150]),
        ("voltage_trim.bin", recipe("voltage_trim.bin")),
    ];
    // The old image itself may be replaced.
    for (image, old) in kept {
        let line = format!("{onto} 0x70 -o {image}");
        says(&folder, &line, &told_kept(image));
        assert_eq!(folder.get(image), changed);
        assert_eq!(folder.get(&format!("{image}.old")), old);
    }
}

/// A longer text would overwrite what follows, a shorter one leave old instructions before it.
#[test]
fn the_new_instructions_are_as_long_as_the_old() {
    let (folder, text) = (with_readings(), code_before_readings());
    let half = "c:addi x0,x0,0\n";
    for (text, words) in [
        (text.clone() + half, "gives 114 bytes, 2 too many"),
        (
            text.clone() + &"ecall\n".repeat(8),
            "gives 144 bytes, 32 too many",
        ),
        (
            text.clone() + &"ecall\n".repeat(9),
            "gives 148 bytes, 36 too many",
        ),
        (text.replacen("c:", "", 1), "gives 114 bytes, 2 too many"),
        (
            text.replace("c:addi x12,x0,3\n", ""),
            "gives 110 bytes, 2 too few",
        ),
        (half.to_string(), "gives 2 bytes, 110 too few"),
    ] {
        folder.write("night.s", text.as_bytes());
        for image in ["new.bin", "voltage_trim.bin"] {
            let line = format!("assemble night.s --onto voltage_trim.bin --until 112 -o {image}");
            is_kept(&folder, &line, 2, &["--until 112: night.s", words]);
        }
    }
    folder.write(
        "night.s",
        text.replace("c:addi x12,x0,3\n", half).as_bytes(),
    );
    let line = "assemble night.s --onto voltage_trim.bin --until 112 -o new.bin";
    assert_eq!(folder.call(line).code, 0);
}

/// The address is one that `list --text` takes, though the text has its length.
#[test]
fn instructions_replace_instructions_alone() {
    let (folder, text) = (with_readings(), code_before_readings());
    let onto = "assemble night.s -o new.bin --onto";
    let words = "--until 6: an instruction begins before that address";
    let is_cut = ("6", "c:ebreak\necall\n".to_string(), 2, words);
    let words = "--until 148: voltage_trim.bin has only 144 bytes";
    let is_past_it = ("148", text.clone() + &"ecall\n".repeat(9), 2, words);
    let words = "0833 at 0x00000072; --until ADDRESS ";
    let has_data = ("116", text + "ecall\n", 37, words);
    for (until, text, code, words) in [is_cut, is_past_it, has_data] {
        folder.write("night.s", text.as_bytes());
        let list = format!("list --text --until {until} voltage_trim.bin");
        folder.fails(&list, code, &[words]);
        let line = format!("{onto} voltage_trim.bin --until {until}");
        is_kept(&folder, &line, code, &[words]);
    }
    let words = ["--onto needs --until"];
    is_kept(&folder, &format!("{onto} voltage_trim.bin"), 2, &words);
    is_kept(
        &folder,
        &format!("{onto} none --until 112"),
        6,
        &["none: missing"],
    );
}

#[test]
fn an_elf_file_may_be_the_old_image() {
    let folder = with_text("ecall\n");
    let elf = recipe("from_c/clock_trim.elf");
    folder.write("old.elf", &elf);
    let line = "assemble night.s --onto old.elf --until 4 -o";
    // It is not replaced: the image's bytes alone are no ELF file.
    for line in [&format!("{line} old.elf"), "assemble night.s -o old.elf"] {
        let words = ["old.elf: an ELF file", "give another name after -o"];
        is_kept(&folder, line, 3, &words);
    }
    assert_eq!(folder.call(&format!("{line} new.bin")).code, 0);
    let (old, new) = (
        folder.call("list old.elf").out,
        folder.call("list new.bin").out,
    );
    let after = |listing: &str| listing[listing.find("\n00000004 ").expect("there")..].to_string();
    assert!(new.starts_with("00000000 00000073 ecall\n"), "{new}");
    assert!(after(&new).lines().count() > 50);
    assert_eq!(after(&new), after(&old));
}

#[test]
fn a_line_at_fault_is_told_as_compilers_do() {
    is_refused(
        "ecall\nc:addi x5,x0,7\naddi x5,x0,99999\n",
        41,
        "night.s:3:12: 11 a number or offset not allowed\naddi x5,x0,99999\n           ^\n\
         note: numbers from -2048 to 2047 are allowed here\n",
    );
    is_refused(
        "ecall\nbeq x5,x32,3\n",
        41,
        "night.s:2:9: 11 a number or offset not allowed\nbeq x5,x32,3\n        ^\n\
         note: registers are x0 to x31\n",
    );
    is_refused(
        "beq x5,x0,3\n",
        41,
        "night.s:1:11: 11 a number or offset not allowed\nbeq x5,x0,3\n          ^\n\
         note: even numbers from -4096 to 4094 are allowed here\n",
    );
    is_refused(
        "c:addi x5,x6,7\nnop\n",
        42,
        "night.s:1:1: 12 `c:` without a short form\nc:addi x5,x6,7\n^\n\
         note: without `c:` it has 4 bytes instead of 2, and what follows moves\n",
    );
    is_refused(
        "ecall\naddi x5, x0,7\n",
        40,
        "night.s:2:9: 10 unreadable\naddi x5, x0,7\n        ^\nnote: expected `x`\n",
    );
}

#[test]
fn the_commonest_slips_of_editors_are_named() {
    is_refused(
        "c:ebreak\necall",
        40,
        "night.s:2:6: 10 unreadable\necall\n     ^\n\
         note: the last line has no newline at its end\n",
    );
    is_refused(
        "ecall\r\n",
        40,
        "night.s:1:6: 10 unreadable\necall\\r\n     ^\n\
         note: the line ends with CR LF: leave every CR out, as tr -d '\\r' does\n",
    );
    is_refused(
        "ecall\r",
        40,
        "night.s:1:6: 10 unreadable\necall\\r\n     ^\n\
         note: a CR without a newline: every line ends with a newline alone\n",
    );
    is_refused(
        "\u{feff}ecall\n",
        40,
        "night.s:1:1: 10 unreadable\n\\xef\\xbb\\xbfecall\n^\n\
         note: a byte order mark: save the text without one, as plain ASCII\n",
    );
    is_refused(
        "ecall\n\n",
        40,
        "night.s:2:1: 10 unreadable\n\n^\nnote: an empty line: every line has an instruction\n",
    );
    is_refused(
        "0000000a 00000073 ecall\n",
        40,
        "night.s:1:1: 10 unreadable\n0000000a 00000073 ecall\n^\n\
         note: with address and bits, as `phuyurik list` has it: `phuyurik list --text` leaves \
         them out\n",
    );
}

/// What the examples are made from is for a compiler's assembler.
#[test]
fn no_source_text_is_taken_for_a_listing() {
    let note =
        "note: comments, directives, labels and blanks in front are not read: the lines are \
                those of `phuyurik list --text`\n";
    for name in recipes() {
        let folder = Folder::new();
        folder.write("night.s", &recipe(&format!("{name}.s")));
        let answer = folder.call("assemble night.s -o new.bin");
        assert_eq!((answer.code, &*answer.out), (40, ""), "{name}");
        assert!(answer.err.ends_with(note), "{}", answer.err);
        assert!(!folder.has("new.bin"));
    }
}

#[test]
fn an_image_that_cannot_be_run_is_not_written() {
    let folder = with_text(&"ecall\n".repeat(16_385));
    let words = ["night.bin: refusal 1: memory longer than 65,536"];
    is_kept(&folder, "assemble night.s -o night.bin", 31, &words);
    let full = "ecall\n".repeat(16_384);
    folder.write("night.s", full.as_bytes());
    let told = "65536 bytes, 16384 instructions\n";
    says(&folder, "assemble night.s -o night.bin", told);
    says(&folder, "list --text night.bin", &full);
    folder.write("long.bin", &[0; 65_537]);
    let words = ["long.bin: refusal 1: memory longer than 65,536"];
    is_kept(
        &folder,
        "assemble night.s --onto long.bin --until 4 -o new",
        31,
        &words,
    );
    for until in ["", "--until 4"] {
        let line = format!("list --text {until} long.bin");
        is_kept(&folder, &line, 31, &words);
        says(&folder, &format!("list {until} long.bin"), "too long\n");
    }
}

#[test]
fn an_empty_text_replaces_nothing() {
    let folder = with_text("");
    says(
        &folder,
        "assemble night.s -o none.bin",
        "0 bytes, 0 instructions\n",
    );
    assert_eq!(folder.get("none.bin"), b"");
    says(&folder, "list --text none.bin", "");
    says(
        &folder,
        "assemble night.s -o none.bin",
        "0 bytes, 0 instructions\n",
    );
    let words = ["night.s: empty: nothing was written"];
    is_kept(&folder, "assemble night.s -o trim.bin", 3, &words);
    for (until, image) in [("14", "new.bin"), ("0", "new.bin"), ("0", "trim.bin")] {
        let line = format!("assemble night.s --onto trim.bin --until {until} -o {image}");
        is_kept(&folder, &line, 3, &words);
    }
}

/// Where the command before a pipe fails, nothing comes through it.
#[test]
fn a_pipe_that_brings_nothing_is_refused() {
    let folder = with_text("");
    let before = folder.snapshot();
    for more in [
        "-o new.bin",
        "-o trim.bin",
        "--onto trim.bin --until 0 -o new.bin",
    ] {
        let answer = with_input(&folder, &format!("assemble - {more}"), "night.s");
        let told = "phuyurik: standard input: empty: nothing was written\n";
        assert_eq!((answer.code, &*answer.out, &*answer.err), (3, "", told));
    }
    folder.is_as(&before);
    // A pipe may have a name.
    let words = ["/dev/null: empty: nothing was written"];
    is_kept(&folder, "assemble /dev/null -o new.bin", 3, &words);
}

#[test]
fn the_text_and_the_old_image_are_not_lost() {
    let folder = with_text(LINES);
    fs::hard_link(folder.file("night.s"), folder.file("hard.s")).expect("linked");
    symlink("night.s", folder.file("soft.s")).expect("linked");
    for (image, other) in [
        ("night.s", "night.s"),
        ("hard.s", "hard.s"),
        ("soft.s", "night.s"),
    ] {
        let words = format!("TEXT must be another file than {other}");
        is_kept(
            &folder,
            &format!("assemble night.s -o {image}"),
            2,
            &[&words],
        );
    }
    // What is written on the way would replace them.
    folder.copy("night.s", "new.tmp");
    let words = ["-o new: TEXT must be another file than new.tmp"];
    is_kept(&folder, "assemble new.tmp -o new", 2, &words);
    folder.copy("trim.bin", "new.tmp");
    let words = ["-o new: OLD must be another file than new.tmp"];
    let line = "assemble night.s --onto new.tmp --until 14 -o new";
    is_kept(&folder, line, 2, &words);
}

#[test]
fn only_a_file_that_may_be_written_is_replaced() {
    let folder = with_text(LINES);
    fs::create_dir(folder.file("folder")).expect("made");
    let _socket = UnixListener::bind(folder.file("socket")).expect("made");
    folder.copy("trim.bin", "kept.bin");
    let no_writing = Permissions::from_mode(0o444);
    fs::set_permissions(folder.file("kept.bin"), no_writing).expect("set");
    symlink("nowhere", folder.file("dangling")).expect("linked");
    for (image, code, words) in [
        ("folder", 3, "not a regular file"),
        ("socket", 3, "not a regular file"),
        ("kept.bin", 3, "write-protected"),
        ("nowhere/new.bin", 6, "nowhere: missing"),
        ("dangling", 6, "a link to nowhere, which is missing"),
    ] {
        is_kept(
            &folder,
            &format!("assemble night.s -o {image}"),
            code,
            &[words],
        );
    }
    is_kept(&folder, "assemble none -o new", 6, &["none: missing"]);
    is_kept(&folder, "assemble folder -o new", 3, &["folder: "]);
    is_kept(&folder, "assemble night.s", 2, &["-o is missing"]);
    is_kept(&folder, "assemble night.s -o -", 2, &["-o -"]);
    // A link is followed, and stays one.
    folder.write("old.bin", b"old");
    symlink("old.bin", folder.file("link")).expect("linked");
    let told = "14 bytes, 4 instructions; what old.bin was is kept as old.bin.old\n";
    says(&folder, "assemble night.s -o link", told);
    assert!(folder.file("link").is_symlink());
    assert!(!folder.file("old.bin").is_symlink());
    assert_eq!(folder.get("old.bin"), PAPER);
}

/// Nothing but its bytes may tell what a file is good for.
#[test]
fn what_is_replaced_is_kept() {
    let folder = with_text(LINES);
    assert_eq!(folder.run("--slot 0 --budget 2").code, 10);
    folder.copy("line.slots", "backup.slots");
    folder.write("damaged.row", &burnt_row()[..ROW - 1]);
    folder.write("empty.bin", b"");
    for name in ["backup.slots", "damaged.row", "empty.bin"] {
        let old = folder.get(name);
        let told = format!("14 bytes, 4 instructions; what {name} was is kept as {name}.old\n");
        let answer = folder.call(&format!("assemble night.s -o {name}"));
        assert_eq!((answer.code, answer.out), (0, told));
        assert_eq!(folder.get(name), PAPER);
        assert_eq!(folder.get(&format!("{name}.old")), old);
    }
}

#[test]
fn what_was_kept_before_stays() {
    let folder = with_text(LINES);
    let versions = ["ecall\n", "ebreak\n", "c:ebreak\n", "c:ebreak\n"];
    for text in versions {
        folder.write("night.s", text.as_bytes());
        assert_eq!(folder.call("assemble night.s -o fixed.bin").code, 0);
    }
    // The last of them is what was there.
    assert_eq!(folder.get("fixed.bin"), [0x02, 0x90]);
    assert_eq!(folder.get("fixed.bin.old"), [0x73, 0, 0, 0]);
    assert_eq!(folder.get("fixed.bin.old2"), [0x73, 0, 0x10, 0]);
    assert!(!folder.has("fixed.bin.old3"));
    // A link is no free name, wherever it leads.
    symlink("nowhere", folder.file("fixed.bin.old3")).expect("linked");
    folder.write("night.s", LINES.as_bytes());
    let told = "14 bytes, 4 instructions; what fixed.bin was is kept as fixed.bin.old4\n";
    says(&folder, "assemble night.s -o fixed.bin", told);
    assert!(folder.file("fixed.bin.old3").is_symlink());
}

/// Its slots are in another folder, where the assembler does not look.
#[test]
fn the_image_of_a_paused_run_comes_back() {
    let folder = with_text("ecall\n");
    fs::create_dir(folder.file("runs")).expect("made");
    let run = "run trim.bin --row runs/part.row --slots runs/line.slots --slot 0 --budget";
    assert_eq!(folder.call(&format!("{run} 2 --new")).code, 10);
    let told = "4 bytes, 1 instruction; what trim.bin was is kept as trim.bin.old\n";
    assert_eq!(folder.call("assemble night.s -o trim.bin").out, told);
    assert_eq!(folder.call(&format!("{run} 9")).code, 7);
    fs::rename(folder.file("trim.bin.old"), folder.file("trim.bin")).expect("renamed");
    assert_eq!(folder.call(&format!("{run} 9")).code, 0);
    assert_eq!(folder.get("runs/part.row"), burnt_row());
}

/// Nothing is written under this name, for the reason that these words say.
fn is_in_use(folder: &Folder, name: &str, words: &str) {
    let line = format!("assemble night.s -o {name}");
    let words = format!("{name}: {words}: give another name");
    is_kept(folder, &line, 7, &[&words]);
}

#[test]
fn no_row_and_no_run_is_written_over() {
    let folder = with_text(LINES);
    // A row that no run has used yet is known by its bytes.
    is_in_use(&folder, "part.row", "the row of a part");
    assert_eq!(folder.run("--slot 0 --budget 2").code, 10);
    is_in_use(&folder, "part.row", "the row of a part");
    is_in_use(&folder, "line.slots", "a slots file");
    let paused = "the image of the run that is paused in slot 0 of line.slots";
    is_in_use(&folder, "trim.bin", paused);
    // What was refused has cost the run nothing; once it has ended, its image may be replaced.
    assert_eq!(folder.run("--slot 0 --budget 9").code, 0);
    assert_eq!(folder.get("part.row"), burnt_row());
    let told = "14 bytes, 4 instructions\n";
    says(&folder, "assemble night.s -o trim.bin", told);
}

#[test]
fn no_name_that_a_run_looks_for_is_taken() {
    let folder = with_text(LINES);
    assert_eq!(folder.run("--slot 0 --budget 2").code, 10);
    for name in [
        "part.row.seen",
        "part.row.journal",
        "part.row.journal.old",
        "part.row.lock",
        "line.slots.0.memory",
    ] {
        let words = "a name that is kept for a file of a row or a run";
        is_in_use(&folder, name, words);
    }
    for name in ["part.row", "line.slots"] {
        folder.remove(name);
    }
    is_in_use(&folder, "part.row", "the row of a part");
    is_in_use(&folder, "line.slots", "a slots file");
    folder.write("other.lock", b"");
    let words = "a row or a slots file, with its lock beside it";
    is_in_use(&folder, "other", words);
}

/// The file that is written on the way has the image's name with `.tmp` after it.
#[test]
fn no_row_is_written_over_on_the_way() {
    let folder = with_text(LINES);
    folder.write("new.tmp", &[0; ROW]);
    let words = ["new.tmp: the row of a part"];
    is_kept(&folder, "assemble night.s -o new", 7, &words);
}

#[test]
fn bits_that_are_no_instruction_have_no_line() {
    let folder = with_paper();
    folder.write("data.bin", &[0x01, 0x00, 0x33, 0x08, 0xFF]);
    let words = [
        "data.bin: refusal 7: no legal instruction in the given bits",
        "0833 at 0x00000002",
        "--until ADDRESS",
    ];
    folder.fails("list --text data.bin", 37, &words);
    folder.fails("list --text --until 4 data.bin", 37, &words);
    says(
        &folder,
        "list --text --until 2 data.bin",
        "c:addi x0,x0,0\n",
    );
    says(&folder, "list --text --until 0 data.bin", "");
    let whole = "00000000 0001 c:addi x0,x0,0\n00000002 0833 ?\n";
    says(&folder, "list --until 4 data.bin", whole);
}

#[test]
fn no_instruction_is_cut_by_until() {
    let folder = with_paper();
    for text in ["", "--text"] {
        for until in ["1", "3", "0x4", "5", "13"] {
            let line = format!("list {text} --until {until} trim.bin");
            folder.fails(&line, 2, &["--until", "begins before", "ends after"]);
        }
        let line = format!("list {text} --until 15 trim.bin");
        folder.fails(&line, 2, &["--until 15", "trim.bin has only 14 bytes"]);
    }
    let front = "00000000 429d c:addi x5,x0,7\n00000002 80000337 lui x6,524288\n";
    says(&folder, "list --until 6 trim.bin", front);
    says(&folder, "list --text --until 14 trim.bin", LINES);
}

/// Data that looks like instructions must not change unseen.
#[test]
fn a_note_says_which_bits_would_not_come_back() {
    let folder = with_paper();
    folder.write(
        "larger.bin",
        &[&PAPER[..], &LARGER_HALF, &LARGER_HALF].concat(),
    );
    let text = folder.call("list --text larger.bin");
    assert_eq!(text.code, 0);
    assert_eq!(
        text.out,
        format!("{LINES}{}", "c:addi x2,x2,16\necall\n".repeat(2))
    );
    let note =
        "phuyurik: note: larger.bin: lines that give other bits than are there, the smallest \
                halfword with the same meaning: 2, the first for 0x0000000e. If that is data, use \
                --until ADDRESS\n";
    assert_eq!(text.err, note);
    folder.write("night.s", text.out.as_bytes());
    assert_eq!(folder.call("assemble night.s -o night.bin").code, 0);
    let smallest = [0x41, 0x01, 0x73, 0, 0, 0];
    let image = [&PAPER[..], &smallest, &smallest].concat();
    assert_eq!(folder.get("night.bin"), image);
    says(&folder, "list --text --until 0xe larger.bin", LINES);
}
