//! The tool on a bench: a folder with a recipe and a part, calls of the tool, and what they gave.
// Each file of tests uses what it needs of it.
#![allow(dead_code)]

use crate::common::tool;
use phuyurik::ROW;
use std::collections::BTreeMap;
use std::fs;
use std::path::Path;
use std::process::Output;
use std::time::{Duration, Instant, SystemTime};
use testing::Folder;

/// The paper's recipe: it burns word 0 with 7.
pub const PAPER: [u8; 14] = testing::example::IMAGE;
/// `jal x0,0`: it never ends.
pub const ENDLESS: [u8; 4] = [0x6F, 0x00, 0x00, 0x00];
pub const FILES: &str = "--row part.row --slots line.slots";

/// What a call of the tool gave.
pub struct Answer {
    pub code: i32,
    pub out: String,
    pub err: String,
}

impl Answer {
    pub fn of(done: Output) -> Answer {
        Answer {
            code: done.status.code().expect("it ends by itself"),
            out: String::from_utf8(done.stdout).expect("text"),
            err: String::from_utf8(done.stderr).expect("text"),
        }
    }
}

pub const COMMANDS: [&str; 11] = [
    "run", "list", "assemble", "row", "slot", "status", "forget", "adopt", "settle", "mend", "demo",
];

/// A file as it is: its bytes, or where a link leads, and when it was last written.
pub type Snapshot = BTreeMap<String, (Vec<u8>, SystemTime)>;

pub trait Bench {
    fn get(&self, name: &str) -> Vec<u8>;
    fn has(&self, name: &str) -> bool;
    fn remove(&self, name: &str);
    fn copy(&self, from: &str, to: &str);
    fn call(&self, line: &str) -> Answer;
    fn run(&self, more: &str) -> Answer;
    fn fails(&self, line: &str, code: i32, words: &[&str]);
    fn snapshot(&self) -> Snapshot;
    fn is_as(&self, before: &Snapshot);
    fn waits_for(&self, name: &str);
}

impl Bench for Folder {
    fn get(&self, name: &str) -> Vec<u8> {
        fs::read(self.file(name)).expect(name)
    }

    fn has(&self, name: &str) -> bool {
        self.file(name).symlink_metadata().is_ok()
    }

    fn remove(&self, name: &str) {
        fs::remove_file(self.file(name)).expect(name);
    }

    fn copy(&self, from: &str, to: &str) {
        fs::copy(self.file(from), self.file(to)).expect(from);
    }

    /// Whatever the exit code is, the command's help lists it.
    fn call(&self, line: &str) -> Answer {
        let answer = answer_to(self, line);
        let first = line.split(' ').next();
        let command = first.filter(|word| COMMANDS.contains(word));
        let help = answer_to(self, &format!("{} --help", command.unwrap_or_default()));
        let code = format!("\n  {:<3} ", answer.code);
        assert!(help.out.contains(&code), "{line}: {}", answer.code);
        answer
    }

    /// The recipe `trim.bin` on the usual files.
    fn run(&self, more: &str) -> Answer {
        self.call(&format!("run trim.bin {FILES} {more}"))
    }

    /// One clear line on standard error that has these words in it, and nothing else.
    fn fails(&self, line: &str, code: i32, words: &[&str]) {
        let answer = self.call(line);
        let given = (answer.code, &*answer.out);
        assert_eq!(given, (code, ""), "{line}: {}", answer.err);
        let lines: Vec<&str> = answer.err.lines().collect();
        assert_eq!(lines.len(), 1, "{line}: {}", answer.err);
        for word in words {
            assert!(lines[0].contains(word), "{line}: {}", lines[0]);
        }
    }

    /// Every file of the folder, of whatever kind.
    fn snapshot(&self) -> Snapshot {
        let entries = fs::read_dir(self.path()).expect("there");
        entries
            .map(|entry| {
                let path = entry.expect("there").path();
                let name = path.file_name().expect("named").to_string_lossy();
                (name.into_owned(), as_it_is(&path))
            })
            .collect()
    }

    /// That no file was made, removed, changed or touched.
    fn is_as(&self, before: &Snapshot) {
        let now = self.snapshot();
        assert!(now.keys().eq(before.keys()), "{:?}", now.keys());
        for (name, content) in now {
            assert!(before[&name] == content, "{name} was changed");
        }
    }

    /// Until another process has made the file.
    fn waits_for(&self, name: &str) {
        let clock = Instant::now();
        while !self.has(name) {
            assert!(clock.elapsed() < Duration::from_secs(20), "no {name}");
            std::thread::sleep(Duration::from_millis(2));
        }
    }
}

fn as_it_is(path: &Path) -> (Vec<u8>, SystemTime) {
    let about = path.symlink_metadata().expect("there");
    let content = if about.is_symlink() {
        let target = fs::read_link(path).expect("a link");
        target.as_os_str().as_encoded_bytes().to_vec()
    } else if about.is_file() {
        fs::read(path).expect("read")
    } else {
        Vec::new()
    };
    (content, about.modified().expect("known"))
}

pub fn answer_to(folder: &Folder, line: &str) -> Answer {
    Answer::of(tool(folder, line).output().expect("started"))
}

/// The paper's recipe and a blank part.
pub fn with_paper() -> Folder {
    let folder = Folder::new();
    folder.write("trim.bin", &PAPER);
    folder.write("part.row", &[0; ROW]);
    folder
}

/// A row with word 0 burnt with 7, and nothing else.
pub fn burnt_row() -> Vec<u8> {
    row_of(&[(0, 7)])
}

/// A row with these words burnt, each with its value.
pub fn row_of(words: &[(usize, u32)]) -> Vec<u8> {
    let mut row = vec![0; ROW];
    for (index, value) in words {
        row[8 * index..][..4].copy_from_slice(&value.to_le_bytes());
        row[8 * index + 4] = 1;
    }
    row
}

/// A recipe that burns its words one after the other, word `k` with `100 + k`, and then comes to
/// its ecall. Four steps burn a word.
pub fn burning(first: u32, words: u32) -> Vec<u8> {
    let mut image = Vec::new();
    for word in first..first + words {
        let steps = [
            0x0000_0293 | (100 + word) << 20,  // addi x5,x0,100+word
            0x8000_0337,                       // lui x6,0x80000
            0x0000_0013,                       // addi x0,x0,0
            0x0053_2023 | sw_offset(4 * word), // sw x5,4*word(x6)
        ];
        for step in steps {
            image.extend_from_slice(&step.to_le_bytes());
        }
    }
    image.extend_from_slice(&0x0000_0073_u32.to_le_bytes());
    image
}

/// The two parts of a store's offset, as the manual has them.
fn sw_offset(offset: u32) -> u32 {
    (offset >> 5) << 25 | (offset & 31) << 7
}
