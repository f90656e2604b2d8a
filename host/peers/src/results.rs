//! Comparison 3: C programs, compiled by gcc, give the same bytes on our machine and on qemu.
//!
//! Each program is linked twice, at address 0 for us and as an ordinary static program for Linux.
//! It computes into a buffer and calls `write(1, buffer, length)`; our machine stops at that
//! `ecall`, and the bytes that a1 and a2 name in its memory are compared with what qemu wrote.
use crate::sequences::{program, COUNT};
use crate::tally::Tally;
use crate::tools::{read, run, succeed, GCC, OBJCOPY, QEMU};
use phuyurik::{Board, Row, State, Stop, LONGEST_MEMORY};
use std::path::{Path, PathBuf};
use std::process::Command;
use testing::Folder;

const BUILDS: [(&str, &str); 4] = [
    ("rv32imc", "-O0"),
    ("rv32imc", "-O2"),
    ("rv32imc", "-Os"),
    ("rv32im", "-O2"),
];
/// Far more than any program takes; a program that does not end is a difference.
const BUDGET: u64 = 100_000_000;
/// How many programs of random instructions.
const SEQUENCES: u64 = 24;
/// The number of Linux's `write`.
const WRITE: u32 = 64;

fn programs() -> PathBuf {
    Path::new(env!("CARGO_MANIFEST_DIR")).join("programs")
}

/// The programs' sources, in order of their names.
pub fn sources() -> Vec<PathBuf> {
    let entries = std::fs::read_dir(programs()).expect("the programs are there");
    let paths = entries.map(|entry| entry.expect("a folder can be read").path());
    let is_source = |path: &PathBuf| {
        path.extension().is_some_and(|kind| kind == "c") && !path.ends_with("start.c")
    };
    let mut sources: Vec<PathBuf> = paths.filter(is_source).collect();
    sources.sort();
    sources
}

/// A program: its sources and how it is built.
struct Program<'a> {
    sources: &'a [PathBuf],
    architecture: &'a str,
    level: &'a str,
}

impl Program<'_> {
    fn linked(&self, folder: &Folder, base: u32) -> PathBuf {
        let program = folder.file("program.elf");
        let mut gcc = Command::new(GCC);
        gcc.arg(format!("-march={}", self.architecture));
        gcc.args(["-mabi=ilp32", self.level, "-std=gnu11", "-ffreestanding"]);
        gcc.args([
            "-fwrapv",
            "-Wall",
            "-Wextra",
            "-pedantic",
            "-Werror",
            "-nostdlib",
            "-static",
        ]);
        gcc.arg("-Wl,--no-relax,--no-warn-rwx-segments,--build-id=none");
        gcc.arg(format!("-Wl,--defsym=base={base}"));
        gcc.arg("-T")
            .arg(programs().join("link.ld"))
            .args(self.sources);
        succeed(gcc.arg("-lgcc").arg("-o").arg(&program));
        program
    }

    fn ours(&self, folder: &Folder) -> Result<Vec<u8>, String> {
        let image = folder.file("image");
        let program = self.linked(folder, 0);
        let mut copy = Command::new(OBJCOPY);
        succeed(copy.args(["-O", "binary"]).arg(program).arg(&image));
        let mut memory = read(&image);
        if memory.len() > LONGEST_MEMORY {
            return Err(format!("the image has {} bytes", memory.len()));
        }
        memory.resize(LONGEST_MEMORY, 0);
        written(&mut memory)
    }

    fn theirs(&self, folder: &Folder) -> Result<Vec<u8>, String> {
        let program = self.linked(folder, 0x10000);
        let output = run(Command::new(QEMU).arg(program));
        match output.status.success() {
            true => Ok(output.stdout),
            false => Err(format!("qemu ends with {}", output.status)),
        }
    }
}

/// Runs an image to its first `ecall`, which must write; what it would write.
fn written(memory: &mut [u8]) -> Result<Vec<u8>, String> {
    let (mut state, mut row) = (State::fresh(), Row::default());
    let done = Board::new(memory, &mut row).run(&mut state, BUDGET);
    done.map_err(|error| error.to_string())?;
    let (call, target) = (state.reg(17), state.reg(10));
    if (state.stop(), call, target) != (Ok(Stop::Ecall), WRITE, 1) {
        let (stop, pc) = (state.stop_number(), state.pc);
        return Err(format!("stop {stop} at pc {pc}, a7 {call}, a0 {target}"));
    }
    let (from, length) = (state.reg(11) as usize, state.reg(12) as usize);
    let bytes = memory.get(from..from + length);
    bytes
        .map(<[u8]>::to_vec)
        .ok_or("the buffer is outside".into())
}

fn judge(tally: &mut Tally, name: &str, program: &Program, folder: &Folder) {
    let (ours, theirs) = (program.ours(folder), program.theirs(folder));
    match (ours, theirs) {
        (Ok(ours), Ok(theirs)) if ours == theirs && !ours.is_empty() => {
            tally.same("equal");
            tally.bytes(ours.len());
        }
        (Ok(ours), Ok(theirs)) => {
            let pairs = ours.iter().zip(&theirs);
            let at = pairs.take_while(|(our, their)| our == their).count();
            let (our, their) = (ours.len(), theirs.len());
            tally.differs(format!("{name}: {our} and {their} bytes, equal up to {at}"));
        }
        (ours, theirs) => {
            let failed = |answer: Result<Vec<u8>, String>| answer.err().unwrap_or_default();
            tally.differs(format!(
                "{name}: we {}, they {}",
                failed(ours),
                failed(theirs)
            ));
        }
    }
}

/// The C programs, in each build.
pub fn compare_programs(folder: &Folder) -> Tally {
    let mut tally = Tally::new("results, gcc and qemu, programs");
    for source in sources() {
        let name = source.file_stem().unwrap_or_default().to_string_lossy();
        let sources = [source.clone(), programs().join("start.c")];
        for (architecture, level) in BUILDS {
            let program = Program {
                sources: &sources,
                architecture,
                level,
            };
            let name = format!("{name} {architecture} {level}");
            judge(&mut tally, &name, &program, folder);
        }
    }
    tally
}

/// Programs of random instructions.
pub fn compare_sequences(seed: u64, folder: &Folder) -> Tally {
    let name = format!("results, as and qemu, programs of {COUNT} random instructions");
    let mut tally = Tally::new(name);
    for number in 0..SEQUENCES {
        let seed = seed.wrapping_mul(SEQUENCES).wrapping_add(number);
        let source = folder.write("sequence.S", program(seed).as_bytes());
        let program = Program {
            sources: &[source],
            architecture: "rv32imc",
            level: "-O0",
        };
        judge(&mut tally, &format!("sequence {seed}"), &program, folder);
    }
    tally
}
