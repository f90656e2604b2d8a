//! Comparison 1: our texts with those of objdump and of LLVM.
use crate::scope::{is_excluded, is_no_instruction, Ground, GROUNDS};
use crate::spelling::{read, Shown};
use crate::tally::Tally;
use crate::tools::{run, succeed, LLVM_MC, OBJDUMP};
use crate::words::Bits;
use std::collections::{HashMap, HashSet};
use std::process::Command;
use testing::Folder;

/// What a peer shows for each; nothing where it says that there is no instruction.
pub type Reader = fn(&Folder, &[Bits]) -> Vec<Option<Shown>>;

/// No instruction is longer than 22 bytes for objdump; after one that it may take for such, as many
/// short instructions that do nothing keep the next in step.
const LONGEST: usize = 22;
const NOTHING: [u8; 2] = [0x01, 0x00];

pub fn with_objdump(folder: &Folder, all: &[Bits]) -> Vec<Option<Shown>> {
    let mut image = Vec::new();
    let mut addresses = Vec::new();
    for bits in all {
        addresses.push(image.len() as u32);
        image.extend(bits.bytes());
        if bits.is_longer() {
            image.extend(NOTHING.repeat(LONGEST / NOTHING.len()));
        }
    }
    let path = folder.write("image", &image);
    let mut command = Command::new(OBJDUMP);
    command.args(["-z", "-D", "-b", "binary", "-m", "riscv:rv32"]);
    let text = succeed(command.args(["-M", "no-aliases,numeric"]).arg(path));
    let text = String::from_utf8_lossy(&text);
    let mut lines: HashMap<u32, Shown> = text.lines().filter_map(line_of_objdump).collect();
    let mut shown = |address| lines.remove(address).expect("objdump shows each address");
    addresses.iter().map(|at| Some(shown(at))).collect()
}

/// `   6:<tab>00532023<tab>sw<tab>x5,0(x6) # 0x80000000`
fn line_of_objdump(line: &str) -> Option<(u32, Shown)> {
    let mut columns = line.split('\t');
    let address = columns.next()?.trim().strip_suffix(':')?;
    let address = u32::from_str_radix(address, 16).ok()?;
    let mnemonic = columns.nth(1)?;
    let operands = columns.next().unwrap_or("");
    let operands = operands.split([' ', '#', '<']).next().unwrap_or("");
    let shown = read(mnemonic, operands);
    Some((address, shown.with_offset_from(address)))
}

pub fn with_llvm(folder: &Folder, all: &[Bits]) -> Vec<Option<Shown>> {
    let mut source = String::new();
    for bits in all {
        let bytes: Vec<String> = bits.bytes().iter().map(|b| format!("0x{b:02x}")).collect();
        source += &format!("[{}]\n", bytes.join(" "));
    }
    let path = folder.write("bytes", source.as_bytes());
    let mut command = Command::new(LLVM_MC);
    command.args(["--disassemble", "--triple=riscv32", "--mattr=+m,+c"]);
    let output = run(command
        .args(["-M", "no-aliases", "-M", "numeric"])
        .arg(&path));
    let start = format!("{}:", path.display());
    let errors = String::from_utf8_lossy(&output.stderr);
    let refused: HashSet<usize> = errors.lines().filter_map(|l| refused(l, &start)).collect();
    let text = String::from_utf8_lossy(&output.stdout);
    let mut lines = text.lines().filter_map(line_of_llvm);
    let mut shown = |number: usize| match refused.contains(&number) {
        true => None,
        false => Some(lines.next().expect("LLVM shows what it does not refuse")),
    };
    let answers = (1..=all.len()).map(&mut shown).collect();
    assert_eq!(lines.next(), None, "LLVM shows no more than it was given");
    answers
}

/// `FILE:3:2: warning: invalid instruction encoding`: the line's number.
fn refused(line: &str, start: &str) -> Option<usize> {
    let line = line.strip_suffix("warning: invalid instruction encoding")?;
    line.strip_prefix(start)?.split(':').next()?.parse().ok()
}

/// `<tab>lui<tab>x6, 524288`
fn line_of_llvm(line: &str) -> Option<Shown> {
    let (mnemonic, operands) = line.strip_prefix('\t')?.split_once('\t')?;
    Some(read(mnemonic, operands))
}

/// Our text of the bits, a short one's without the `c:` that must be in front.
pub fn text_of(bits: Bits) -> Option<String> {
    match bits {
        Bits::Word(word) => phuyurik::text_of_word(word).ok(),
        Bits::Half(half) => {
            let text = phuyurik::text_of_half(half).ok()?;
            Some(text.strip_prefix("c:").unwrap_or("no c: in front").into())
        }
    }
}

pub fn compare(name: &str, reader: Reader, folder: &Folder, all: &[Bits]) -> Tally {
    let mut tally = Tally::new(name);
    for (bits, shown) in all.iter().zip(reader(folder, all)) {
        judge(&mut tally, *bits, shown);
    }
    tally
}

fn judge(tally: &mut Tally, bits: Bits, shown: Option<Shown>) {
    let ours = text_of(bits);
    let theirs = shown.as_ref().and_then(Shown::in_our_words);
    let settled = |ground: &&Ground| (ground.holds)(bits, ours.as_deref(), theirs.as_deref());
    let outside = shown.as_ref().map(|shown| shown.mnemonic.as_str());
    match (&ours, &theirs, outside) {
        (Some(text), Some(same), _) if text == same => tally.same("equal texts"),
        (None, None, None) => tally.same("illegal for both"),
        (None, None, Some(name)) if is_no_instruction(name) => tally.same("illegal for both"),
        (None, None, Some(name)) if is_excluded(name) => tally.same("outside RV32IMC"),
        _ => match GROUNDS.iter().find(settled) {
            Some(ground) => tally.settled(ground.name),
            None => tally.differs(format!("{}: we {ours:?}, they {shown:?}", bits.hex())),
        },
    }
}
