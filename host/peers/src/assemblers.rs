//! Comparison 2: our texts, assembled by GNU as and by LLVM, give our bits: our words, and where
//! the peer may shorten, our halfwords.
//!
//! Spelling differences: GNU as takes a branch's or jump's target, so an offset is written `.+4`,
//! and it shortens a jump only by its other names, `j .+4`, `jr x5` and `jalr x5`; `fence
//! rd,rs1,field` is written with `.insn`, since no assembler has a name for all its fields.
use crate::disassemblers::text_of;
use crate::scope::{ShortGround, SHORT_GROUNDS};
use crate::tally::Tally;
use crate::tools::{read, succeed, AS, LLVM_MC, OBJCOPY};
use crate::words::Bits;
use std::process::Command;
use testing::Folder;

/// The bits that a peer makes of our texts; whether it may shorten them.
pub type Maker = fn(&Folder, &[String], bool) -> Vec<Bits>;

const BRANCHES: [&str; 6] = ["beq", "bne", "blt", "bge", "bltu", "bgeu"];

fn fence(text: &str) -> Option<String> {
    let (registers, field) = text.strip_prefix("fence ")?.rsplit_once(',')?;
    let field: i32 = field.parse().ok()?;
    let signed = field - (field >> 11 << 12);
    Some(format!(".insn i 0x0f,0,{registers},{signed}"))
}

fn spelled_for_gnu(text: &str) -> String {
    let through = |start: &str| text.strip_prefix(start)?.strip_suffix(')');
    if let Some(rs1) = through("jalr x0,0(") {
        return format!("jr {rs1}");
    }
    if let Some(rs1) = through("jalr x1,0(") {
        return format!("jalr {rs1}");
    }
    let (name, operands) = text.split_once(' ').unwrap_or((text, ""));
    match operands.rsplit_once(',') {
        Some(("x0", offset)) if name == "jal" => format!("j .+{offset}"),
        Some((front, offset)) if name == "jal" || BRANCHES.contains(&name) => {
            format!("{name} {front},.+{offset}")
        }
        _ => text.to_string(),
    }
}

fn source(texts: &[String], short: bool, spelled: fn(&str) -> String) -> String {
    let line = |text: &String| fence(text).unwrap_or_else(|| spelled(text)) + "\n";
    let option = if short { "rvc" } else { "norvc" };
    format!(".option {option}\n") + &texts.iter().map(line).collect::<String>()
}

pub fn with_gnu(folder: &Folder, texts: &[String], short: bool) -> Vec<Bits> {
    let input = folder.write("gnu.s", source(texts, short, spelled_for_gnu).as_bytes());
    let (object, image) = (folder.file("gnu.o"), folder.file("gnu.image"));
    let mut assemble = Command::new(AS);
    assemble.args(["-march=rv32imc", "-mabi=ilp32", "-mno-relax"]);
    succeed(assemble.arg(input).arg("-o").arg(&object));
    let mut copy = Command::new(OBJCOPY);
    succeed(copy.args(["-O", "binary"]).arg(object).arg(&image));
    let image = read(&image);
    let mut rest = image.as_slice();
    let mut made = Vec::new();
    while let [low, high, after @ ..] = rest {
        let half = u16::from_le_bytes([*low, *high]);
        let (bits, next) = match after {
            [third, fourth, next @ ..] if half & 3 == 3 => (
                Bits::Word(u32::from_le_bytes([*low, *high, *third, *fourth])),
                next,
            ),
            _ => (Bits::Half(half), after),
        };
        made.push(bits);
        rest = next;
    }
    made
}

pub fn with_llvm(folder: &Folder, texts: &[String], short: bool) -> Vec<Bits> {
    let source = source(texts, short, str::to_string);
    let input = folder.write("llvm.s", source.as_bytes());
    let mut command = Command::new(LLVM_MC);
    command.args(["--triple=riscv32", "--mattr=+m,+c", "--show-encoding"]);
    let text = succeed(command.arg(input));
    let text = String::from_utf8_lossy(&text);
    text.lines().filter_map(encoding).collect()
}

/// `..  # encoding: [0xe3,0x0e,0x00,0xfe]`
fn encoding(line: &str) -> Option<Bits> {
    let (_, bytes) = line.split_once("# encoding: [")?;
    let bytes = bytes.trim_end_matches(']').split(',');
    let number = |byte: &str| u8::from_str_radix(byte.trim_start_matches("0x"), 16).ok();
    let bytes: Option<Vec<u8>> = bytes.map(number).collect();
    match bytes?.as_slice() {
        [a, b] => Some(Bits::Half(u16::from_le_bytes([*a, *b]))),
        [a, b, c, d] => Some(Bits::Word(u32::from_le_bytes([*a, *b, *c, *d]))),
        _ => None,
    }
}

/// Our bits and our text of the instruction that the bits mean.
fn ours(bits: Bits, short: bool) -> Result<(Bits, String), phuyurik::Error> {
    let inst = match bits {
        Bits::Half(half) => phuyurik::expand(half)?,
        Bits::Word(word) => phuyurik::decode(word)?,
    };
    let text = phuyurik::text_of(inst)?;
    match phuyurik::shorten(inst) {
        Ok(half) if short => Ok((Bits::Half(half), text)),
        _ => Ok((Bits::Word(phuyurik::encode(inst)?), text)),
    }
}

/// All must be legal; a peer's bits of our text must be our bits.
pub fn compare(name: &str, maker: Maker, folder: &Folder, all: &[Bits], short: bool) -> Tally {
    let mut tally = Tally::new(name);
    let mut pairs = Vec::new();
    for bits in all {
        match ours(*bits, short) {
            Ok(pair) => pairs.push(pair),
            Err(error) => tally.differs(format!("{}: {error}", bits.hex())),
        }
    }
    let texts: Vec<String> = pairs.iter().map(|(_, text)| text.clone()).collect();
    let made = maker(folder, &texts, short);
    if made.len() != pairs.len() {
        tally.differs(format!("{} answers to {} texts", made.len(), pairs.len()));
    }
    for ((ours, text), theirs) in pairs.iter().zip(made) {
        judge(&mut tally, text, *ours, theirs);
    }
    tally
}

fn judge(tally: &mut Tally, text: &str, ours: Bits, theirs: Bits) {
    let made = text_of(theirs).unwrap_or_default();
    let (short, their_short) = (ours.is_half(), theirs.is_half());
    let settled = |ground: &&ShortGround| (ground.holds)(text, short, &made, their_short);
    match SHORT_GROUNDS.iter().find(settled) {
        _ if ours == theirs && short => tally.same("equal halfwords"),
        _ if ours == theirs => tally.same("equal words"),
        Some(ground) => tally.settled(ground.name),
        None => tally.differs(format!("{text}: we {}, they {}", ours.hex(), theirs.hex())),
    }
}
