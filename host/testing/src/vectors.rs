//! The outside vectors, `vectors/` at the root of the repository: what tools of others listed.
//! A line of `halfwords.txt` is a legal halfword, the word that it stands for and that word's text,
//! a line of `words.txt` a word and its text, `?` if it is illegal. Every legal halfword is there.
//! The texts are read here; no program of this repository wrote any of them.
use std::collections::HashMap;

/// An instruction as the C interface has it: operation, rd, rs1, rs2, immediate.
pub type Numbers = [u32; 5];

/// One line: its halfword, if it has one, its word, its text, and what the text says.
pub struct Vector {
    pub half: Option<u16>,
    pub word: u32,
    pub text: String,
    pub meant: Option<Numbers>,
}

/// All lines, those with a halfword first.
pub fn vectors() -> Vec<Vector> {
    let halves = file("halfwords.txt");
    let words = file("words.txt");
    let short = halves.lines().map(|line| {
        let (half, rest) = line.split_once(' ').expect("a halfword and more");
        let half = u16::from_str_radix(half, 16).expect("four hex digits");
        vector(Some(half), rest)
    });
    short
        .chain(words.lines().map(|line| vector(None, line)))
        .collect()
}

/// The smallest halfword of each word that has one.
pub fn smallest_halves(all: &[Vector]) -> HashMap<u32, u16> {
    let mut smallest = HashMap::new();
    for v in all {
        if let Some(half) = v.half {
            let least = smallest.entry(v.word).or_insert(half);
            *least = half.min(*least);
        }
    }
    smallest
}

/// Every text of the list as a line, with the bytes that it must be read back to: a word's own, and
/// with `c:` in front, for a halfword's text, the smallest halfword of the list with that text.
pub fn lines() -> Vec<(String, Vec<u8>)> {
    let all = vectors();
    let smallest = smallest_halves(&all);
    let mut lines = Vec::new();
    for v in all.iter().filter(|v| v.meant.is_some()) {
        lines.push((format!("{}\n", v.text), v.word.to_le_bytes().to_vec()));
        if v.half.is_some() {
            let half = smallest[&v.word];
            lines.push((format!("c:{}\n", v.text), half.to_le_bytes().to_vec()));
        }
    }
    lines
}

fn file(name: &str) -> String {
    let path = format!("{}/../../vectors/{name}", env!("CARGO_MANIFEST_DIR"));
    std::fs::read_to_string(&path).unwrap_or_else(|problem| panic!("{path}: {problem}"))
}

fn vector(half: Option<u16>, rest: &str) -> Vector {
    let (word, text) = rest.split_once(' ').expect("a word and its text");
    Vector {
        half,
        word: u32::from_str_radix(word, 16).expect("eight hex digits"),
        text: text.to_string(),
        meant: (text != "?").then(|| numbers(text)),
    }
}

// The mnemonics in the paper's order.
const MNEMONICS: &str = "lui auipc jal jalr beq bne blt bge bltu bgeu lb lh lw lbu lhu sb sh sw \
    addi slti sltiu xori ori andi slli srli srai add sub sll slt sltu xor srl sra or and \
    fence ecall ebreak mul mulh mulhsu mulhu div divu rem remu";

fn numbers(text: &str) -> Numbers {
    let (mnemonic, operands) = text.split_once(' ').unwrap_or((text, ""));
    let operation = MNEMONICS
        .split_whitespace()
        .position(|known| known == mnemonic)
        .unwrap_or_else(|| panic!("no mnemonic: {text}"));
    let fields: Vec<&str> = operands
        .split([',', '(', ')'])
        .filter(|field| !field.is_empty())
        .collect();
    let x = |at: usize| -> u32 {
        let register = fields[at].strip_prefix('x').expect("a register");
        register.parse().expect("a register's number")
    };
    let imm = |at: usize| fields[at].parse::<i64>().expect("a number") as u32;
    let [rd, rs1, rs2, imm] = match mnemonic {
        "lui" | "auipc" | "jal" => [x(0), 0, 0, imm(1)],
        "beq" | "bne" | "blt" | "bge" | "bltu" | "bgeu" => [0, x(0), x(1), imm(2)],
        "jalr" | "lb" | "lh" | "lw" | "lbu" | "lhu" => [x(0), x(2), 0, imm(1)],
        "sb" | "sh" | "sw" => [0, x(2), x(0), imm(1)],
        "ecall" | "ebreak" => [0, 0, 0, 0],
        _ if fields[2].starts_with('x') => [x(0), x(1), x(2), 0],
        _ => [x(0), x(1), 0, imm(2)],
    };
    [operation as u32, rd, rs1, rs2, imm]
}
