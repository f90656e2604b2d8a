//! How a peer's text becomes ours: the one list of spelling differences.
//!
//! - A peer writes spaces after commas or none: operands are trimmed and joined by commas.
//! - objdump writes targets of branches and jumps as addresses: the offset is the target minus the
//!   instruction's own address, modulo 2^32. LLVM writes the offset.
//! - objdump writes fields of `lui` and `auipc` and shift amounts in hexadecimal.
//! - LLVM writes the field of `c.lui` with rd x0, a HINT, with its sign: it is taken modulo 2^20.
//! - `fence pred,succ` is our `fence x0,x0,field` with the letters i, o, r, w as 8, 4, 2, 1 and
//!   `unknown` as 0; `fence.tso` is the field 0x833 (manual, 2.7).
//! - A short instruction has a name of its own: `SHORT_FORMS` gives its expansion.
use crate::words::OPERATIONS;

/// A line of a peer's: mnemonic and operands.
#[derive(Clone, Debug, PartialEq, Eq)]
pub struct Shown {
    pub mnemonic: String,
    pub operands: Vec<String>,
}

/// The expansions of the manual's chapter 16. `c.slli64`, `c.srli64` and `c.srai64` are the peers'
/// names of shifts by 0, which are HINT points in RV32 (16.7).
const SHORT_FORMS: [(&str, &str); 34] = [
    ("c.addi4spn", "addi {0},{1},{2}"),
    ("c.lw", "lw {0},{1}"),
    ("c.sw", "sw {0},{1}"),
    ("c.lwsp", "lw {0},{1}"),
    ("c.swsp", "sw {0},{1}"),
    ("c.nop", "addi x0,x0,{0}"),
    ("c.addi", "addi {0},{0},{1}"),
    ("c.addi16sp", "addi {0},{0},{1}"),
    ("c.li", "addi {0},x0,{1}"),
    ("c.lui", "lui {0},{1}"),
    ("c.slli", "slli {0},{0},{1}"),
    ("c.srli", "srli {0},{0},{1}"),
    ("c.srai", "srai {0},{0},{1}"),
    ("c.slli64", "slli {0},{0},0"),
    ("c.srli64", "srli {0},{0},0"),
    ("c.srai64", "srai {0},{0},0"),
    ("c.andi", "andi {0},{0},{1}"),
    ("c.sub", "sub {0},{0},{1}"),
    ("c.xor", "xor {0},{0},{1}"),
    ("c.or", "or {0},{0},{1}"),
    ("c.and", "and {0},{0},{1}"),
    ("c.mv", "add {0},x0,{1}"),
    ("c.add", "add {0},{0},{1}"),
    ("c.j", "jal x0,{0}"),
    ("c.jal", "jal x1,{0}"),
    ("c.beqz", "beq {0},x0,{1}"),
    ("c.bnez", "bne {0},x0,{1}"),
    ("c.jr", "jalr x0,0({0})"),
    ("c.jalr", "jalr x1,0({0})"),
    ("c.ebreak", "ebreak"),
    ("fence.tso", "fence x0,x0,2099"),
    ("fence", "fence x0,x0,{0}"),
    ("ecall", "ecall"),
    ("ebreak", "ebreak"),
];

const WITH_TARGETS: [&str; 11] = [
    "jal", "beq", "bne", "blt", "bge", "bltu", "bgeu", "c.j", "c.jal", "c.beqz", "c.bnez",
];

/// Reads mnemonic and operands, numbers in decimal.
pub fn read(mnemonic: &str, operands: &str) -> Shown {
    let pieces = operands.split(',').map(str::trim);
    let operands = pieces.filter(|piece| !piece.is_empty()).map(decimal);
    Shown {
        mnemonic: mnemonic.trim().to_string(),
        operands: operands.collect(),
    }
}

fn decimal(operand: &str) -> String {
    let digits = operand.strip_prefix("0x");
    match digits.and_then(|digits| u64::from_str_radix(digits, 16).ok()) {
        Some(number) => number.to_string(),
        None => operand.to_string(),
    }
}

impl Shown {
    /// A target's address becomes an offset.
    pub fn with_offset_from(mut self, address: u32) -> Shown {
        if WITH_TARGETS.contains(&self.mnemonic.as_str()) {
            if let Some(last) = self.operands.last_mut() {
                let target: u64 = last.parse().expect("a target is a number");
                *last = ((target as u32).wrapping_sub(address) as i32).to_string();
            }
        }
        self
    }

    /// In our words, if it is one of the 48 operations.
    pub fn in_our_words(&self) -> Option<String> {
        let name = self.mnemonic.as_str();
        if let Some((_, form)) = SHORT_FORMS.iter().find(|(short, _)| *short == name) {
            return Some(self.filled(form));
        }
        let ours = OPERATIONS
            .iter()
            .any(|(operation, _, _)| *operation == name);
        ours.then(|| format!("{name} {}", self.operands.join(",")))
    }

    fn filled(&self, form: &str) -> String {
        let mut operands = self.operands.clone();
        if self.mnemonic == "c.nop" && operands.is_empty() {
            operands.push("0".to_string());
        }
        if let ("c.lui", Some(field)) = (self.mnemonic.as_str(), operands.last_mut()) {
            let signed: i32 = field.parse().expect("a field is a number");
            *field = (signed & 0xF_FFFF).to_string();
        }
        if self.mnemonic == "fence" {
            operands = vec![field_of_fence(&operands).to_string()];
        }
        let mut text = form.to_string();
        for (at, operand) in operands.iter().enumerate() {
            text = text.replace(&format!("{{{at}}}"), operand);
        }
        text
    }
}

fn field_of_fence(sets: &[String]) -> u32 {
    let number = |set: &String| match set.as_str() {
        "unknown" => 0,
        letters => letters.chars().map(weight).sum(),
    };
    sets.iter().fold(0, |field, set| field << 4 | number(set))
}

fn weight(letter: char) -> u32 {
    match letter {
        'i' => 8,
        'o' => 4,
        'r' => 2,
        'w' => 1,
        other => panic!("a fence's set has no letter {other}"),
    }
}
