//! What a peer shows and we call illegal, or the other way round: the one list, with its grounds.
//! Whatever is on neither list is a difference, and the comparison fails.
use crate::words::Bits;

/// A ground on which the peer's answer and ours may differ.
pub struct Ground {
    pub name: &'static str,
    pub holds: fn(Bits, Option<&str>, Option<&str>) -> bool,
}

pub const GROUNDS: [Ground; 3] = [
    // Paper: "shift amounts with bit 5 set" are illegal; manual 2.4: a shift of RV32 has five bits
    // of amount; 16.5: short shifts with bit 5 set are for custom extensions. The peers show them.
    Ground {
        name: "shift by 32 or more",
        holds: |_, ours, theirs| ours.is_none() && theirs.is_some_and(is_long_shift),
    },
    // Paper: C.ADDI16SP or C.LUI with zero immediate is illegal; manual 16.5: reserved.
    Ground {
        name: "c.addi16sp or c.lui of 0",
        holds: |bits, ours, theirs| {
            let zero = matches!(bits, Bits::Half(half) if half & 0xF07F == 0x6001);
            zero && ours.is_none() && theirs.is_some()
        },
    },
    // Paper: `fence` with any fields is legal; manual 2.7: rd, rs1 and further modes are reserved,
    // and a base implementation ignores them. The peers show only what has a meaning today.
    Ground {
        name: "fence with rd, rs1 or mode",
        holds: |bits, ours, theirs| {
            let further = matches!(bits, Bits::Word(word) if word & 0x707F == 0x0F
                && word & 0xF00F_8F80 != 0);
            further && ours.is_some_and(|text| text.starts_with("fence ")) && theirs.is_none()
        },
    },
];

const SHIFTS: [&str; 3] = ["slli ", "srli ", "srai "];

fn is_long_shift(text: &str) -> bool {
    let amount = text.rsplit(',').next().and_then(|last| last.parse().ok());
    let is_shift = SHIFTS.iter().any(|name| text.starts_with(name));
    is_shift && amount.is_some_and(|amount: u32| amount > 31)
}

/// Names that mean no instruction at all. objdump shows `.byte` or `.8byte` for one that is longer
/// than 32 bits, and `unimp` for two that are illegal by intent.
const NO_INSTRUCTION: [&str; 6] = [".byte", ".2byte", ".4byte", ".8byte", "c.unimp", "unimp"];

/// Instructions that the paper excludes, and beginnings of their names: "no floating-point, atomic
/// or CSR instructions, no interrupts, no privilege levels"; "`fence.i` is illegal".
const EXCLUDED: [&str; 7] = [
    "fence.i",
    "uret",
    "sret",
    "mret",
    "dret",
    "wfi",
    "sfence.vma",
];
const EXCLUDED_BEGINNINGS: [&str; 6] = ["csr", "amo", "lr.w", "sc.w", "f", "c.f"];

pub fn is_no_instruction(name: &str) -> bool {
    NO_INSTRUCTION.contains(&name)
}

/// Whether a name that is none of the 48 is known to be outside RV32IMC.
pub fn is_excluded(name: &str) -> bool {
    let floating_or_such = EXCLUDED_BEGINNINGS.iter().any(|b| name.starts_with(b));
    EXCLUDED.contains(&name) || floating_or_such && !name.starts_with("fence")
}

/// A ground on which a peer may shorten otherwise than we do. Asked with our text, whether we have
/// a halfword, the text of what the peer made, and whether that is a halfword.
pub struct ShortGround {
    pub name: &'static str,
    pub holds: fn(&str, bool, &str, bool) -> bool,
}

pub const SHORT_GROUNDS: [ShortGround; 3] = [
    // Paper: "HINT points are legal and act as what they expand to", so a HINT is a short form; the
    // assemblers make none of their own accord (the HINT points stand in the manual's 16.7).
    ShortGround {
        name: "HINT that the peer leaves long",
        holds: |ours, short, theirs, their_short| {
            short && !their_short && ours == theirs && is_hint(ours)
        },
    },
    // Paper: an instruction is its operation and the operands that its text shows. The peers also
    // take a halfword that stands for another instruction of the same effect; we do not.
    ShortGround {
        name: "other instruction of the same effect",
        holds: |ours, _, theirs, their_short| their_short && is_same_effect(ours, theirs),
    },
    // GNU as makes no C.JAL of its own accord. LLVM does, and agrees with us on all 2,048.
    ShortGround {
        name: "jal x1 that GNU as leaves long",
        holds: |ours, short, theirs, their_short| {
            short && !their_short && ours == theirs && ours.starts_with("jal x1,")
        },
    },
];

/// Writes x0, or shifts by 0.
fn is_hint(text: &str) -> bool {
    let begins = |names: &[&str]| names.iter().any(|name| text.starts_with(name));
    begins(&["addi x0,", "lui x0,", "slli x0,", "add x0,"])
        || begins(&SHIFTS) && text.ends_with(",0")
}

/// Two sources changed over, or `addi rd,rs,0` as `add rd,x0,rs`.
fn is_same_effect(ours: &str, theirs: &str) -> bool {
    let pieces: Vec<&str> = ours.split([' ', ',']).collect();
    match pieces.as_slice() {
        [name @ ("add" | "xor" | "or" | "and"), rd, rs1, rs2] => {
            theirs == format!("{name} {rd},{rs2},{rs1}")
        }
        ["addi", rd, rs1, "0"] => theirs == format!("add {rd},x0,{rs1}"),
        _ => false,
    }
}
