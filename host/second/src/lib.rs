//! A second emulator of the same machine, for comparison only.
//!
//! It is written from the paper and the RISC-V unprivileged manual 20191213, and not from the
//! proved code, so that a slip in one of the two shows as a difference. Refusals are plain
//! numbers, as the paper's table gives them, beside what some of them tell.
#![forbid(unsafe_code)]

mod assemble;
mod decode;
mod encode;
mod machine;
mod short;
mod slots;
mod text;

pub use assemble::{assemble, Fault};
pub use decode::{chart, decode};
pub use encode::encode;
pub use machine::{run, run_masked, step, step_masked, Masks, Refused, State};
pub use short::{expand, shorten};
pub use slots::{read_slot, run_slot, run_slot_masked, write_slot};
pub use text::{list, listing, text_of, text_of_half, text_of_word};

/// An instruction as numbers: its operation (a place in the paper's order) and its operands.
/// Operands that the operation does not have are 0. Immediates are sign-extended to 32 bits;
/// `lui` and `auipc` hold the 20-bit field, `fence` the 12-bit field unsigned.
#[derive(Clone, Copy, Debug, Default, PartialEq, Eq)]
pub struct Inst {
    pub operation: u32,
    pub rd: u32,
    pub rs1: u32,
    pub rs2: u32,
    pub imm: u32,
}

/// The refusals' numbers.
pub mod refusal {
    pub const MEMORY_TOO_LONG: u32 = 1;
    pub const ROW_LENGTH: u32 = 2;
    pub const ROW_RECORD: u32 = 3;
    pub const SLOT: u32 = 4;
    pub const ODD_PC: u32 = 5;
    pub const ROOM: u32 = 6;
    pub const NO_INSTRUCTION: u32 = 7;
    pub const FIELD: u32 = 8;
    pub const NO_SHORT_FORM: u32 = 9;
    pub const UNREADABLE: u32 = 10;
    pub const NUMBER: u32 = 11;
    pub const NO_SHORT_LINE: u32 = 12;
    pub const OUTPUT_ROOM: u32 = 13;
    pub const STOP_NUMBER: u32 = 14;
    pub const RECORD_END: u32 = 15;
    pub const MASKS_SHARE: u32 = 16;
}

/// The stops' numbers.
pub mod stop {
    pub const PAUSED: u8 = 0;
    pub const ECALL: u8 = 1;
    pub const EBREAK: u8 = 2;
    pub const ILLEGAL: u8 = 3;
    pub const FETCH_OUTSIDE: u8 = 4;
    pub const LOAD_MISALIGNED: u8 = 5;
    pub const LOAD_OUTSIDE: u8 = 6;
    pub const STORE_MISALIGNED: u8 = 7;
    pub const STORE_OUTSIDE: u8 = 8;
    pub const ALREADY_BURNT: u8 = 9;
    pub const COUNT_FULL: u8 = 10;
    pub const NOT_OWNED: u8 = 11;
    /// The last number that a state may have.
    pub const LAST: u8 = NOT_OWNED;
}

/// The operations, numbered in the paper's order.
pub mod op {
    pub const LUI: u32 = 0;
    pub const AUIPC: u32 = 1;
    pub const JAL: u32 = 2;
    pub const JALR: u32 = 3;
    pub const BEQ: u32 = 4;
    pub const BNE: u32 = 5;
    pub const BLT: u32 = 6;
    pub const BGE: u32 = 7;
    pub const BLTU: u32 = 8;
    pub const BGEU: u32 = 9;
    pub const LB: u32 = 10;
    pub const LH: u32 = 11;
    pub const LW: u32 = 12;
    pub const LBU: u32 = 13;
    pub const LHU: u32 = 14;
    pub const SB: u32 = 15;
    pub const SH: u32 = 16;
    pub const SW: u32 = 17;
    pub const ADDI: u32 = 18;
    pub const SLTI: u32 = 19;
    pub const SLTIU: u32 = 20;
    pub const XORI: u32 = 21;
    pub const ORI: u32 = 22;
    pub const ANDI: u32 = 23;
    pub const SLLI: u32 = 24;
    pub const SRLI: u32 = 25;
    pub const SRAI: u32 = 26;
    pub const ADD: u32 = 27;
    pub const SUB: u32 = 28;
    pub const SLL: u32 = 29;
    pub const SLT: u32 = 30;
    pub const SLTU: u32 = 31;
    pub const XOR: u32 = 32;
    pub const SRL: u32 = 33;
    pub const SRA: u32 = 34;
    pub const OR: u32 = 35;
    pub const AND: u32 = 36;
    pub const FENCE: u32 = 37;
    pub const ECALL: u32 = 38;
    pub const EBREAK: u32 = 39;
    pub const MUL: u32 = 40;
    pub const MULH: u32 = 41;
    pub const MULHSU: u32 = 42;
    pub const MULHU: u32 = 43;
    pub const DIV: u32 = 44;
    pub const DIVU: u32 = 45;
    pub const REM: u32 = 46;
    pub const REMU: u32 = 47;
}
