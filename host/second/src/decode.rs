//! 32 bits to an instruction, and the panel's chart.

use crate::{op, refusal, Inst};

/// The format class at (bits 6 to 2) x 8 + funct3: 0 none, 1 R, 2 I, 3 S, 4 B, 5 U, 6 J.
pub fn chart(bits: u32) -> u8 {
    const NONE: u8 = 0;
    const R: u8 = 1;
    const I: u8 = 2;
    const S: u8 = 3;
    const B: u8 = 4;
    const U: u8 = 5;
    const J: u8 = 6;
    match (bits >> 2 & 31, funct3(bits)) {
        (0b00000, 0 | 1 | 2 | 4 | 5) => I,
        (0b00011, 0) => I,
        (0b00100, _) => I,
        (0b00101 | 0b01101, _) => U,
        (0b01000, 0..=2) => S,
        (0b01100, _) => R,
        (0b11000, 0 | 1 | 4..=7) => B,
        (0b11001, 0) => I,
        (0b11011, _) => J,
        (0b11100, 0) => I,
        _ => NONE,
    }
}

/// The instruction that 32 bits stand for; refusal 7 if there is none.
pub fn decode(bits: u32) -> Result<Inst, u32> {
    word(bits).ok_or(refusal::NO_INSTRUCTION)
}

/// As `decode`, for the machine and the listing, which have their own answer to illegal bits.
#[inline(always)]
pub(crate) fn word(w: u32) -> Option<Inst> {
    match w & 0x7f {
        0x37 => Some(upper(op::LUI, w)),
        0x17 => Some(upper(op::AUIPC, w)),
        0x6f => Some(Inst {
            operation: op::JAL,
            rd: rd(w),
            imm: jump_offset(w),
            ..Inst::default()
        }),
        0x67 if funct3(w) == 0 => Some(immediate(op::JALR, w)),
        0x63 => branch(w),
        0x03 => load(w),
        0x23 => store(w),
        0x13 => immediate_arithmetic(w),
        0x33 => register_arithmetic(w),
        // pred, succ, fm, rd and rs1 may be anything: the manual reserves them as plain fences
        0x0f if funct3(w) == 0 => Some(Inst {
            imm: w >> 20,
            ..immediate(op::FENCE, w)
        }),
        0x73 => system(w),
        _ => None,
    }
}

#[inline(always)]
fn upper(operation: u32, w: u32) -> Inst {
    Inst {
        operation,
        rd: rd(w),
        imm: w >> 12,
        ..Inst::default()
    }
}

#[inline(always)]
fn immediate(operation: u32, w: u32) -> Inst {
    Inst {
        operation,
        rd: rd(w),
        rs1: rs1(w),
        rs2: 0,
        imm: (w as i32 >> 20) as u32,
    }
}

#[inline(always)]
fn branch(w: u32) -> Option<Inst> {
    let operation = match funct3(w) {
        0 => op::BEQ,
        1 => op::BNE,
        4 => op::BLT,
        5 => op::BGE,
        6 => op::BLTU,
        7 => op::BGEU,
        _ => return None,
    };
    Some(Inst {
        operation,
        rd: 0,
        rs1: rs1(w),
        rs2: rs2(w),
        imm: branch_offset(w),
    })
}

#[inline(always)]
fn load(w: u32) -> Option<Inst> {
    let operation = match funct3(w) {
        0 => op::LB,
        1 => op::LH,
        2 => op::LW,
        4 => op::LBU,
        5 => op::LHU,
        _ => return None,
    };
    Some(immediate(operation, w))
}

#[inline(always)]
fn store(w: u32) -> Option<Inst> {
    let operation = match funct3(w) {
        0 => op::SB,
        1 => op::SH,
        2 => op::SW,
        _ => return None,
    };
    Some(Inst {
        operation,
        rd: 0,
        rs1: rs1(w),
        rs2: rs2(w),
        imm: (w as i32 >> 25 << 5) as u32 | rd(w),
    })
}

#[inline(always)]
fn immediate_arithmetic(w: u32) -> Option<Inst> {
    let operation = match funct3(w) {
        0 => op::ADDI,
        2 => op::SLTI,
        3 => op::SLTIU,
        4 => op::XORI,
        6 => op::ORI,
        7 => op::ANDI,
        _ => return shift(w),
    };
    Some(immediate(operation, w))
}

/// Shifts by a fixed amount; bit 25 is bit 5 of the amount, so it must be 0 for 32-bit registers.
#[inline(always)]
fn shift(w: u32) -> Option<Inst> {
    let operation = match (funct3(w), w >> 25) {
        (1, 0) => op::SLLI,
        (5, 0) => op::SRLI,
        (5, 0x20) => op::SRAI,
        _ => return None,
    };
    Some(Inst {
        imm: rs2(w),
        ..immediate(operation, w)
    })
}

#[inline(always)]
fn register_arithmetic(w: u32) -> Option<Inst> {
    const BASE: [u32; 8] = [
        op::ADD,
        op::SLL,
        op::SLT,
        op::SLTU,
        op::XOR,
        op::SRL,
        op::OR,
        op::AND,
    ];
    let operation = match (w >> 25, funct3(w)) {
        (0, funct3) => BASE[funct3 as usize],
        (1, funct3) => op::MUL + funct3,
        (0x20, 0) => op::SUB,
        (0x20, 5) => op::SRA,
        _ => return None,
    };
    Some(Inst {
        operation,
        rd: rd(w),
        rs1: rs1(w),
        rs2: rs2(w),
        imm: 0,
    })
}

#[inline(always)]
fn system(w: u32) -> Option<Inst> {
    let operation = match w {
        0x0000_0073 => op::ECALL,
        0x0010_0073 => op::EBREAK,
        _ => return None,
    };
    Some(Inst {
        operation,
        ..Inst::default()
    })
}

#[inline(always)]
fn rd(w: u32) -> u32 {
    w >> 7 & 31
}

#[inline(always)]
fn rs1(w: u32) -> u32 {
    w >> 15 & 31
}

#[inline(always)]
fn rs2(w: u32) -> u32 {
    w >> 20 & 31
}

#[inline(always)]
fn funct3(w: u32) -> u32 {
    w >> 12 & 7
}

/// imm[12|10:5] in bits 31 to 25, imm[4:1|11] in bits 11 to 7.
#[inline(always)]
fn branch_offset(w: u32) -> u32 {
    let sign = (w as i32 >> 31 << 12) as u32;
    sign | (w << 4 & 0x800) | (w >> 20 & 0x7e0) | (w >> 7 & 0x1e)
}

/// imm[20|10:1|11|19:12] in bits 31 to 12.
#[inline(always)]
fn jump_offset(w: u32) -> u32 {
    let sign = (w as i32 >> 31 << 20) as u32;
    sign | (w & 0xff000) | (w >> 9 & 0x800) | (w >> 20 & 0x7fe)
}
