//! Short instructions: 16 bits to an instruction, and back to the smallest halfword.

use crate::{encode::encode, op, refusal, Inst};
use std::collections::HashMap;
use std::sync::OnceLock;

const ZERO: u32 = 0;
const LINK: u32 = 1;
const STACK: u32 = 2;

/// The instruction that 16 bits stand for; refusal 7 if there is none.
pub fn expand(bits: u16) -> Result<Inst, u32> {
    half(bits.into()).ok_or(refusal::NO_INSTRUCTION)
}

/// The smallest halfword whose expansion is this instruction; refusals 8 and 9.
pub fn shorten(i: Inst) -> Result<u16, u32> {
    static SMALLEST: OnceLock<HashMap<u32, u16>> = OnceLock::new();
    let word = encode(i)?;
    let table = SMALLEST.get_or_init(smallest_halfwords);
    table.get(&word).copied().ok_or(refusal::NO_SHORT_FORM)
}

/// For each 32-bit form of an expansion, the first halfword of all 65,536 that expands to it.
fn smallest_halfwords() -> HashMap<u32, u16> {
    let mut table = HashMap::new();
    for bits in 0..=u16::MAX {
        if let Some(word) = expand(bits).ok().and_then(|i| encode(i).ok()) {
            table.entry(word).or_insert(bits);
        }
    }
    table
}

/// As `expand`, for the machine and the listing; only the low 16 bits of `h` are looked at.
#[inline(always)]
pub(crate) fn half(h: u32) -> Option<Inst> {
    match (h & 3, h >> 13 & 7) {
        (0, 0) => add_to_stack_pointer(h),
        (0, 2) => Some(indexed(
            op::LW,
            low_register(h, 2),
            low_register(h, 7),
            word_offset(h),
        )),
        (0, 6) => Some(store_word(
            low_register(h, 2),
            low_register(h, 7),
            word_offset(h),
        )),
        (1, 0) => Some(immediate(op::ADDI, full_rd(h), full_rd(h), signed_6(h))),
        (1, 1) => Some(jump(LINK, jump_offset(h))),
        (1, 2) => Some(immediate(op::ADDI, full_rd(h), ZERO, signed_6(h))),
        (1, 3) if full_rd(h) == STACK => move_stack_pointer(h),
        (1, 3) => load_upper(h),
        (1, 4) => arithmetic(h),
        (1, 5) => Some(jump(ZERO, jump_offset(h))),
        (1, 6) => Some(branch(op::BEQ, h)),
        (1, 7) => Some(branch(op::BNE, h)),
        (2, 0) if bit(h, 12) == 0 => Some(immediate(op::SLLI, full_rd(h), full_rd(h), rs2(h))),
        (2, 2) if full_rd(h) != ZERO => Some(indexed(op::LW, full_rd(h), STACK, load_offset(h))),
        (2, 4) => jump_move_or_add(h),
        (2, 6) => Some(store_word(rs2(h), STACK, store_offset(h))),
        // the floating forms, the reserved points, and low bits 11
        _ => None,
    }
}

/// C.ADDI4SPN: nzuimm[5:4|9:6|2|3] in bits 12 to 5; with 0 it is reserved, 0x0000 among them.
#[inline(always)]
fn add_to_stack_pointer(h: u32) -> Option<Inst> {
    let imm = field(h, 11, 2, 4) | field(h, 7, 4, 6) | field(h, 6, 1, 2) | field(h, 5, 1, 3);
    (imm != 0).then(|| immediate(op::ADDI, low_register(h, 2), STACK, imm))
}

/// C.ADDI16SP: `nzimm[9]` in bit 12, `nzimm[4|6|8:7|5]` in bits 6 to 2.
#[inline(always)]
fn move_stack_pointer(h: u32) -> Option<Inst> {
    let low = field(h, 6, 1, 4) | field(h, 5, 1, 6) | field(h, 3, 2, 7) | field(h, 2, 1, 5);
    let imm = sign(h, 9) | low;
    (imm != 0).then(|| immediate(op::ADDI, STACK, STACK, imm))
}

/// C.LUI: nzimm[17] in bit 12, nzimm[16:12] in bits 6 to 2: six bits of the 20-bit field.
#[inline(always)]
fn load_upper(h: u32) -> Option<Inst> {
    let imm = signed_6(h) & 0xfffff;
    (imm != 0).then(|| Inst {
        operation: op::LUI,
        rd: full_rd(h),
        imm,
        ..Inst::default()
    })
}

/// C.SRLI, C.SRAI, C.ANDI and the CA forms; of these only C.ANDI may have bit 12 set.
#[inline(always)]
fn arithmetic(h: u32) -> Option<Inst> {
    let rd = low_register(h, 7);
    let operation = match (bit(h, 12), h >> 10 & 3, h >> 5 & 3) {
        (0, 0, _) => return Some(immediate(op::SRLI, rd, rd, rs2(h))),
        (0, 1, _) => return Some(immediate(op::SRAI, rd, rd, rs2(h))),
        (_, 2, _) => return Some(immediate(op::ANDI, rd, rd, signed_6(h))),
        (0, 3, 0) => op::SUB,
        (0, 3, 1) => op::XOR,
        (0, 3, 2) => op::OR,
        (0, 3, 3) => op::AND,
        _ => return None,
    };
    Some(register(operation, rd, rd, low_register(h, 2)))
}

/// C.JR, C.MV, C.EBREAK, C.JALR and C.ADD.
#[inline(always)]
fn jump_move_or_add(h: u32) -> Option<Inst> {
    let (rd, rs2) = (full_rd(h), rs2(h));
    match (bit(h, 12), rd, rs2) {
        (0, ZERO, 0) => None,
        (0, _, 0) => Some(indexed(op::JALR, ZERO, rd, 0)),
        (0, _, _) => Some(register(op::ADD, rd, ZERO, rs2)),
        (_, ZERO, 0) => Some(Inst {
            operation: op::EBREAK,
            ..Inst::default()
        }),
        (_, _, 0) => Some(indexed(op::JALR, LINK, rd, 0)),
        (_, _, _) => Some(register(op::ADD, rd, rd, rs2)),
    }
}

/// C.BEQZ, C.BNEZ: imm[8|4:3] in bits 12 to 10, imm[7:6|2:1|5] in bits 6 to 2.
#[inline(always)]
fn branch(operation: u32, h: u32) -> Inst {
    let low = field(h, 10, 2, 3) | field(h, 5, 2, 6) | field(h, 3, 2, 1) | field(h, 2, 1, 5);
    Inst {
        operation,
        rd: 0,
        rs1: low_register(h, 7),
        rs2: ZERO,
        imm: sign(h, 8) | low,
    }
}

/// C.J, C.JAL: imm[11|4|9:8|10|6|7|3:1|5] in bits 12 to 2.
#[inline(always)]
fn jump_offset(h: u32) -> u32 {
    let middle = field(h, 11, 1, 4) | field(h, 9, 2, 8) | field(h, 8, 1, 10) | field(h, 7, 1, 6);
    let low = field(h, 6, 1, 7) | field(h, 3, 3, 1) | field(h, 2, 1, 5);
    sign(h, 11) | middle | low
}

/// C.LW, C.SW: uimm[5:3] in bits 12 to 10, uimm[2|6] in bits 6 and 5.
#[inline(always)]
fn word_offset(h: u32) -> u32 {
    field(h, 10, 3, 3) | field(h, 6, 1, 2) | field(h, 5, 1, 6)
}

/// C.LWSP: `uimm[5]` in bit 12, `uimm[4:2|7:6]` in bits 6 to 2.
#[inline(always)]
fn load_offset(h: u32) -> u32 {
    field(h, 12, 1, 5) | field(h, 4, 3, 2) | field(h, 2, 2, 6)
}

/// C.SWSP: uimm[5:2|7:6] in bits 12 to 7.
#[inline(always)]
fn store_offset(h: u32) -> u32 {
    field(h, 9, 4, 2) | field(h, 7, 2, 6)
}

/// `imm[5]` in bit 12, `imm[4:0]` in bits 6 to 2, sign-extended.
#[inline(always)]
fn signed_6(h: u32) -> u32 {
    sign(h, 5) | rs2(h)
}

/// `count` bits from place `from` of the halfword, moved to place `to`.
#[inline(always)]
fn field(h: u32, from: u32, count: u32, to: u32) -> u32 {
    (h >> from & ((1 << count) - 1)) << to
}

/// Bit 12 of the halfword, at place `to` and all places above it.
#[inline(always)]
fn sign(h: u32, to: u32) -> u32 {
    bit(h, 12).wrapping_neg() << to
}

#[inline(always)]
fn bit(h: u32, place: u32) -> u32 {
    h >> place & 1
}

#[inline(always)]
fn full_rd(h: u32) -> u32 {
    h >> 7 & 31
}

#[inline(always)]
fn rs2(h: u32) -> u32 {
    h >> 2 & 31
}

/// The registers of three bits are x8 to x15.
#[inline(always)]
fn low_register(h: u32, place: u32) -> u32 {
    8 + (h >> place & 7)
}

#[inline(always)]
fn immediate(operation: u32, rd: u32, rs1: u32, imm: u32) -> Inst {
    Inst {
        operation,
        rd,
        rs1,
        rs2: 0,
        imm,
    }
}

/// Loads and `jalr`: rd and an offset to a base register.
#[inline(always)]
fn indexed(operation: u32, rd: u32, base: u32, offset: u32) -> Inst {
    immediate(operation, rd, base, offset)
}

#[inline(always)]
fn store_word(data: u32, base: u32, offset: u32) -> Inst {
    Inst {
        operation: op::SW,
        rd: 0,
        rs1: base,
        rs2: data,
        imm: offset,
    }
}

#[inline(always)]
fn register(operation: u32, rd: u32, rs1: u32, rs2: u32) -> Inst {
    Inst {
        operation,
        rd,
        rs1,
        rs2,
        imm: 0,
    }
}

#[inline(always)]
fn jump(rd: u32, offset: u32) -> Inst {
    Inst {
        operation: op::JAL,
        rd,
        imm: offset,
        ..Inst::default()
    }
}
