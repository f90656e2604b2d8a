//! An instruction to 32 bits, and which instructions there are.

use crate::{op, refusal, Inst};

/// Which operands an operation has, and of what kind its immediate is.
#[derive(Clone, Copy, PartialEq, Eq)]
pub(crate) enum Shape {
    /// `lui`, `auipc`: rd and a 20-bit field.
    Upper,
    /// `jal`: rd and an even offset of 21 bits.
    Jump,
    /// Loads and `jalr`: rd and an offset of 12 bits to rs1.
    Indexed,
    /// Branches: rs1, rs2 and an even offset of 13 bits.
    Branch,
    /// Stores: rs2 and an offset of 12 bits to rs1.
    Store,
    /// rd, rs1 and a number of 12 bits.
    Immediate,
    /// rd, rs1 and an amount of 5 bits.
    Shift,
    /// rd, rs1 and rs2.
    Register,
    /// rd, rs1 and an unsigned field of 12 bits.
    Fence,
    /// `ecall`, `ebreak`: nothing.
    Alone,
}

/// The shape of an operation; none for a number that is no operation.
pub(crate) fn shape(operation: u32) -> Option<Shape> {
    Some(match operation {
        op::LUI | op::AUIPC => Shape::Upper,
        op::JAL => Shape::Jump,
        op::JALR | op::LB..=op::LHU => Shape::Indexed,
        op::BEQ..=op::BGEU => Shape::Branch,
        op::SB..=op::SW => Shape::Store,
        op::ADDI..=op::ANDI => Shape::Immediate,
        op::SLLI..=op::SRAI => Shape::Shift,
        op::ADD..=op::AND | op::MUL..=op::REMU => Shape::Register,
        op::FENCE => Shape::Fence,
        op::ECALL | op::EBREAK => Shape::Alone,
        _ => return None,
    })
}

/// The shape of an instruction whose operands are all in range, and 0 where it has none.
pub(crate) fn checked_shape(i: Inst) -> Result<Shape, u32> {
    match shape(i.operation) {
        Some(shape) if registers_fit(shape, i) && immediate_fits(shape, i.imm) => Ok(shape),
        _ => Err(refusal::FIELD),
    }
}

fn registers_fit(shape: Shape, i: Inst) -> bool {
    let (has_rd, has_rs1, has_rs2) = match shape {
        Shape::Upper | Shape::Jump => (true, false, false),
        Shape::Indexed | Shape::Immediate | Shape::Shift | Shape::Fence => (true, true, false),
        Shape::Branch | Shape::Store => (false, true, true),
        Shape::Register => (true, true, true),
        Shape::Alone => (false, false, false),
    };
    let fits = |register: u32, has: bool| register <= if has { 31 } else { 0 };
    fits(i.rd, has_rd) && fits(i.rs1, has_rs1) && fits(i.rs2, has_rs2)
}

pub(crate) fn immediate_fits(shape: Shape, imm: u32) -> bool {
    let signed = imm as i32;
    match shape {
        Shape::Upper => imm < 1 << 20,
        Shape::Jump => (-(1 << 20)..1 << 20).contains(&signed) && imm.is_multiple_of(2),
        Shape::Branch => (-4096..4096).contains(&signed) && imm.is_multiple_of(2),
        Shape::Indexed | Shape::Store | Shape::Immediate => (-2048..2048).contains(&signed),
        Shape::Shift => imm < 32,
        Shape::Fence => imm < 1 << 12,
        Shape::Register | Shape::Alone => imm == 0,
    }
}

/// The 32 bits of an instruction; refusal 8 if a field is out of range or an offset odd.
pub fn encode(i: Inst) -> Result<u32, u32> {
    let shape = checked_shape(i)?;
    let registers = i.rd << 7 | i.rs1 << 15 | i.rs2 << 20;
    Ok(fixed_bits(i.operation) | registers | immediate_bits(shape, i.imm))
}

fn immediate_bits(shape: Shape, imm: u32) -> u32 {
    // bits `from` and up of the immediate, `count` of them, to place `to` of the word
    let put = |from: u32, count: u32, to: u32| (imm >> from & ((1 << count) - 1)) << to;
    match shape {
        Shape::Upper => put(0, 20, 12),
        Shape::Jump => put(20, 1, 31) | put(1, 10, 21) | put(11, 1, 20) | put(12, 8, 12),
        Shape::Branch => put(12, 1, 31) | put(5, 6, 25) | put(1, 4, 8) | put(11, 1, 7),
        Shape::Store => put(5, 7, 25) | put(0, 5, 7),
        Shape::Indexed | Shape::Immediate | Shape::Fence => put(0, 12, 20),
        Shape::Shift => put(0, 5, 20),
        Shape::Register | Shape::Alone => 0,
    }
}

/// The bits that are the same in all instructions of an operation: opcode, funct3, funct7.
fn fixed_bits(operation: u32) -> u32 {
    const BRANCH: [u32; 6] = [0, 1, 4, 5, 6, 7];
    const LOAD: [u32; 5] = [0, 1, 2, 4, 5];
    const IMMEDIATE: [u32; 9] = [0, 2, 3, 4, 6, 7, 1, 5, 5];
    const REGISTER: [u32; 10] = [0, 0, 1, 2, 3, 4, 5, 5, 6, 7];
    const ALTERNATE: u32 = 0x20 << 25;
    let nth = |table: &[u32], first: u32| table[(operation - first) as usize] << 12;
    let opcode_and_funct3 = match operation {
        op::LUI => 0x37,
        op::AUIPC => 0x17,
        op::JAL => 0x6f,
        op::JALR => 0x67,
        op::BEQ..=op::BGEU => 0x63 | nth(&BRANCH, op::BEQ),
        op::LB..=op::LHU => 0x03 | nth(&LOAD, op::LB),
        op::SB..=op::SW => 0x23 | (operation - op::SB) << 12,
        op::ADDI..=op::SRAI => 0x13 | nth(&IMMEDIATE, op::ADDI),
        op::ADD..=op::AND => 0x33 | nth(&REGISTER, op::ADD),
        op::FENCE => 0x0f,
        op::ECALL => 0x73,
        op::EBREAK => 0x73 | 1 << 20,
        _ => 0x33 | 1 << 25 | (operation - op::MUL) << 12,
    };
    match operation {
        op::SRAI | op::SUB | op::SRA => opcode_and_funct3 | ALTERNATE,
        _ => opcode_and_funct3,
    }
}
