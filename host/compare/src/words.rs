//! Bits and instructions: chart, decode, expand, encode, shorten.

use crate::program;
use crate::tally::{Check, Tally};
use phuyurik::Instruction;
use second::Inst;
use testing::Random;

pub fn to_proved(i: Inst) -> Instruction {
    Instruction {
        operation: i.operation,
        rd: i.rd,
        rs1: i.rs1,
        rs2: i.rs2,
        imm: i.imm,
    }
}

pub fn to_second(i: Instruction) -> Inst {
    Inst {
        operation: i.operation,
        rd: i.rd,
        rs1: i.rs1,
        rs2: i.rs2,
        imm: i.imm,
    }
}

/// Every halfword once.
pub fn all_halfwords(tally: &mut Tally) -> Check {
    for bits in 0..=u16::MAX {
        halfword(tally, bits)?;
    }
    Ok(())
}

/// Every entry of the chart once; the other bits are in the words of the rounds.
pub fn whole_chart(tally: &mut Tally) -> Check {
    for index in 0..256 {
        chart(tally, (index >> 3) << 2 | (index & 7) << 12)?;
    }
    Ok(())
}

pub fn round(tally: &mut Tally, random: &mut Random) -> Check {
    for _ in 0..2000 {
        let bits = any_word(random);
        chart(tally, bits)?;
        word(tally, bits)?;
        instruction(tally, any_instruction(random))?;
    }
    Ok(())
}

fn chart(tally: &mut Tally, bits: u32) -> Check {
    let call = || format!("chart({bits:#010x})");
    tally.same(call, phuyurik::chart(bits), Ok(second::chart(bits)))
}

fn halfword(tally: &mut Tally, bits: u16) -> Check {
    let (proved, second) = (phuyurik::expand(bits), second::expand(bits));
    let call = || format!("expand({bits:#06x})");
    tally.same_answer(call, proved.map(to_second), second)?;
    second.map_or(Ok(()), |inst| instruction(tally, inst))
}

fn word(tally: &mut Tally, bits: u32) -> Check {
    let (proved, second) = (phuyurik::decode(bits), second::decode(bits));
    let call = || format!("decode({bits:#010x})");
    tally.same_answer(call, proved.map(to_second), second)?;
    second.map_or(Ok(()), |inst| instruction(tally, inst))
}

fn instruction(tally: &mut Tally, inst: Inst) -> Check {
    let proved = to_proved(inst);
    let call = || format!("encode({inst:x?})");
    tally.same_answer(call, phuyurik::encode(proved), second::encode(inst))?;
    let call = || format!("shorten({inst:x?})");
    tally.same_answer(call, phuyurik::shorten(proved), second::shorten(inst))
}

/// Any bits, legal bits, or legal bits with a few of them turned over.
pub fn any_word(random: &mut Random) -> u32 {
    match random.below(4) {
        0 => random.word(),
        1 => random.word() | 3,
        2 => program::legal_word(random),
        _ => {
            let flips = 1 << random.below(32) | 1 << random.below(32);
            program::legal_word(random) ^ flips
        }
    }
}

/// Mostly a legal instruction with one or more of its numbers made strange.
pub fn any_instruction(random: &mut Random) -> Inst {
    let mut inst = program::instruction(random);
    for _ in 0..random.below(3) {
        match random.below(5) {
            0 => inst.operation = strange_operation(random),
            1 => inst.rd = strange_register(random),
            2 => inst.rs1 = strange_register(random),
            3 => inst.rs2 = strange_register(random),
            _ => inst.imm = strange_immediate(random, inst.imm),
        }
    }
    inst
}

fn strange_operation(random: &mut Random) -> u32 {
    match random.below(4) {
        0 => random.word(),
        1 => random.pick(&[48, 49, 63, 64, 127, 255, 256, 0x8000_0000, u32::MAX]),
        _ => random.below(48) as u32,
    }
}

fn strange_register(random: &mut Random) -> u32 {
    match random.below(4) {
        0 => random.word(),
        1 => random.pick(&[32, 33, 63, 64, 256, 0x8000_0000, u32::MAX]),
        _ => random.below(34) as u32,
    }
}

/// Close to the limits of each kind of immediate, on both sides, or anything.
fn strange_immediate(random: &mut Random, old: u32) -> u32 {
    const LIMITS: [u32; 13] = [
        0,
        32,
        64,
        256,
        512,
        1 << 11,
        1 << 12,
        1 << 17,
        1 << 19,
        1 << 20,
        1 << 21,
        1 << 31,
        0xfffe0,
    ];
    let near = random
        .pick(&LIMITS)
        .wrapping_add(random.within(-3, 3) as u32);
    match random.below(4) {
        0 => near,
        1 => near.wrapping_neg(),
        2 => old.wrapping_add(random.within(-2, 2) as u32),
        _ => random.word(),
    }
}
