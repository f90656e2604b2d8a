//! Random programs: mostly legal instructions of both lengths, short jumps, accesses near the
//! ends of memory and in the window, stores over code; and recipes that work on the row alone.

use second::{op, Inst, Masks};
use testing::Random;

/// Registers that programs use as addresses and seldom write to.
pub const POINTERS: [u32; 6] = [2, 8, 9, 10, 14, 31];
/// Those that lead to the window in a program that trims: short stores go from them, too.
pub const ROW_POINTERS: [u32; 2] = [2, 8];
/// Registers that jumps and calls go through.
pub const LINKS: [u32; 2] = [1, 5];
pub const WINDOW: u32 = 0x8000_0000;

/// How a program behaves.
#[derive(Clone, Copy, PartialEq, Eq)]
pub enum Temper {
    /// Goes on for long: stays near, and loads and stores where its pointers lead.
    Calm,
    /// Clears and burns words of the row, reads them, and works out others between.
    Trimming,
    /// As `Trimming`, on its own words; one access in so many strays to the other's or to any.
    Sharing { masks: Masks, strays: u64 },
    /// Anything; one in so many instructions is any bits.
    Wild(u64),
}

/// Bytes of a program, at least so many.
pub fn code(random: &mut Random, length: usize, temper: Temper) -> Vec<u8> {
    let mut code = Vec::with_capacity(length + 12);
    while code.len() < length {
        match temper {
            Temper::Calm => {
                let inst = calm(random, instruction);
                emit(random, inst, &mut code);
            }
            Temper::Trimming => {
                let inst = trimming_instruction(random);
                emit(random, inst, &mut code);
            }
            Temper::Sharing { masks, strays } => {
                let inst = sharing_instruction(random, masks, strays);
                emit(random, inst, &mut code);
            }
            Temper::Wild(junk) => wild_piece(random, junk, &mut code),
        }
    }
    code
}

fn wild_piece(random: &mut Random, junk: u64, code: &mut Vec<u8>) {
    match random.below(40) {
        0 => store_over_code(random, code),
        1 => use_of_the_window(random, code),
        2..=4 => code.extend(legal_half(random).to_le_bytes()),
        _ if random.once_in(junk) => code.extend(random.word().to_le_bytes()),
        _ => {
            let inst = instruction(random);
            emit(random, inst, code);
        }
    }
}

/// A calm one of those that `any` gives.
fn calm(random: &mut Random, any: fn(&mut Random) -> Inst) -> Inst {
    loop {
        let inst = any(random);
        if is_calm(inst) {
            return inst;
        }
    }
}

/// More stores of zero than of others: where a word is burnt the recipe ends.
fn trimming_instruction(random: &mut Random) -> Inst {
    let base = random.pick(&ROW_POINTERS);
    let word = (4 * random.within(0, 63)) as u32;
    match random.below(8) {
        0..=3 => store(op::SW, 0, base, word),
        4 => store(op::SW, any_register(random), base, word),
        5 => indexed(op::LW, random.pick(&[0, 3, 11, 12, 13]), base, word),
        6 => calm(random, branch),
        _ => calm(random, immediate_arithmetic),
    }
}

/// Loads, and stores of zero and of others, in the same measure.
fn sharing_instruction(random: &mut Random, masks: Masks, strays: u64) -> Inst {
    let base = random.pick(&ROW_POINTERS);
    let mask = if random.once_in(strays) {
        random.pick(&[masks.other, u64::MAX])
    } else {
        masks.own
    };
    let word = 4 * word_of(random, mask);
    match random.below(8) {
        0 => store(op::SW, 0, base, word),
        1 | 2 => store(op::SW, any_register(random), base, word),
        3 | 4 => indexed(op::LW, random.pick(&[0, 3, 11, 12, 13]), base, word),
        5 => calm(random, branch),
        _ => calm(random, immediate_arithmetic),
    }
}

/// A word of the mask; any where it has none.
fn word_of(random: &mut Random, mask: u64) -> u32 {
    let any = random.below(64) as u32;
    let mut from_it_on = (any..any + 64).map(|word| word % 64);
    let found = from_it_on.find(|word| mask >> word & 1 == 1);
    found.unwrap_or(any)
}

/// Keeps pointers and links as they are, jumps a little way, accesses a little way from a pointer.
fn is_calm(i: Inst) -> bool {
    let offset = i.imm as i32;
    let spares_pointers = !POINTERS.contains(&i.rd);
    match i.operation {
        op::JAL => spares_pointers && (-24..=48).contains(&offset),
        op::BEQ..=op::BGEU => (-24..=48).contains(&offset),
        op::JALR => spares_pointers && LINKS.contains(&i.rs1) && offset == 0,
        op::LB..=op::LHU => {
            spares_pointers && POINTERS.contains(&i.rs1) && (-8..=128).contains(&offset)
        }
        op::SB..=op::SW => POINTERS.contains(&i.rs1) && (-8..=128).contains(&offset),
        op::ECALL | op::EBREAK => false,
        _ => spares_pointers && !LINKS.contains(&i.rd),
    }
}

/// One instruction, short if it has a short form and chance wills it.
fn emit(random: &mut Random, inst: Inst, code: &mut Vec<u8>) {
    match second::shorten(inst) {
        Ok(half) if !random.once_in(4) => code.extend(half.to_le_bytes()),
        _ => code.extend(second::encode(inst).unwrap_or(0).to_le_bytes()),
    }
}

/// `auipc` and a store a little before or behind itself, of registers that may hold code.
fn store_over_code(random: &mut Random, code: &mut Vec<u8>) {
    let base = random.pick(&POINTERS);
    let here = Inst {
        operation: op::AUIPC,
        rd: base,
        ..Inst::default()
    };
    emit(random, here, code);
    let store = Inst {
        operation: op::SB + random.below(3) as u32,
        rd: 0,
        rs1: base,
        rs2: any_register(random),
        imm: (2 * random.within(-8, 14)) as u32,
    };
    emit(random, store, code);
}

/// `lui` of the window's address, and a word stored or loaded there.
fn use_of_the_window(random: &mut Random, code: &mut Vec<u8>) {
    let base = random.pick(&POINTERS);
    let upper = Inst {
        operation: op::LUI,
        rd: base,
        imm: WINDOW >> 12,
        ..Inst::default()
    };
    emit(random, upper, code);
    let imm = (4 * random.within(0, 63)) as u32;
    let access = if random.once_in(2) {
        indexed(op::LW, any_register(random), base, imm)
    } else {
        store(op::SW, data_register(random), base, imm)
    };
    emit(random, access, code);
}

/// A legal halfword, each with the same chance: HINT points too.
pub fn legal_half(random: &mut Random) -> u16 {
    loop {
        let bits = random.word() as u16;
        if second::expand(bits).is_ok() {
            return bits;
        }
    }
}

pub fn legal_word(random: &mut Random) -> u32 {
    let inst = instruction(random);
    second::encode(inst).unwrap_or(0)
}

/// A legal instruction, of a kind that lets a program go on for a while.
pub fn instruction(random: &mut Random) -> Inst {
    match random.below(100) {
        0..=26 => immediate_arithmetic(random),
        27..=43 => register_arithmetic(random, op::ADD, op::AND),
        44..=53 => register_arithmetic(random, op::MUL, op::REMU),
        54..=58 => upper(random),
        59..=63 => jump(random),
        64..=67 => jump_to_register(random),
        68..=77 => branch(random),
        78..=87 => load(random),
        88..=97 => store_somewhere(random),
        98 => fence(random),
        _ => lone(random),
    }
}

fn immediate_arithmetic(random: &mut Random) -> Inst {
    let operation = op::ADDI + random.below(9) as u32;
    let imm = match operation {
        op::SLLI..=op::SRAI => random.within(0, 31),
        _ if random.once_in(2) => random.within(-33, 33),
        _ => random.within(-2048, 2047),
    };
    let (rd, rs1) = destination_and_source(random);
    indexed(operation, rd, rs1, imm as u32)
}

fn register_arithmetic(random: &mut Random, first: u32, last: u32) -> Inst {
    let (rd, rs1) = destination_and_source(random);
    Inst {
        operation: first + random.below(u64::from(last - first) + 1) as u32,
        rd,
        rs1,
        rs2: any_register(random),
        imm: 0,
    }
}

fn upper(random: &mut Random) -> Inst {
    let field = match random.below(4) {
        0 => random.within(0, 31) as u32,
        1 => 0xfffff - random.within(0, 32) as u32,
        2 => WINDOW >> 12,
        _ => random.word() >> 12,
    };
    Inst {
        operation: random.pick(&[op::LUI, op::AUIPC]),
        rd: destination(random),
        imm: field,
        ..Inst::default()
    }
}

fn jump(random: &mut Random) -> Inst {
    let offset = match random.below(8) {
        0 => random.within(-1 << 19, (1 << 19) - 1),
        1 => random.within(-1030, 1030),
        _ => random.within(-12, 24),
    };
    Inst {
        operation: op::JAL,
        rd: random.pick(&[0, 1, 1, 5, 9]),
        imm: (2 * offset) as u32,
        ..Inst::default()
    }
}

fn jump_to_register(random: &mut Random) -> Inst {
    let imm = match random.below(4) {
        0 | 1 => 0,
        2 => random.within(-16, 32),
        _ => random.within(-2048, 2047),
    };
    let rd = random.pick(&[0, 1, 1, 5, 9]);
    indexed(op::JALR, rd, random.pick(&[0, 1, 1, 5, 5, 9]), imm as u32)
}

fn branch(random: &mut Random) -> Inst {
    let offset = match random.below(8) {
        0 => random.within(-2048, 2047),
        1 => random.within(-130, 130),
        _ => random.within(-10, 24),
    };
    Inst {
        operation: op::BEQ + random.below(6) as u32,
        rd: 0,
        rs1: any_register(random),
        rs2: random.pick(&[0, 0, 1, 3, 8, 11, 12, 30]),
        imm: (2 * offset) as u32,
    }
}

fn load(random: &mut Random) -> Inst {
    let operation = op::LB + random.below(5) as u32;
    let size = [1, 2, 4, 1, 2][(operation - op::LB) as usize];
    let (base, imm) = base_and_offset(random, size);
    indexed(operation, destination(random), base, imm)
}

fn store_somewhere(random: &mut Random) -> Inst {
    let operation = op::SB + random.below(3) as u32;
    let (base, imm) = base_and_offset(random, 1 << (operation - op::SB));
    store(operation, data_register(random), base, imm)
}

/// What is stored; often zero.
fn data_register(random: &mut Random) -> u32 {
    if random.once_in(4) {
        return 0;
    }
    any_register(random)
}

/// A pointer and a small multiple of the size, or now and then anything.
fn base_and_offset(random: &mut Random, size: i32) -> (u32, u32) {
    let imm = match random.below(16) {
        0 => random.within(-2048, 2047),
        1 => random.within(-9, 9),
        2..=8 => size * random.within(-2, 2),
        _ => size * random.within(0, 31),
    };
    let base = if random.once_in(12) {
        any_register(random)
    } else {
        random.pick(&POINTERS)
    };
    (base, imm as u32)
}

fn fence(random: &mut Random) -> Inst {
    let field = random.below(4096) as u32;
    indexed(op::FENCE, any_register(random), any_register(random), field)
}

fn lone(random: &mut Random) -> Inst {
    Inst {
        operation: random.pick(&[op::ECALL, op::EBREAK]),
        ..Inst::default()
    }
}

/// Often the same register twice, as the short forms have it.
fn destination_and_source(random: &mut Random) -> (u32, u32) {
    let rd = destination(random);
    let rs1 = if random.once_in(2) {
        rd
    } else {
        any_register(random)
    };
    (rd, rs1)
}

fn destination(random: &mut Random) -> u32 {
    if random.once_in(10) {
        return any_register(random);
    }
    random.pick(&[0, 1, 3, 4, 5, 11, 12, 13, 15, 16, 30])
}

fn any_register(random: &mut Random) -> u32 {
    if random.once_in(2) {
        return 8 + random.below(8) as u32;
    }
    random.below(32) as u32
}

fn indexed(operation: u32, rd: u32, rs1: u32, imm: u32) -> Inst {
    Inst {
        operation,
        rd,
        rs1,
        rs2: 0,
        imm,
    }
}

fn store(operation: u32, data: u32, base: u32, imm: u32) -> Inst {
    Inst {
        operation,
        rd: 0,
        rs1: base,
        rs2: data,
        imm,
    }
}

/// A value that operations, addresses or stores over code may find interesting.
pub fn value(random: &mut Random, length: usize) -> u32 {
    match random.below(11) {
        0 => 0,
        1 => random.below(64) as u32,
        2 => u32::MAX - random.below(3) as u32,
        3 => 0x8000_0000_u32.wrapping_add(random.within(-1, 1) as u32),
        4 => legal_word(random),
        5 => u32::from(legal_half(random)) << 16 | u32::from(legal_half(random)),
        6 | 7 => address(random, length),
        8 => one_bit(random),
        _ => random.word(),
    }
}

/// Of such a value three bytes are zero, but not the fourth.
pub fn one_bit(random: &mut Random) -> u32 {
    1 << random.below(32)
}

/// An address in memory, near its ends, or in the window; mostly a multiple of 4.
pub fn address(random: &mut Random, length: usize) -> u32 {
    let length = length as u32;
    let near = match random.below(8) {
        0 => length.wrapping_add(random.within(-12, 3) as u32),
        1 => WINDOW.wrapping_add(random.within(-4, 260) as u32),
        2 | 3 => WINDOW + random.below(256) as u32,
        4 => random.below(24) as u32,
        _ => random.below(u64::from(length) + 1) as u32,
    };
    if random.once_in(6) {
        return near;
    }
    near & !3
}
