//! The words and halfwords that are compared.
use testing::Random;

/// The 48 operations: name, fixed bits, and their value. From the manual's instruction listing
/// (chapter 24), with the fixed bits of RV32; `fence` may have any fields, as the paper says.
pub const OPERATIONS: [(&str, u32, u32); 48] = [
    ("lui", 0x0000_007F, 0x0000_0037),
    ("auipc", 0x0000_007F, 0x0000_0017),
    ("jal", 0x0000_007F, 0x0000_006F),
    ("jalr", 0x0000_707F, 0x0000_0067),
    ("beq", 0x0000_707F, 0x0000_0063),
    ("bne", 0x0000_707F, 0x0000_1063),
    ("blt", 0x0000_707F, 0x0000_4063),
    ("bge", 0x0000_707F, 0x0000_5063),
    ("bltu", 0x0000_707F, 0x0000_6063),
    ("bgeu", 0x0000_707F, 0x0000_7063),
    ("lb", 0x0000_707F, 0x0000_0003),
    ("lh", 0x0000_707F, 0x0000_1003),
    ("lw", 0x0000_707F, 0x0000_2003),
    ("lbu", 0x0000_707F, 0x0000_4003),
    ("lhu", 0x0000_707F, 0x0000_5003),
    ("sb", 0x0000_707F, 0x0000_0023),
    ("sh", 0x0000_707F, 0x0000_1023),
    ("sw", 0x0000_707F, 0x0000_2023),
    ("addi", 0x0000_707F, 0x0000_0013),
    ("slti", 0x0000_707F, 0x0000_2013),
    ("sltiu", 0x0000_707F, 0x0000_3013),
    ("xori", 0x0000_707F, 0x0000_4013),
    ("ori", 0x0000_707F, 0x0000_6013),
    ("andi", 0x0000_707F, 0x0000_7013),
    ("slli", 0xFE00_707F, 0x0000_1013),
    ("srli", 0xFE00_707F, 0x0000_5013),
    ("srai", 0xFE00_707F, 0x4000_5013),
    ("add", 0xFE00_707F, 0x0000_0033),
    ("sub", 0xFE00_707F, 0x4000_0033),
    ("sll", 0xFE00_707F, 0x0000_1033),
    ("slt", 0xFE00_707F, 0x0000_2033),
    ("sltu", 0xFE00_707F, 0x0000_3033),
    ("xor", 0xFE00_707F, 0x0000_4033),
    ("srl", 0xFE00_707F, 0x0000_5033),
    ("sra", 0xFE00_707F, 0x4000_5033),
    ("or", 0xFE00_707F, 0x0000_6033),
    ("and", 0xFE00_707F, 0x0000_7033),
    ("fence", 0x0000_707F, 0x0000_000F),
    ("ecall", 0xFFFF_FFFF, 0x0000_0073),
    ("ebreak", 0xFFFF_FFFF, 0x0010_0073),
    ("mul", 0xFE00_707F, 0x0200_0033),
    ("mulh", 0xFE00_707F, 0x0200_1033),
    ("mulhsu", 0xFE00_707F, 0x0200_2033),
    ("mulhu", 0xFE00_707F, 0x0200_3033),
    ("div", 0xFE00_707F, 0x0200_4033),
    ("divu", 0xFE00_707F, 0x0200_5033),
    ("rem", 0xFE00_707F, 0x0200_6033),
    ("remu", 0xFE00_707F, 0x0200_7033),
];

/// Bits of one of the two widths.
#[derive(Clone, Copy, Debug, PartialEq, Eq)]
pub enum Bits {
    Half(u16),
    Word(u32),
}

impl Bits {
    pub fn bytes(self) -> Vec<u8> {
        match self {
            Bits::Half(bits) => bits.to_le_bytes().to_vec(),
            Bits::Word(bits) => bits.to_le_bytes().to_vec(),
        }
    }

    pub fn hex(self) -> String {
        match self {
            Bits::Half(bits) => format!("{bits:04x}"),
            Bits::Word(bits) => format!("{bits:08x}"),
        }
    }

    pub fn is_half(self) -> bool {
        matches!(self, Bits::Half(_))
    }

    /// Bits that begin an instruction longer than 32 bits.
    pub fn is_longer(self) -> bool {
        matches!(self, Bits::Word(bits) if bits & 0x1F == 0x1F)
    }
}

/// Random words of each operation, `each` of those that have a free bit.
pub fn of_each_operation(random: &mut Random, each: usize) -> Vec<Bits> {
    let mut words = Vec::new();
    for (_, fixed, value) in OPERATIONS {
        let wanted = if fixed == u32::MAX { 1 } else { each };
        words.extend((0..wanted).map(|_| Bits::Word(random.word() & !fixed | value)));
    }
    words
}

/// The fences that have a meaning of their own, which random fields hardly meet: each pair of sets
/// with no further field, and `fence.tso`.
pub fn plain_fences() -> Vec<Bits> {
    let fields = (0..256).chain([0x833]);
    fields.map(|field| Bits::Word(field << 20 | 0x0F)).collect()
}

/// Words of each operation with one fixed bit turned over: mostly illegal.
pub fn near_each_operation(random: &mut Random, each: usize) -> Vec<Bits> {
    let mut words = Vec::new();
    for (_, fixed, value) in OPERATIONS {
        let places: Vec<u32> = (2..32).filter(|at| fixed >> at & 1 == 1).collect();
        for _ in 0..each {
            let turned = 1 << places[random.word() as usize % places.len()];
            words.push(Bits::Word((random.word() & !fixed | value) ^ turned));
        }
    }
    words
}

/// Words of 32-bit instructions, whatever they mean.
pub fn of_any_kind(random: &mut Random, count: usize) -> Vec<Bits> {
    (0..count).map(|_| Bits::Word(random.word() | 3)).collect()
}

/// Every halfword that is not the first half of a word.
pub fn all_halves() -> Vec<Bits> {
    let short = |bits: &u16| bits & 3 != 3;
    (0..=u16::MAX).filter(short).map(Bits::Half).collect()
}
