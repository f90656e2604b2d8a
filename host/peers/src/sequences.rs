//! Random instruction sequences for comparison 3, as assembly: every operation but `ecall` and
//! `ebreak`, in both lengths, and HINT points. After each the register that it writes is stored, so
//! the buffer holds the result of every one; what loads and stores touch follows it.
//!
//! Registers that hold addresses are operands of no random computation: x2, x9 and x31 point into
//! the memory that loads and stores use, x3 to the next result, x4 to the program's start. After an
//! instruction that computes an address, x4 or another of them is subtracted.
use testing::Random;

/// Random instructions of one program: it must fit 64 KiB, and the room has two results for each.
pub const COUNT: usize = 1500;

const DATA: [u32; 27] = [
    0, 1, 5, 6, 7, 8, 10, 11, 12, 13, 14, 15, 16, 17, 18, 19, 20, 21, 22, 23, 24, 25, 26, 27, 28,
    29, 30,
];
/// Those of them that a short instruction's three bits can name.
const NEAR: [u32; 7] = [8, 10, 11, 12, 13, 14, 15];
const EDGES: [u32; 12] = [
    0,
    1,
    2,
    31,
    32,
    0x7FFF_FFFF,
    0x8000_0000,
    0x8000_0001,
    0xFFFF_FFFF,
    0xFFFF_FFFE,
    0xFFFF_8000,
    0x0001_0000,
];
const REGISTER: [&str; 18] = [
    "add", "sub", "sll", "slt", "sltu", "xor", "srl", "sra", "or", "and", "mul", "mulh", "mulhsu",
    "mulhu", "div", "divu", "rem", "remu",
];
const IMMEDIATE: [&str; 6] = ["addi", "slti", "sltiu", "xori", "ori", "andi"];
const SHIFT: [&str; 3] = ["slli", "srli", "srai"];
const BRANCH: [&str; 6] = ["beq", "bne", "blt", "bge", "bltu", "bgeu"];
const LOAD: [(&str, u32); 5] = [("lb", 1), ("lh", 2), ("lw", 4), ("lbu", 1), ("lhu", 2)];
const STORE: [(&str, u32); 3] = [("sb", 1), ("sh", 2), ("sw", 4)];
const SHORT_PAIR: [&str; 4] = ["c.sub", "c.xor", "c.or", "c.and"];
/// HINT points: all bits but the amount or source in bits 6 to 2 (manual, 16.7).
const HINT: [u32; 6] = [0x0001, 0x4001, 0x7001, 0x8002, 0x9002, 0x0002];
/// HINT points that add or shift by 0: all bits but rd.
const HINT_OF_RD: [u32; 2] = [0x0001, 0x0002];
const HINT_OF_NEAR: [u32; 2] = [0x8001, 0x8401];

struct Writer {
    random: Random,
    text: String,
}

/// The assembly of one program.
pub fn program(seed: u64) -> String {
    let mut writer = Writer {
        random: Random::new(seed),
        text: START.to_string(),
    };
    for register in DATA {
        writer.reload(register);
    }
    for _ in 0..COUNT {
        if writer.below(3) == 0 {
            let register = writer.data();
            writer.reload(register);
        }
        writer.any();
    }
    writer.text += END;
    for _ in 0..AREA {
        let value = writer.random.word();
        writer.line(format!(".4byte {value}"));
    }
    writer.text + "end:\n"
}

const START: &str = ".option norvc
.globl _start
.section .start,\"ax\"
_start:
    auipc x4,0
    la x3,room
    la x2,area
    la x9,area
    la x31,area+2048
";
const END: &str = "    la a1,room
    la a2,end
    sub a2,a2,a1
    li a0,1
    li a7,64
    ecall
    li a0,0
    li a7,93
    ecall
.data
.balign 4
room: .zero 12000
area:
";
/// The words that loads and stores reach: all that an offset of 12 bits can name.
const AREA: usize = 1024;

impl Writer {
    fn below(&mut self, bound: u32) -> u32 {
        self.random.word() % bound
    }

    fn one_of<T: Copy>(&mut self, all: &[T]) -> T {
        all[self.below(all.len() as u32) as usize]
    }

    fn data(&mut self) -> u32 {
        self.one_of(&DATA)
    }

    /// A data register other than x0, which most short instructions cannot name.
    fn written(&mut self) -> u32 {
        self.one_of(&DATA[1..])
    }

    fn signed(&mut self, bits: u32) -> i32 {
        self.random.word() as i32 >> (32 - bits)
    }

    fn line(&mut self, line: String) {
        self.text += &format!("    {line}\n");
    }

    fn short(&mut self, line: String) {
        self.line(format!(".option rvc\n    {line}\n    .option norvc"));
    }

    fn reload(&mut self, register: u32) {
        let value = match self.below(2) {
            0 => self.one_of(&EDGES),
            _ => self.random.word(),
        };
        self.line(format!("li x{register},{value}"));
    }

    fn store_result(&mut self, register: u32) {
        self.line(format!("sw x{register},0(x3)"));
        self.line("addi x3,x3,4".to_string());
    }

    fn any(&mut self) {
        let register = match self.below(20) {
            0..=5 => self.on_registers(),
            6..=8 => self.on_immediate(),
            9 => self.upper(),
            10 => self.load(),
            11 => self.store(),
            12 => self.branch(),
            13 => self.jump(),
            14 => self.fence(),
            15 => self.hint(),
            16 => self.short_jump(),
            17 => self.short_memory(),
            _ => self.short_arithmetic(),
        };
        self.store_result(register);
    }

    fn on_registers(&mut self) -> u32 {
        let (name, rd) = (self.one_of(&REGISTER), self.data());
        let (rs1, rs2) = (self.data(), self.data());
        self.line(format!("{name} x{rd},x{rs1},x{rs2}"));
        rd
    }

    fn on_immediate(&mut self) -> u32 {
        let (rd, rs1) = (self.data(), self.data());
        if self.below(3) == 0 {
            let (name, amount) = (self.one_of(&SHIFT), self.below(32));
            self.line(format!("{name} x{rd},x{rs1},{amount}"));
        } else {
            let (name, imm) = (self.one_of(&IMMEDIATE), self.signed(12));
            self.line(format!("{name} x{rd},x{rs1},{imm}"));
        }
        rd
    }

    fn upper(&mut self) -> u32 {
        let (rd, field) = (self.data(), self.below(1 << 20));
        if self.below(2) == 0 {
            self.line(format!("lui x{rd},{field}"));
        } else {
            self.line(format!("auipc x{rd},{field}"));
            self.line(format!("sub x{rd},x{rd},x4"));
        }
        rd
    }

    fn load(&mut self) -> u32 {
        let ((name, width), rd) = (self.one_of(&LOAD), self.data());
        let offset = self.signed(12) & -(width as i32);
        self.line(format!("{name} x{rd},{offset}(x31)"));
        rd
    }

    fn store(&mut self) -> u32 {
        let ((name, width), rs2) = (self.one_of(&STORE), self.data());
        let offset = self.signed(12) & -(width as i32);
        self.line(format!("{name} x{rs2},{offset}(x31)"));
        rs2
    }

    /// Skips one instruction or not.
    fn branch(&mut self) -> u32 {
        let (name, rs1, rs2) = (self.one_of(&BRANCH), self.data(), self.data());
        self.line(format!("{name} x{rs1},x{rs2},1f"));
        let rd = self.on_immediate();
        self.line("1:".to_string());
        rd
    }

    /// Over one instruction, by `jal` or by `jalr` with an odd sum; the link, less the start.
    fn jump(&mut self) -> u32 {
        let (rd, rs1) = (self.written(), self.written());
        if self.below(2) == 0 {
            self.line(format!("jal x{rd},.+8"));
        } else {
            self.line(format!("auipc x{rs1},0"));
            self.line(format!("jalr x{rd},13(x{rs1})"));
        }
        self.line("addi x5,x5,1".to_string());
        self.line(format!("sub x{rd},x{rd},x4"));
        self.store_result(rd);
        self.line(format!("li x{rs1},7"));
        5
    }

    fn fence(&mut self) -> u32 {
        let (rd, rs1, field) = (self.data(), self.data(), self.signed(12));
        self.line(format!(".insn i 0x0f,0,x{rd},x{rs1},{field}"));
        rd
    }

    fn hint(&mut self) -> u32 {
        let (rd, near, free) = (self.written(), self.one_of(&NEAR), 1 + self.below(31));
        let (bits, by_zero) = (self.one_of(&HINT), self.one_of(&HINT_OF_RD));
        let (halfword, register) = match self.below(3) {
            0 => (bits | free << 2, 0),
            1 => (by_zero | rd << 7, rd),
            _ => (self.one_of(&HINT_OF_NEAR) | (near - 8) << 7, near),
        };
        self.line(format!(".2byte {halfword}"));
        register
    }

    /// Over one instruction or not.
    fn short_jump(&mut self) -> u32 {
        let near = self.one_of(&NEAR);
        match self.below(5) {
            0 => self.short("c.j .+6".to_string()),
            1 => self.short(format!("c.beqz x{near},.+6")),
            2 => self.short(format!("c.bnez x{near},.+6")),
            3 => return self.short_call(),
            _ => return self.short_jump_through(),
        }
        self.line("addi x6,x6,1".to_string());
        6
    }

    /// Over one instruction; the link, less the start.
    fn short_call(&mut self) -> u32 {
        self.short("c.jal .+6".to_string());
        self.line("addi x6,x6,1".to_string());
        self.line("sub x1,x1,x4".to_string());
        self.store_result(6);
        1
    }

    /// Over one instruction through a register; the link of `c.jalr`, less the start.
    fn short_jump_through(&mut self) -> u32 {
        let (name, rs1) = (self.one_of(&["c.jr", "c.jalr"]), self.one_of(&DATA[2..]));
        self.line("addi x1,x4,0".to_string());
        self.line(format!("auipc x{rs1},0"));
        self.line(format!("addi x{rs1},x{rs1},14"));
        self.short(format!("{name} x{rs1}"));
        self.line("addi x6,x6,1".to_string());
        self.line("sub x1,x1,x4".to_string());
        self.line(format!("li x{rs1},9"));
        self.store_result(1);
        6
    }

    fn short_memory(&mut self) -> u32 {
        let (near, rd, place) = (self.one_of(&NEAR), self.written(), self.below(32) * 4);
        let bytes = 4 * (1 + self.below(255));
        match self.below(6) {
            0 => self.short(format!("c.lw x{near},{place}(x9)")),
            1 => self.short(format!("c.sw x{near},{place}(x9)")),
            2 => self.short(format!("c.lwsp x{rd},{}(x2)", place * 2 + 4)),
            3 => self.short(format!("c.swsp x{rd},{}(x2)", place * 2 + 4)),
            4 => {
                let step = 16 * (self.signed(6) | 1);
                self.short(format!("c.addi16sp x2,{step}"));
                self.line(format!("sub x{near},x2,x9"));
                self.line("addi x2,x9,0".to_string());
            }
            _ => {
                self.short(format!("c.addi4spn x{near},x2,{bytes}"));
                self.line(format!("sub x{near},x{near},x2"));
            }
        }
        self.store_result(near);
        rd
    }

    fn short_arithmetic(&mut self) -> u32 {
        let (near, other, amount) = (self.one_of(&NEAR), self.one_of(&NEAR), 1 + self.below(31));
        let (rd, rs2, imm) = (self.written(), self.written(), self.signed(6));
        let (pair, upper) = (self.one_of(&SHORT_PAIR), 1 + self.below(31));
        let (line, register) = match self.below(10) {
            0 => (format!("c.addi x{rd},{}", imm | 1), rd),
            1 => (format!("c.li x{rd},{imm}"), rd),
            2 => (format!("c.lui x{rd},{upper}"), rd),
            3 => (format!("c.lui x{rd},{}", 0xF_FFFF - upper), rd),
            4 => (format!("c.slli x{rd},{amount}"), rd),
            5 => (format!("c.mv x{rd},x{rs2}"), rd),
            6 => (format!("c.add x{rd},x{rs2}"), rd),
            7 => (format!("c.andi x{near},{imm}"), near),
            8 => (format!("{pair} x{near},x{other}"), near),
            _ => (
                format!("c.{} x{near},{amount}", SHIFT[1 + amount as usize % 2]),
                near,
            ),
        };
        self.short(line);
        register
    }
}
