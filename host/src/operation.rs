//! The 48 operations, in the paper's order.
use crate::answers::numbered;
use std::fmt;

numbered! {
    /// An operation of RV32IMC, by its mnemonic.
    ///
    /// ```
    /// use phuyurik::{decode, Operation};
    /// let inst = decode(0x00A0_0513)?;
    /// assert_eq!(inst.operation(), Ok(Operation::Addi));
    /// assert_eq!((Operation::Addi.number(), Operation::Addi.words()), (18, "addi"));
    /// # Ok::<(), phuyurik::Error>(())
    /// ```
    Operation: u32, a "operation" {
        Lui = 0: "lui",
        Auipc = 1: "auipc",
        Jal = 2: "jal",
        Jalr = 3: "jalr",
        Beq = 4: "beq",
        Bne = 5: "bne",
        Blt = 6: "blt",
        Bge = 7: "bge",
        Bltu = 8: "bltu",
        Bgeu = 9: "bgeu",
        Lb = 10: "lb",
        Lh = 11: "lh",
        Lw = 12: "lw",
        Lbu = 13: "lbu",
        Lhu = 14: "lhu",
        Sb = 15: "sb",
        Sh = 16: "sh",
        Sw = 17: "sw",
        Addi = 18: "addi",
        Slti = 19: "slti",
        Sltiu = 20: "sltiu",
        Xori = 21: "xori",
        Ori = 22: "ori",
        Andi = 23: "andi",
        Slli = 24: "slli",
        Srli = 25: "srli",
        Srai = 26: "srai",
        Add = 27: "add",
        Sub = 28: "sub",
        Sll = 29: "sll",
        Slt = 30: "slt",
        Sltu = 31: "sltu",
        Xor = 32: "xor",
        Srl = 33: "srl",
        Sra = 34: "sra",
        Or = 35: "or",
        And = 36: "and",
        Fence = 37: "fence",
        Ecall = 38: "ecall",
        Ebreak = 39: "ebreak",
        Mul = 40: "mul",
        Mulh = 41: "mulh",
        Mulhsu = 42: "mulhsu",
        Mulhu = 43: "mulhu",
        Div = 44: "div",
        Divu = 45: "divu",
        Rem = 46: "rem",
        Remu = 47: "remu",
    }
}

impl fmt::Display for Operation {
    fn fmt(&self, f: &mut fmt::Formatter) -> fmt::Result {
        f.pad(self.words())
    }
}
