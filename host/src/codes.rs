//! Instructions and their bits.
use crate::error::{ask, Error};
use crate::{put_text_of, Operation, UnknownNumber, ROOM};
use phuyurik_sys as sys;
use std::fmt;
use std::mem::{align_of, offset_of, size_of};

/// An instruction as numbers: its operation's place in the paper's order of 48, and its operands, 0
/// for each that it does not have. Any numbers may stand here: those of no instruction are refused.
///
/// Immediates and offsets are sign-extended to 32 bits; `lui` and `auipc` have the 20-bit field, a
/// shift its amount and `fence` its 12-bit field.
///
/// ```
/// use phuyurik::{encode, Instruction, Operation};
/// let operation = Operation::Addi.number();
/// let inst = Instruction { operation, rd: 10, imm: 10, ..Instruction::default() };
/// assert_eq!(inst.to_string(), "addi x10,x0,10");
/// assert_eq!(encode(inst), Ok(0x00A0_0513));
/// let none = Instruction { operation: 48, ..inst };
/// assert_eq!(none.to_string(), "no instruction (48, 10, 0, 0, 10)");
/// ```
#[repr(C)]
#[derive(Clone, Copy, Debug, Default, PartialEq, Eq, Hash)]
pub struct Instruction {
    /// The operation's number, as [`Operation::number`] gives it.
    pub operation: u32,
    /// The register that is written.
    pub rd: u32,
    /// The first register that is read.
    pub rs1: u32,
    /// The second register that is read.
    pub rs2: u32,
    /// The immediate, offset, field or shift amount.
    pub imm: u32,
}

// The archive is lent an `Instruction` as the C interface's own.
const _: () = {
    assert!(size_of::<Instruction>() == size_of::<sys::Instruction>());
    assert!(align_of::<Instruction>() == align_of::<sys::Instruction>());
    assert!(offset_of!(Instruction, operation) == offset_of!(sys::Instruction, operation));
    assert!(offset_of!(Instruction, rd) == offset_of!(sys::Instruction, rd));
    assert!(offset_of!(Instruction, rs1) == offset_of!(sys::Instruction, rs1));
    assert!(offset_of!(Instruction, rs2) == offset_of!(sys::Instruction, rs2));
    assert!(offset_of!(Instruction, imm) == offset_of!(sys::Instruction, imm));
};

impl Instruction {
    /// The operation, or that no operation has this number.
    ///
    /// ```
    /// use phuyurik::{expand, Instruction, Operation};
    /// assert_eq!(expand(0x9002)?.operation(), Ok(Operation::Ebreak));
    /// let none = Instruction { operation: 48, ..Instruction::default() };
    /// assert!(none.operation().is_err());
    /// # Ok::<(), phuyurik::Error>(())
    /// ```
    pub fn operation(self) -> Result<Operation, UnknownNumber> {
        Operation::try_from(self.operation)
    }

    pub(crate) fn lent(&self) -> *const sys::Instruction {
        std::ptr::from_ref(self).cast()
    }

    fn lent_mut(&mut self) -> *mut sys::Instruction {
        std::ptr::from_mut(self).cast()
    }
}

/// The text; numbers that are no instruction are shown as such.
impl fmt::Display for Instruction {
    fn fmt(&self, f: &mut fmt::Formatter) -> fmt::Result {
        let mut room = [0; ROOM];
        let problem = match put_text_of(*self, &mut room) {
            Ok(length) => return f.pad(&String::from_utf8_lossy(&room[..length])),
            Err(Error::Refused(_)) => "no instruction".to_string(),
            Err(error) => error.to_string(),
        };
        let numbers = (self.operation, self.rd, self.rs1, self.rs2, self.imm);
        write!(f, "{problem} {numbers:?}")
    }
}

/// The format class of 32 bits, by bits 6 to 2 and funct3 alone: 0 none, 1 R, 2 I, 3 S, 4 B, 5 U, 6 J.
///
/// ```
/// assert_eq!(phuyurik::chart(0x00A0_0513), Ok(2));
/// assert_eq!(phuyurik::chart(0xFE00_0EE3), Ok(4));
/// ```
pub fn chart(bits: u32) -> Result<u8, Error> {
    let mut format = 0;
    // SAFETY: the place is lent for the call alone.
    ask(|| unsafe { sys::phuyurik_chart(bits, &mut format) })?;
    Ok(format)
}

/// What 32 bits mean. Bits of no legal instruction are refused.
///
/// ```
/// use phuyurik::{decode, Refusal};
/// assert_eq!(decode(0xFE00_0EE3)?.to_string(), "beq x0,x0,-4");
/// assert_eq!(decode(0xFFFF_FFFF), Err(Refusal::NoInstruction.into()));
/// # Ok::<(), phuyurik::Error>(())
/// ```
pub fn decode(bits: u32) -> Result<Instruction, Error> {
    let mut inst = Instruction::default();
    // SAFETY: as above; an `Instruction` is laid out as the C interface's.
    ask(|| unsafe { sys::phuyurik_decode(bits, inst.lent_mut()) })?;
    Ok(inst)
}

/// What 16 bits mean: the instruction that they stand for. Bits of no legal instruction are refused.
///
/// ```
/// use phuyurik::{expand, Refusal};
/// assert_eq!(expand(0x8082)?.to_string(), "jalr x0,0(x1)");
/// assert_eq!(expand(0x8002), Err(Refusal::NoInstruction.into()));
/// # Ok::<(), phuyurik::Error>(())
/// ```
pub fn expand(bits: u16) -> Result<Instruction, Error> {
    let mut inst = Instruction::default();
    // SAFETY: as above.
    ask(|| unsafe { sys::phuyurik_expand(bits, inst.lent_mut()) })?;
    Ok(inst)
}

/// The word of an instruction. One with a field out of range is refused.
///
/// ```
/// use phuyurik::{decode, encode, Refusal};
/// let mut inst = decode(0x00A0_0513)?;
/// assert_eq!(encode(inst), Ok(0x00A0_0513));
/// inst.imm = 2048;
/// assert_eq!(encode(inst), Err(Refusal::Field.into()));
/// # Ok::<(), phuyurik::Error>(())
/// ```
pub fn encode(inst: Instruction) -> Result<u32, Error> {
    let mut bits = 0;
    // SAFETY: as above.
    ask(|| unsafe { sys::phuyurik_encode(inst.lent(), &mut bits) })?;
    Ok(bits)
}

/// The smallest halfword, as a number, that stands for an instruction. One with a field out of range
/// is refused, then one that has no short form.
///
/// ```
/// use phuyurik::{decode, expand, shorten, Refusal};
/// assert_eq!(shorten(expand(0x6141)?), Ok(0x0141));
/// assert_eq!(shorten(decode(0x0000_000F)?), Err(Refusal::NoShortForm.into()));
/// # Ok::<(), phuyurik::Error>(())
/// ```
pub fn shorten(inst: Instruction) -> Result<u16, Error> {
    let mut bits = 0;
    // SAFETY: as above.
    ask(|| unsafe { sys::phuyurik_shorten(inst.lent(), &mut bits) })?;
    Ok(bits)
}
