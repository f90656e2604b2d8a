//! The machine: a state, main memory and the fuse row; one step and one run.

use crate::{decode, op, refusal, short, stop, Inst};

const LONGEST_MEMORY: usize = 65_536;
const ROW: usize = 512;
const WINDOW: u32 = 0x8000_0000;
const WINDOW_LENGTH: u32 = 256;

/// A state: `x[0]` is x1. It is lent as its record, of which three bytes after the stop must be zero.
#[derive(Clone, Debug, Default, PartialEq, Eq)]
pub struct State {
    pub pc: u32,
    pub x: [u32; 31],
    pub count: u64,
    pub stop: u8,
    pub zero: [u8; 3],
    pub address: u32,
}

impl State {
    /// The state at a new start: all zero.
    pub fn fresh() -> State {
        State::default()
    }
}

/// A refusal's number, and with 3 the lowest word of the row whose record breaks the rules.
#[derive(Clone, Copy, Debug, PartialEq, Eq)]
pub struct Refused {
    pub number: u32,
    pub word: Option<usize>,
}

/// A refusal that tells nothing but its number.
impl From<u32> for Refused {
    fn from(number: u32) -> Refused {
        Refused { number, word: None }
    }
}

/// Which words of the row are this recipe's and which the other's: bit k is word k, 0 lowest.
#[derive(Clone, Copy, Debug, PartialEq, Eq)]
pub struct Masks {
    pub own: u64,
    pub other: u64,
}

/// Those of a call without masks: every word is its own.
impl Default for Masks {
    fn default() -> Masks {
        Masks {
            own: u64::MAX,
            other: 0,
        }
    }
}

impl Masks {
    /// As the other recipe is given them.
    pub fn swapped(self) -> Masks {
        Masks {
            own: self.other,
            other: self.own,
        }
    }
}

/// One step; refusals 1, 2, 3, 5, 14 and 15.
pub fn step(s: &mut State, mem: &mut [u8], row: &mut [u8]) -> Result<(), Refused> {
    step_masked(s, mem, row, Masks::default())
}

/// As `step`, by a recipe with these masks; refusals 1, 2, 3, 16, 5, 14 and 15.
pub fn step_masked(
    s: &mut State,
    mem: &mut [u8],
    row: &mut [u8],
    masks: Masks,
) -> Result<(), Refused> {
    run_masked(s, mem, row, masks, 1).map(|_| ())
}

/// Steps while the state is paused and fewer than `budget` have retired; answers how many did.
/// Refusals 1, 2, 3, 5, 14 and 15.
pub fn run(s: &mut State, mem: &mut [u8], row: &mut [u8], budget: u64) -> Result<u64, Refused> {
    run_masked(s, mem, row, Masks::default(), budget)
}

/// As `run`, by a recipe with these masks; refusals 1, 2, 3, 16, 5, 14 and 15.
pub fn run_masked(
    s: &mut State,
    mem: &mut [u8],
    row: &mut [u8],
    masks: Masks,
    budget: u64,
) -> Result<u64, Refused> {
    check_memory_and_row(mem, row)?;
    check_masks(masks)?;
    check_state(s)?;
    Ok(run_checked(s, mem, row, masks.own, budget))
}

/// No word is both recipes'; one of neither is allowed.
pub(crate) fn check_masks(masks: Masks) -> Result<(), u32> {
    match masks.own & masks.other {
        0 => Ok(()),
        _ => Err(refusal::MASKS_SHARE),
    }
}

pub(crate) fn check_memory_and_row(mem: &[u8], row: &[u8]) -> Result<(), Refused> {
    if mem.len() > LONGEST_MEMORY {
        return Err(refusal::MEMORY_TOO_LONG.into());
    }
    if row.len() != ROW {
        return Err(refusal::ROW_LENGTH.into());
    }
    for (k, record) in row.chunks_exact(8).enumerate() {
        if !record_is_sound(record) {
            return Err(Refused {
                number: refusal::ROW_RECORD,
                word: Some(k),
            });
        }
    }
    Ok(())
}

/// A row record: value, mark, three bytes of zero. A blank word has value 0, a burnt one any other.
fn record_is_sound(record: &[u8]) -> bool {
    let mark = u8::from(record[..4] != [0; 4]);
    record[4..] == [mark, 0, 0, 0]
}

/// A state's pc, then its stop number, then what stands after that in its record.
pub(crate) fn check_state(s: &State) -> Result<(), u32> {
    let may_have_address = !matches!(
        s.stop,
        stop::PAUSED | stop::ECALL | stop::EBREAK | stop::COUNT_FULL
    );
    let is_address_sound = may_have_address || s.address == 0;
    if !s.pc.is_multiple_of(2) {
        Err(refusal::ODD_PC)
    } else if s.stop > stop::LAST {
        Err(refusal::STOP_NUMBER)
    } else if s.zero != [0; 3] || !is_address_sound {
        Err(refusal::RECORD_END)
    } else {
        Ok(())
    }
}

/// As `run_masked`, on arguments that have been checked.
pub(crate) fn run_checked(
    s: &mut State,
    mem: &mut [u8],
    row: &mut [u8],
    own: u64,
    budget: u64,
) -> u64 {
    if s.stop != stop::PAUSED {
        return 0;
    }
    let mut x = [0; 32];
    x[1..].copy_from_slice(&s.x);
    let mut machine = Machine {
        pc: s.pc,
        x,
        mem,
        row,
        own,
    };
    let mut retired = 0;
    while retired < budget {
        // never overflows: a full count stops
        if let Err(Stopped { stop, address }) = machine.step(s.count + retired) {
            (s.stop, s.address) = (stop, address);
            break;
        }
        retired += 1;
    }
    s.pc = machine.pc;
    s.x.copy_from_slice(&machine.x[1..]);
    s.count += retired;
    retired
}

/// A paused machine. `x[0]` is x0 and stays 0.
struct Machine<'a> {
    pc: u32,
    x: [u32; 32],
    mem: &'a mut [u8],
    row: &'a mut [u8],
    /// The words of the row that this recipe may load and store.
    own: u64,
}

/// The number of a stop and where it stopped, which is 0 for a stop that has no address.
#[derive(Clone, Copy)]
struct Stopped {
    stop: u8,
    address: u32,
}

impl Stopped {
    fn at(address: u32, stop: u8) -> Stopped {
        Stopped { stop, address }
    }

    fn without_address(stop: u8) -> Stopped {
        Stopped { stop, address: 0 }
    }
}

/// A completed action, or why it stopped; on a stop nothing has changed.
type Outcome<T> = Result<T, Stopped>;

impl Machine<'_> {
    #[inline(always)]
    fn step(&mut self, count: u64) -> Outcome<()> {
        if count == u64::MAX {
            return Err(Stopped::without_address(stop::COUNT_FULL));
        }
        let (inst, length) = self.fetch()?;
        self.pc = self.execute(inst, self.pc.wrapping_add(length))?;
        Ok(())
    }

    /// The instruction at pc and its length.
    #[inline(always)]
    fn fetch(&self) -> Outcome<(Inst, u32)> {
        let illegal = Stopped::at(self.pc, stop::ILLEGAL);
        let low = self.halfword(self.pc)?;
        if low & 3 != 3 {
            return Ok((short::half(low).ok_or(illegal)?, 2));
        }
        if low & 31 == 31 {
            return Err(illegal);
        }
        let high = self.halfword(self.pc.wrapping_add(2))?;
        let inst = decode::word(high << 16 | low).ok_or(illegal)?;
        Ok((inst, 4))
    }

    /// The halfword at an address, which is told if it could not be fetched.
    #[inline(always)]
    fn halfword(&self, address: u32) -> Outcome<u32> {
        let in_memory = self.mem.get(address as usize..);
        match in_memory.and_then(<[u8]>::first_chunk) {
            Some(bytes) => Ok(u16::from_le_bytes(*bytes).into()),
            None => Err(Stopped::at(address, stop::FETCH_OUTSIDE)),
        }
    }

    /// Does an instruction and answers the next pc; `after` is the address behind it.
    #[inline(always)]
    fn execute(&mut self, i: Inst, after: u32) -> Outcome<u32> {
        let (a, b) = (self.register(i.rs1), self.register(i.rs2));
        let mut next = after;
        match i.operation {
            op::LUI => self.set(i.rd, i.imm << 12),
            op::AUIPC => self.set(i.rd, self.pc.wrapping_add(i.imm << 12)),
            op::JAL => {
                next = self.pc.wrapping_add(i.imm);
                self.set(i.rd, after);
            }
            op::JALR => {
                next = a.wrapping_add(i.imm) & !1;
                self.set(i.rd, after);
            }
            op::BEQ..=op::BGEU => {
                if is_taken(i.operation, a, b) {
                    next = self.pc.wrapping_add(i.imm);
                }
            }
            op::LB..=op::LHU => {
                let value = self.load(i.operation, a.wrapping_add(i.imm))?;
                self.set(i.rd, value);
            }
            op::SB..=op::SW => self.store(i.operation, a.wrapping_add(i.imm), b)?,
            op::ADDI..=op::SRAI => self.set(i.rd, arithmetic(i.operation, a, i.imm)),
            op::ADD..=op::AND => self.set(i.rd, arithmetic(i.operation, a, b)),
            op::FENCE => {}
            op::ECALL => return Err(Stopped::without_address(stop::ECALL)),
            op::EBREAK => return Err(Stopped::without_address(stop::EBREAK)),
            _ => self.set(i.rd, multiply_or_divide(i.operation, a, b)),
        }
        Ok(next)
    }

    #[inline(always)]
    fn register(&self, number: u32) -> u32 {
        self.x[number as usize & 31]
    }

    #[inline(always)]
    fn set(&mut self, number: u32, value: u32) {
        self.x[number as usize & 31] = value;
        self.x[0] = 0;
    }

    #[inline(always)]
    fn load(&self, operation: u32, address: u32) -> Outcome<u32> {
        Ok(match operation {
            op::LB => i8::from_le_bytes(self.read(address)?) as u32,
            op::LH => i16::from_le_bytes(self.read(address)?) as u32,
            op::LW => u32::from_le_bytes(self.read(address)?),
            op::LBU => u8::from_le_bytes(self.read(address)?).into(),
            _ => u16::from_le_bytes(self.read(address)?).into(),
        })
    }

    #[inline(always)]
    fn store(&mut self, operation: u32, address: u32, value: u32) -> Outcome<()> {
        match operation {
            op::SB => self.write(address, (value as u8).to_le_bytes()),
            op::SH => self.write(address, (value as u16).to_le_bytes()),
            _ => self.write(address, value.to_le_bytes()),
        }
    }

    /// The N bytes at an address: misaligned, then outside, then not its own.
    #[inline(always)]
    fn read<const N: usize>(&self, address: u32) -> Outcome<[u8; N]> {
        if !(address as usize).is_multiple_of(N) {
            return Err(Stopped::at(address, stop::LOAD_MISALIGNED));
        }
        let in_memory = self.mem.get(address as usize..);
        match in_memory.and_then(<[u8]>::first_chunk) {
            Some(bytes) => Ok(*bytes),
            None => self.read_row(address),
        }
    }

    /// The value of a row's word; a blank one has value 0. Only whole words are read there.
    fn read_row<const N: usize>(&self, address: u32) -> Outcome<[u8; N]> {
        let outside = Stopped::at(address, stop::LOAD_OUTSIDE);
        let word = word_at(address).filter(|_| N == 4).ok_or(outside)?;
        self.check_owner(word, address)?;
        self.row[8 * word..].first_chunk().copied().ok_or(outside)
    }

    /// A word of the other's, and one of nobody's, stops whatever it holds.
    fn check_owner(&self, word: usize, address: u32) -> Outcome<()> {
        match self.own & 1 << word {
            0 => Err(Stopped::at(address, stop::NOT_OWNED)),
            _ => Ok(()),
        }
    }

    /// Stores N bytes at an address: misaligned, then outside, then not its own, then already burnt.
    #[inline(always)]
    fn write<const N: usize>(&mut self, address: u32, bytes: [u8; N]) -> Outcome<()> {
        if !(address as usize).is_multiple_of(N) {
            return Err(Stopped::at(address, stop::STORE_MISALIGNED));
        }
        let in_memory = self.mem.get_mut(address as usize..);
        match in_memory.and_then(<[u8]>::first_chunk_mut) {
            Some(place) => *place = bytes,
            None => self.write_row(address, &bytes)?,
        }
        Ok(())
    }

    /// Stores a word in the row, which burns it; zero is no pulse and leaves a blank word blank. Only
    /// whole words are stored there, and into a burnt one nothing, zero neither.
    fn write_row(&mut self, address: u32, bytes: &[u8]) -> Outcome<()> {
        let outside = Stopped::at(address, stop::STORE_OUTSIDE);
        let word = word_at(address).filter(|_| bytes.len() == 4);
        let word = word.ok_or(outside)?;
        self.check_owner(word, address)?;
        let record = &mut self.row[8 * word..];
        if record[4] != 0 {
            return Err(Stopped::at(address, stop::ALREADY_BURNT));
        }
        if bytes != [0; 4] {
            record[..4].copy_from_slice(bytes);
            record[4] = 1;
        }
        Ok(())
    }
}

/// Which word of the row an address in the window lies in.
fn word_at(address: u32) -> Option<usize> {
    let offset = address.wrapping_sub(WINDOW);
    (offset < WINDOW_LENGTH).then_some(offset as usize / 4)
}

#[inline(always)]
fn is_taken(operation: u32, a: u32, b: u32) -> bool {
    match operation {
        op::BEQ => a == b,
        op::BNE => a != b,
        op::BLT => (a as i32) < b as i32,
        op::BGE => a as i32 >= b as i32,
        op::BLTU => a < b,
        _ => a >= b,
    }
}

/// The register forms and the immediate forms, which differ only in where `b` comes from.
#[inline(always)]
fn arithmetic(operation: u32, a: u32, b: u32) -> u32 {
    match operation {
        op::ADD | op::ADDI => a.wrapping_add(b),
        op::SUB => a.wrapping_sub(b),
        op::SLL | op::SLLI => a << (b & 31),
        op::SLT | op::SLTI => u32::from((a as i32) < b as i32),
        op::SLTU | op::SLTIU => u32::from(a < b),
        op::XOR | op::XORI => a ^ b,
        op::SRL | op::SRLI => a >> (b & 31),
        op::SRA | op::SRAI => (a as i32 >> (b & 31)) as u32,
        op::OR | op::ORI => a | b,
        _ => a & b,
    }
}

#[inline(always)]
fn multiply_or_divide(operation: u32, a: u32, b: u32) -> u32 {
    let (signed_a, signed_b) = (a as i32, b as i32);
    match operation {
        op::MUL => a.wrapping_mul(b),
        op::MULH => high(i64::from(signed_a) * i64::from(signed_b)),
        op::MULHSU => high(i64::from(signed_a) * i64::from(b)),
        op::MULHU => ((u64::from(a) * u64::from(b)) >> 32) as u32,
        // by zero: the quotient is all ones, the remainder the dividend
        op::DIV | op::DIVU if b == 0 => u32::MAX,
        op::REM | op::REMU if b == 0 => a,
        // -2^31 by -1 wraps to -2^31, with remainder 0
        op::DIV => signed_a.wrapping_div(signed_b) as u32,
        op::DIVU => a / b,
        op::REM => signed_a.wrapping_rem(signed_b) as u32,
        _ => a % b,
    }
}

fn high(product: i64) -> u32 {
    (product >> 32) as u32
}
