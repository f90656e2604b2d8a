//! A state: what a recipe's run has come to, but for memory and row.
use crate::{Stop, UnknownNumber, RECORD};
use phuyurik_sys as sys;
use std::mem::{align_of, offset_of, size_of};

/// A state: pc, x1 to x31, the retired count, a stop number and the address that belongs to the stop.
/// Its bytes in memory are those of its record in a slot. Any numbers may stand here: whatever
/// would use a state refuses it with the first that applies of
/// [`Refusal::OddPc`](crate::Refusal::OddPc), for an odd pc,
/// [`Refusal::StopNumber`](crate::Refusal::StopNumber), for a number that is no stop's, and
/// [`Refusal::RecordEnd`](crate::Refusal::RecordEnd), for an address where the stop has none, or bytes
/// between stop number and address that are not zero.
///
/// ```
/// use phuyurik::{State, Stop};
/// let mut state = State::default();
/// assert_eq!(state, State::fresh());
/// state.pc = 0x20;
/// state.set_reg(1, 99);
/// assert_eq!((state.pc, state.reg(1), state.count), (0x20, 99, 0));
/// assert_eq!(state.stop(), Ok(Stop::Paused));
/// ```
///
/// A state may come to have more parts, so that it is made as above and not written out:
///
/// ```compile_fail
/// let state = phuyurik::State { pc: 0x20, ..phuyurik::State::fresh() };
/// ```
#[repr(C)]
#[derive(Clone, Copy, Debug, Default, PartialEq, Eq, Hash)]
pub struct State {
    /// The address of the next instruction, or of the one that stopped.
    pub pc: u32,
    x: [u32; 31],
    /// The steps retired so far.
    pub count: u64,
    stop_number: u8,
    zero: [u8; 3],
    address: u32,
}

// The archive is lent a `State` as the C interface's own.
const _: () = {
    assert!(size_of::<State>() == size_of::<sys::State>());
    assert!(align_of::<State>() == align_of::<sys::State>());
    assert!(offset_of!(State, pc) == offset_of!(sys::State, pc));
    assert!(offset_of!(State, x) == offset_of!(sys::State, x));
    assert!(offset_of!(State, count) == offset_of!(sys::State, count));
    assert!(offset_of!(State, stop_number) == offset_of!(sys::State, stop));
    assert!(offset_of!(State, zero) == offset_of!(sys::State, zero));
    assert!(offset_of!(State, address) == offset_of!(sys::State, address));
};

impl State {
    /// The start of a recipe: all zero.
    ///
    /// ```
    /// assert_eq!(phuyurik::State::fresh().to_bytes(), [0; phuyurik::RECORD]);
    /// ```
    pub const fn fresh() -> State {
        State {
            pc: 0,
            x: [0; 31],
            count: 0,
            stop_number: 0,
            zero: [0; 3],
            address: 0,
        }
    }

    /// Why the run does not go on; `Paused` where it can. The number may be no stop's, which is
    /// refused with [`Refusal::StopNumber`](crate::Refusal::StopNumber).
    ///
    /// ```
    /// use phuyurik::{State, Stop};
    /// let mut state = State::fresh();
    /// assert_eq!(state.stop(), Ok(Stop::Paused));
    /// state.set_stop_number(12);
    /// assert_eq!(state.stop().unwrap_err().to_string(), "no stop has the number 12");
    /// ```
    pub fn stop(&self) -> Result<Stop, UnknownNumber> {
        Stop::try_from(self.stop_number)
    }

    /// Gives the state this stop, also to let one go on that has stopped. What belongs to the old
    /// stop, its address, goes with it.
    ///
    /// ```
    /// use phuyurik::{State, Stop};
    /// let mut state = State::fresh();
    /// state.set_stop_at(Stop::LoadOutside, 0x1000);
    /// state.set_stop(Stop::Ebreak);
    /// assert_eq!((state.stop_number(), state.address()), (2, 0));
    /// ```
    pub fn set_stop(&mut self, stop: Stop) {
        self.set_stop_number(stop.number());
    }

    /// Gives the state this stop and its address, as a step that stops does. For a stop that has none
    /// ([`Stop::has_address`]) any address but 0 is refused with
    /// [`Refusal::RecordEnd`](crate::Refusal::RecordEnd).
    ///
    /// ```
    /// use phuyurik::{Board, Refusal, Row, State, Stop};
    /// let (mut row, mut state) = (Row::default(), State::fresh());
    /// let mut board = Board::new(&mut [], &mut row);
    /// state.set_stop_at(Stop::StoreOutside, 0x1000);
    /// assert_eq!(board.step(&mut state), Ok(()));
    /// assert_eq!((state.stop(), state.address()), (Ok(Stop::StoreOutside), 0x1000));
    /// state.set_stop_at(Stop::Ecall, 0x1000);
    /// assert_eq!(board.step(&mut state), Err(Refusal::RecordEnd.into()));
    /// ```
    pub fn set_stop_at(&mut self, stop: Stop, address: u32) {
        self.set_stop(stop);
        self.address = address;
    }

    /// Where the run stopped: pc for an illegal instruction, the halfword that could not be fetched
    /// (at pc, or at pc + 2), the address that was loaded from or stored to. For a stop that has
    /// none ([`Stop::has_address`]) it is 0, or the state is refused with
    /// [`Refusal::RecordEnd`](crate::Refusal::RecordEnd). It is 0, too, in a record that was written
    /// before there were addresses.
    ///
    /// ```
    /// use phuyurik::{Board, Row, State, Stop};
    /// let (mut memory, mut row) = ([0x83, 0x22, 0x00, 0x7D], Row::default()); // lw x5,2000(x0)
    /// let mut state = State::fresh();
    /// Board::new(&mut memory, &mut row).step(&mut state)?;
    /// assert_eq!((state.stop(), state.address()), (Ok(Stop::LoadOutside), 2000));
    /// # Ok::<(), phuyurik::Error>(())
    /// ```
    pub const fn address(&self) -> u32 {
        self.address
    }

    /// The number of the stop, as [`Stop::number`] gives it, whatever it is.
    ///
    /// ```
    /// assert_eq!(phuyurik::State::fresh().stop_number(), 0);
    /// ```
    pub const fn stop_number(&self) -> u8 {
        self.stop_number
    }

    /// As [`State::set_stop`], with any number: one of no stop is refused with
    /// [`Refusal::StopNumber`](crate::Refusal::StopNumber).
    ///
    /// ```
    /// use phuyurik::{Board, Refusal, Row, State};
    /// let mut state = State::fresh();
    /// state.set_stop_number(200);
    /// let refused = Board::new(&mut [], &mut Row::default()).step(&mut state);
    /// assert_eq!(refused, Err(Refusal::StopNumber.into()));
    /// ```
    pub fn set_stop_number(&mut self, number: u8) {
        self.stop_number = number;
        self.zero = [0; 3];
        self.address = 0;
    }

    /// Register `n`; x0 is 0.
    ///
    /// # Panics
    ///
    /// If `n` is above 31.
    ///
    /// ```
    /// assert_eq!(phuyurik::State::fresh().reg(31), 0);
    /// ```
    #[track_caller]
    pub fn reg(&self, n: usize) -> u32 {
        match place(n) {
            None => 0,
            Some(place) => self.x[place],
        }
    }

    /// Writes register `n`; x0 stays 0.
    ///
    /// # Panics
    ///
    /// If `n` is above 31.
    ///
    /// ```
    /// let mut state = phuyurik::State::fresh();
    /// state.set_reg(0, 7);
    /// state.set_reg(5, 7);
    /// assert_eq!((state.reg(0), state.reg(5)), (0, 7));
    /// ```
    #[track_caller]
    pub fn set_reg(&mut self, n: usize, value: u32) {
        if let Some(place) = place(n) {
            self.x[place] = value;
        }
    }

    /// All 32 registers, x0 among them.
    ///
    /// ```
    /// let mut state = phuyurik::State::fresh();
    /// state.set_reg(5, 7);
    /// assert_eq!(state.registers()[4..7], [0, 7, 0]);
    /// ```
    pub fn registers(&self) -> [u32; 32] {
        let mut registers = [0; 32];
        registers[1..].copy_from_slice(&self.x);
        registers
    }

    /// The bytes of its record, as they are: a state that is refused with
    /// [`Refusal::OddPc`](crate::Refusal::OddPc),
    /// [`Refusal::StopNumber`](crate::Refusal::StopNumber) or
    /// [`Refusal::RecordEnd`](crate::Refusal::RecordEnd) has a record that is refused so.
    ///
    /// ```
    /// let mut state = phuyurik::State::fresh();
    /// state.pc = 0x1234;
    /// assert_eq!(state.to_bytes()[..4], [0x34, 0x12, 0, 0]);
    /// ```
    pub fn to_bytes(&self) -> [u8; RECORD] {
        let mut bytes = [0; RECORD];
        bytes[..4].copy_from_slice(&self.pc.to_le_bytes());
        for (place, value) in bytes[4..128].chunks_exact_mut(4).zip(self.x) {
            place.copy_from_slice(&value.to_le_bytes());
        }
        bytes[128..136].copy_from_slice(&self.count.to_le_bytes());
        bytes[136] = self.stop_number;
        bytes[137..140].copy_from_slice(&self.zero);
        bytes[140..].copy_from_slice(&self.address.to_le_bytes());
        bytes
    }

    /// The state of which these are the bytes. Nothing is checked: it is
    /// [`Slots::read`](crate::Slots::read) that refuses, with
    /// [`Refusal::OddPc`](crate::Refusal::OddPc),
    /// [`Refusal::StopNumber`](crate::Refusal::StopNumber) or
    /// [`Refusal::RecordEnd`](crate::Refusal::RecordEnd), bytes that are no state's.
    ///
    /// ```
    /// use phuyurik::{State, RECORD};
    /// let mut bytes = [0; RECORD];
    /// bytes[136] = 200;
    /// let state = State::from_bytes(bytes);
    /// assert_eq!(state.stop_number(), 200);
    /// assert_eq!(state.to_bytes(), bytes);
    /// ```
    pub fn from_bytes(bytes: [u8; RECORD]) -> State {
        let word = |at: usize| {
            u32::from_le_bytes([bytes[at], bytes[at + 1], bytes[at + 2], bytes[at + 3]])
        };
        State {
            pc: word(0),
            x: std::array::from_fn(|place| word(4 + 4 * place)),
            count: u64::from(word(132)) << 32 | u64::from(word(128)),
            stop_number: bytes[136],
            zero: [bytes[137], bytes[138], bytes[139]],
            address: word(140),
        }
    }

    pub(crate) fn lent(&self) -> *const sys::State {
        std::ptr::from_ref(self).cast()
    }

    pub(crate) fn lent_mut(&mut self) -> *mut sys::State {
        std::ptr::from_mut(self).cast()
    }
}

/// Where register `n` stands; x0 stands nowhere.
#[track_caller]
fn place(n: usize) -> Option<usize> {
    assert!(n < 32, "no register x{n}: a state has x0 to x31");
    n.checked_sub(1)
}

#[cfg(test)]
mod tests {
    use super::*;

    #[test]
    fn every_byte_comes_back_from_its_own_place() {
        for at in 0..RECORD {
            let mut bytes = [0; RECORD];
            bytes[at] = 0xA5;
            assert_eq!(State::from_bytes(bytes).to_bytes(), bytes);
        }
        let bytes = std::array::from_fn(|at| at as u8);
        let state = State::from_bytes(bytes);
        assert_eq!((state.pc, state.reg(1)), (0x0302_0100, 0x0706_0504));
        assert_eq!((state.reg(31), state.stop_number), (0x7F7E_7D7C, 136));
        assert_eq!(state.count, 0x8786_8584_8382_8180);
        assert_eq!(state.address(), 0x8F8E_8D8C);
        assert_eq!(state.to_bytes(), bytes);
    }

    /// Whatever stood after the old stop's number is gone, the bytes that must be zero too.
    #[test]
    fn a_stop_is_set_whole() {
        let stopped = State::from_bytes(std::array::from_fn(|at| at as u8));
        let mut expected = stopped.to_bytes();
        expected[136..].copy_from_slice(&[2, 0, 0, 0, 0, 0, 0, 0]);
        let mut state = stopped;
        state.set_stop(Stop::Ebreak);
        assert_eq!(state.to_bytes(), expected);
        expected[136..].copy_from_slice(&[6, 0, 0, 0, 0x78, 0x56, 0x34, 0x12]);
        let mut state = stopped;
        state.set_stop_at(Stop::LoadOutside, 0x1234_5678);
        assert_eq!(state.to_bytes(), expected);
    }

    /// The bytes in memory are the record's, which is what the archive goes by.
    #[test]
    fn a_state_in_memory_is_its_record() {
        let state = State::from_bytes(std::array::from_fn(|at| at as u8));
        // SAFETY: a state is 144 bytes, all of them its fields'.
        let bytes: [u8; RECORD] = unsafe { std::mem::transmute(state) };
        assert_eq!(bytes, state.to_bytes());
    }

    #[test]
    fn registers_are_read_and_written_by_number() {
        for n in 1..32 {
            let mut state = State::fresh();
            state.set_reg(n, 7);
            assert_eq!(state.reg(n), 7);
            assert_eq!(state.registers()[n], 7);
            assert_eq!(state.to_bytes()[4 * n], 7);
            assert_eq!(state.registers().iter().sum::<u32>(), 7);
        }
    }

    #[test]
    #[should_panic(expected = "no register x32: a state has x0 to x31")]
    fn there_is_no_register_32() {
        State::fresh().reg(32);
    }
}
