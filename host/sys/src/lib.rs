//! The archive's functions and types, as `include/phuyurik.h` declares them, and nothing more: what
//! each does, and what a caller owes it, is said there. The package `phuyurik` has them in Rust's
//! own types, and without `unsafe`.
//!
//! ```
//! use phuyurik_sys::{phuyurik_step, phuyurik_version, State, VERSION};
//! let (mut state, mut memory, mut row) = (State::default(), [0x93, 0x00, 0x70, 0x00], [0; 512]);
//! let mut word = 0;
//! // SAFETY: each buffer has as many bytes as is said, and they do not overlap.
//! unsafe {
//!     assert_eq!(phuyurik_version(), VERSION);
//!     let (memory, row) = (memory.as_mut_ptr(), row.as_mut_ptr());
//!     assert_eq!(phuyurik_step(&mut state, memory, 4, row, 512, &mut word), 0);
//! }
//! assert_eq!((state.pc, state.x[0], state.count), (4, 7, 1));
//! ```
#![no_std]
#![warn(missing_docs)]

use core::mem::{offset_of, size_of};

const _: () = assert!(
    usize::BITS == 64,
    "the library's sizes and slot numbers have 64 bits, and so must usize"
);
const _: () = assert!(
    cfg!(target_endian = "little"),
    "a state in memory is its record, which is little-endian, and so must the machine be"
);

/// This package's version as one number, major * 65536 + minor * 256 + patch. That of the archive is
/// [`phuyurik_version`]'s, and must be the same.
///
/// ```
/// // SAFETY: it is lent nothing.
/// assert_eq!(phuyurik_sys::VERSION, unsafe { phuyurik_sys::phuyurik_version() });
/// ```
pub const VERSION: u32 = number(env!("CARGO_PKG_VERSION_MAJOR")) * 65_536
    + number(env!("CARGO_PKG_VERSION_MINOR")) * 256
    + number(env!("CARGO_PKG_VERSION_PATCH"));

const fn number(digits: &str) -> u32 {
    let digits = digits.as_bytes();
    let (mut value, mut at) = (0, 0);
    while at < digits.len() {
        value = value * 10 + (digits[at] - b'0') as u32;
        at += 1;
    }
    value
}

/// `phuyurik_inst`: an operation's number and the operands, 0 for each that it does not have.
///
/// ```
/// assert_eq!(size_of::<phuyurik_sys::Instruction>(), 20);
/// ```
#[repr(C)]
#[derive(Clone, Copy, Debug, Default, PartialEq, Eq, Hash)]
pub struct Instruction {
    /// The operation, 0 to 47 in the paper's order.
    pub operation: u32,
    /// The register that is written.
    pub rd: u32,
    /// The first register that is read.
    pub rs1: u32,
    /// The second register that is read.
    pub rs2: u32,
    /// The immediate, offset, field or shift amount.
    pub imm: u32,
}

/// `phuyurik_state`: its bytes in memory are those of its record in a slot.
///
/// ```
/// assert_eq!(size_of::<phuyurik_sys::State>(), 144);
/// ```
#[repr(C)]
#[derive(Clone, Copy, Debug, Default, PartialEq, Eq, Hash)]
pub struct State {
    /// The address of the next instruction.
    pub pc: u32,
    /// The registers; `x[0]` is x1.
    pub x: [u32; 31],
    /// The steps retired so far.
    pub count: u64,
    /// The number of a stop, 0 while the state is paused.
    pub stop: u8,
    /// Zero.
    pub zero: [u8; 3],
    /// The address that belongs to the stop, 0 where it has none.
    pub address: u32,
}

const _: () = {
    assert!(size_of::<State>() == 144, "a state is its record");
    assert!(offset_of!(State, pc) == 0);
    assert!(offset_of!(State, x) == 4);
    assert!(offset_of!(State, count) == 128);
    assert!(offset_of!(State, stop) == 136);
    assert!(offset_of!(State, zero) == 137);
    assert!(offset_of!(State, address) == 140);
    assert!(size_of::<Instruction>() == 20);
    assert!(offset_of!(Instruction, operation) == 0);
    assert!(offset_of!(Instruction, imm) == 16);
};

// Each answers 0 or a refusal's number, but for the version.
extern "C" {
    /// The archive's version, as [`VERSION`] is this package's.
    ///
    /// ```
    /// assert_eq!(unsafe { phuyurik_sys::phuyurik_version() }, phuyurik_sys::VERSION);
    /// ```
    pub fn phuyurik_version() -> u32;
    /// The format class of 32 bits.
    ///
    /// ```
    /// let mut format = 0;
    /// // SAFETY: what is lent has the sizes that are said, and nothing overlaps.
    /// assert_eq!(unsafe { phuyurik_sys::phuyurik_chart(0x73, &mut format) }, 0);
    /// assert_eq!(format, 2);
    /// ```
    pub fn phuyurik_chart(bits: u32, format: *mut u8) -> u32;
    /// What 32 bits mean.
    ///
    /// ```
    /// let mut inst = Default::default();
    /// // SAFETY: what is lent has the sizes that are said, and nothing overlaps.
    /// assert_eq!(unsafe { phuyurik_sys::phuyurik_decode(0x73, &mut inst) }, 0);
    /// assert_eq!(inst.operation, 38);
    /// ```
    pub fn phuyurik_decode(bits: u32, inst: *mut Instruction) -> u32;
    /// What 16 bits mean.
    ///
    /// ```
    /// let mut inst = Default::default();
    /// // SAFETY: what is lent has the sizes that are said, and nothing overlaps.
    /// assert_eq!(unsafe { phuyurik_sys::phuyurik_expand(0x9002, &mut inst) }, 0);
    /// assert_eq!(inst.operation, 39);
    /// ```
    pub fn phuyurik_expand(bits: u16, inst: *mut Instruction) -> u32;
    /// The word of an instruction.
    ///
    /// ```
    /// let inst = phuyurik_sys::Instruction { operation: 38, ..Default::default() };
    /// let mut bits = 0;
    /// // SAFETY: what is lent has the sizes that are said, and nothing overlaps.
    /// assert_eq!(unsafe { phuyurik_sys::phuyurik_encode(&inst, &mut bits) }, 0);
    /// assert_eq!(bits, 0x73);
    /// ```
    pub fn phuyurik_encode(inst: *const Instruction, bits: *mut u32) -> u32;
    /// The smallest halfword that stands for an instruction.
    ///
    /// ```
    /// let inst = phuyurik_sys::Instruction { operation: 39, ..Default::default() };
    /// let mut bits = 0;
    /// // SAFETY: what is lent has the sizes that are said, and nothing overlaps.
    /// assert_eq!(unsafe { phuyurik_sys::phuyurik_shorten(&inst, &mut bits) }, 0);
    /// assert_eq!(bits, 0x9002);
    /// ```
    pub fn phuyurik_shorten(inst: *const Instruction, bits: *mut u16) -> u32;
    /// The text of 32 bits.
    ///
    /// ```
    /// let (mut room, mut length) = ([0; 24], 0);
    /// // SAFETY: what is lent has the sizes that are said, and nothing overlaps.
    /// unsafe { phuyurik_sys::phuyurik_text_of_word(0x73, room.as_mut_ptr(), 24, &mut length) };
    /// assert_eq!(&room[..length], b"ecall");
    /// ```
    pub fn phuyurik_text_of_word(
        bits: u32,
        room: *mut u8,
        room_size: usize,
        length: *mut usize,
    ) -> u32;
    /// The text of 16 bits.
    ///
    /// ```
    /// let (mut room, mut length) = ([0; 24], 0);
    /// // SAFETY: what is lent has the sizes that are said, and nothing overlaps.
    /// unsafe { phuyurik_sys::phuyurik_text_of_half(0x9002, room.as_mut_ptr(), 24, &mut length) };
    /// assert_eq!(&room[..length], b"c:ebreak");
    /// ```
    pub fn phuyurik_text_of_half(
        bits: u16,
        room: *mut u8,
        room_size: usize,
        length: *mut usize,
    ) -> u32;
    /// The text of an instruction.
    ///
    /// ```
    /// let inst = phuyurik_sys::Instruction { operation: 38, ..Default::default() };
    /// let (mut room, mut length) = ([0; 24], 0);
    /// // SAFETY: what is lent has the sizes that are said, and nothing overlaps.
    /// unsafe { phuyurik_sys::phuyurik_text_of(&inst, room.as_mut_ptr(), 24, &mut length) };
    /// assert_eq!(&room[..length], b"ecall");
    /// ```
    pub fn phuyurik_text_of(
        inst: *const Instruction,
        room: *mut u8,
        room_size: usize,
        length: *mut usize,
    ) -> u32;
    /// Whole lines of an image's listing.
    ///
    /// ```
    /// let (image, mut room, mut length, mut next) = ([0x01], [0; 38], 0, 0);
    /// // SAFETY: what is lent has the sizes that are said, and nothing overlaps.
    /// unsafe {
    ///     let room = room.as_mut_ptr();
    ///     phuyurik_sys::phuyurik_list(image.as_ptr(), 1, 0, room, 38, &mut length, &mut next);
    /// }
    /// assert_eq!((&room[..length], next), (&b"00000000 01 ?\n"[..], 1));
    /// ```
    pub fn phuyurik_list(
        image: *const u8,
        image_size: usize,
        from: usize,
        room: *mut u8,
        room_size: usize,
        length: *mut usize,
        next: *mut usize,
    ) -> u32;
    /// The instructions of lines of text.
    ///
    /// ```
    /// let (text, mut room, mut length, mut line, mut byte) = (b"ecall\nebroke\n", [0; 13], 0, 9, 9);
    /// // SAFETY: what is lent has the sizes that are said, and nothing overlaps.
    /// let mut assemble = |size| unsafe {
    ///     let (text, room) = (text.as_ptr(), room.as_mut_ptr());
    ///     phuyurik_sys::phuyurik_assemble(text, size, room, 13, &mut length, &mut line, &mut byte)
    /// };
    /// assert_eq!((assemble(6), assemble(13)), (0, 10));
    /// assert_eq!((&room[..length], line, byte), (&[0x73, 0, 0, 0][..], 1, 3));
    /// ```
    pub fn phuyurik_assemble(
        text: *const u8,
        text_size: usize,
        room: *mut u8,
        room_size: usize,
        length: *mut usize,
        line: *mut usize,
        byte: *mut usize,
    ) -> u32;
    /// One step.
    ///
    /// ```
    /// let (mut state, mut row, mut word) = (phuyurik_sys::State::default(), [0; 512], 99);
    /// let mut memory = [0x93, 0x00, 0x70, 0x00]; // addi x1,x0,7
    /// // SAFETY: what is lent has the sizes that are said, and nothing overlaps.
    /// let mut step = |row: &mut [u8; 512]| unsafe {
    ///     let (memory, row) = (memory.as_mut_ptr(), row.as_mut_ptr());
    ///     phuyurik_sys::phuyurik_step(&mut state, memory, 4, row, 512, &mut word)
    /// };
    /// assert_eq!(step(&mut row), 0);
    /// row[8 * 17 + 4] = 1; // a mark with value 0
    /// assert_eq!(step(&mut row), 3);
    /// assert_eq!((state.pc, state.x[0], word), (4, 7, 17));
    /// ```
    pub fn phuyurik_step(
        state: *mut State,
        mem: *mut u8,
        mem_size: usize,
        row: *mut u8,
        row_size: usize,
        word: *mut usize,
    ) -> u32;
    /// A run of at most `budget` steps.
    ///
    /// ```
    /// let (mut state, mut row) = (phuyurik_sys::State::default(), [0; 512]);
    /// let mut memory = [0x93, 0x00, 0x70, 0x00]; // addi x1,x0,7
    /// let (mut retired, mut word) = (0, 99);
    /// // SAFETY: what is lent has the sizes that are said, and nothing overlaps.
    /// unsafe {
    ///     let (memory, row) = (memory.as_mut_ptr(), row.as_mut_ptr());
    ///     phuyurik_sys::phuyurik_run(&mut state, memory, 4, row, 512, 9, &mut retired, &mut word);
    /// }
    /// assert_eq!((state.stop, state.address, retired, word), (4, 4, 1, 99));
    /// ```
    pub fn phuyurik_run(
        state: *mut State,
        mem: *mut u8,
        mem_size: usize,
        row: *mut u8,
        row_size: usize,
        budget: u64,
        retired: *mut u64,
        word: *mut usize,
    ) -> u32;
    /// A state into a slot.
    ///
    /// ```
    /// let (state, mut slots) = (phuyurik_sys::State { pc: 2, ..Default::default() }, [0; 144]);
    /// // SAFETY: what is lent has the sizes that are said, and nothing overlaps.
    /// unsafe { phuyurik_sys::phuyurik_write_slot(&state, slots.as_mut_ptr(), 144, 0) };
    /// assert_eq!(slots[..4], [2, 0, 0, 0]);
    /// ```
    pub fn phuyurik_write_slot(
        state: *const State,
        slots: *mut u8,
        slots_size: usize,
        k: usize,
    ) -> u32;
    /// The state in a slot.
    ///
    /// ```
    /// let (mut state, mut slots) = (phuyurik_sys::State::default(), [0; 144]);
    /// slots[0] = 2;
    /// // SAFETY: what is lent has the sizes that are said, and nothing overlaps.
    /// unsafe { phuyurik_sys::phuyurik_read_slot(&mut state, slots.as_ptr(), 144, 0) };
    /// assert_eq!(state.pc, 2);
    /// ```
    pub fn phuyurik_read_slot(
        state: *mut State,
        slots: *const u8,
        slots_size: usize,
        k: usize,
    ) -> u32;
    /// A run of the state in a slot.
    ///
    /// ```
    /// let (mut row, mut slots, mut retired, mut word) = ([0; 512], [0; 144], 0, 99);
    /// let mut memory = [0x93, 0x00, 0x70, 0x00]; // addi x1,x0,7
    /// // SAFETY: what is lent has the sizes that are said, and nothing overlaps.
    /// unsafe {
    ///     let (memory, row, slots) = (memory.as_mut_ptr(), row.as_mut_ptr(), slots.as_mut_ptr());
    ///     let places = (&mut retired, &mut word);
    ///     phuyurik_sys::phuyurik_run_slot(memory, 4, row, 512, slots, 144, 0, 9, places.0, places.1);
    /// }
    /// assert_eq!((slots[136], slots[140], retired, word), (4, 4, 1, 99));
    /// ```
    pub fn phuyurik_run_slot(
        mem: *mut u8,
        mem_size: usize,
        row: *mut u8,
        row_size: usize,
        slots: *mut u8,
        slots_size: usize,
        k: usize,
        budget: u64,
        retired: *mut u64,
        word: *mut usize,
    ) -> u32;
    /// One step of a recipe that owns the words of the mask `own` alone.
    ///
    /// ```
    /// let (mut state, mut row, mut word) = (phuyurik_sys::State::default(), [0; 512], 99);
    /// let mut memory = [0x83, 0xA0, 0xC0, 0x00]; // lw x1,12(x1)
    /// state.x[0] = 0x8000_0000;
    /// // SAFETY: what is lent has the sizes that are said, and nothing overlaps.
    /// let mut step = |own, other| unsafe {
    ///     let (memory, row) = (memory.as_mut_ptr(), row.as_mut_ptr());
    ///     phuyurik_sys::phuyurik_step_masked(&mut state, memory, 4, row, 512, own, other, &mut word)
    /// };
    /// assert_eq!((step(0b1100, 0b0100), step(0b0100, 0b1000)), (16, 0));
    /// assert_eq!((state.stop, state.address, state.count, word), (11, 0x8000_000C, 0, 99));
    /// ```
    pub fn phuyurik_step_masked(
        state: *mut State,
        mem: *mut u8,
        mem_size: usize,
        row: *mut u8,
        row_size: usize,
        own: u64,
        other: u64,
        word: *mut usize,
    ) -> u32;
    /// A run of such a recipe.
    ///
    /// ```
    /// let (mut state, mut row) = (phuyurik_sys::State::default(), [0; 512]);
    /// let mut memory = [0x83, 0xA0, 0xC0, 0x00]; // lw x1,12(x1)
    /// state.x[0] = 0x8000_0000;
    /// let (own, other, mut retired, mut word) = (0b1000, 0b0111, 0, 99);
    /// // SAFETY: what is lent has the sizes that are said, and nothing overlaps.
    /// unsafe {
    ///     let (memory, row) = (memory.as_mut_ptr(), row.as_mut_ptr());
    ///     let places = (&mut retired, &mut word);
    ///     phuyurik_sys::phuyurik_run_masked(
    ///         &mut state, memory, 4, row, 512, own, other, 9, places.0, places.1,
    ///     );
    /// }
    /// assert_eq!((state.stop, state.x[0], retired, word), (4, 0, 1, 99));
    /// ```
    pub fn phuyurik_run_masked(
        state: *mut State,
        mem: *mut u8,
        mem_size: usize,
        row: *mut u8,
        row_size: usize,
        own: u64,
        other: u64,
        budget: u64,
        retired: *mut u64,
        word: *mut usize,
    ) -> u32;
    /// A run of such a recipe, of the state in a slot.
    ///
    /// ```
    /// let (mut row, mut slots, mut retired, mut word) = ([0; 512], [0; 144], 99, 99);
    /// let mut memory = [0x83, 0xA0, 0xC0, 0x00]; // lw x1,12(x1)
    /// slots[7] = 0x80; // x1 is 0x80000000
    /// // SAFETY: what is lent has the sizes that are said, and nothing overlaps.
    /// unsafe {
    ///     let (memory, row, slots) = (memory.as_mut_ptr(), row.as_mut_ptr(), slots.as_mut_ptr());
    ///     let (own, other, places) = (0b0111, 0b1000, (&mut retired, &mut word));
    ///     phuyurik_sys::phuyurik_run_slot_masked(
    ///         memory, 4, row, 512, slots, 144, 0, own, other, 9, places.0, places.1,
    ///     );
    /// }
    /// assert_eq!((slots[136], slots[140], slots[143], retired, word), (11, 12, 0x80, 0, 99));
    /// ```
    pub fn phuyurik_run_slot_masked(
        mem: *mut u8,
        mem_size: usize,
        row: *mut u8,
        row_size: usize,
        slots: *mut u8,
        slots_size: usize,
        k: usize,
        own: u64,
        other: u64,
        budget: u64,
        retired: *mut u64,
        word: *mut usize,
    ) -> u32;
}
