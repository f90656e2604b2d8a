//! The plain C interpreter, behind a safe function.

/// As `struct plain` in plain.h: `x[0]` is x0.
#[repr(C)]
#[derive(Clone, Debug, PartialEq, Eq)]
pub struct State {
    pub pc: u32,
    pub x: [u32; 32],
    pub count: u64,
    pub stop: u8,
}

impl State {
    pub fn fresh() -> State {
        State {
            pc: 0,
            x: [0; 32],
            count: 0,
            stop: 0,
        }
    }
}

extern "C" {
    fn plain_run(
        state: *mut State,
        memory: *mut u8,
        length: usize,
        row: *mut u8,
        budget: u64,
    ) -> u64;
}

/// A run of at most `budget` steps; the number retired. The C side checks nothing, so this does.
pub fn run(state: &mut State, memory: &mut [u8], row: &mut [u8], budget: u64) -> u64 {
    assert!(memory.len() <= phuyurik::LONGEST_MEMORY && row.len() == phuyurik::ROW);
    // SAFETY: the buffers are lent for the call alone and have the lengths that the C side goes by.
    unsafe {
        plain_run(
            state,
            memory.as_mut_ptr(),
            memory.len(),
            row.as_mut_ptr(),
            budget,
        )
    }
}
