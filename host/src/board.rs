//! Steps and runs.
use crate::error::{ask, Error};
use crate::{Masks, Slots, State};
use phuyurik_sys as sys;

/// What a recipe runs on: main memory, at address 0, and the fuse row of the part, lent once for any
/// number of steps and runs. Whether they are sound is looked at in each. A record of the row that breaks
/// its rules is refused with its word ([`Error::RowRecord`]).
///
/// ```
/// use phuyurik::{Board, Error, Row, State, Stop, Word};
/// // addi x5,x0,7; lui x6,524288; sw x5,0(x6); ecall
/// let mut memory = [0x9D, 0x42, 0x37, 0x03, 0x00, 0x80, 0x23, 0x20, 0x53, 0x00, 0x73, 0, 0, 0];
/// let mut row = Row::default();
/// let mut board = Board::new(&mut memory, &mut row);
/// let mut state = State::fresh();
/// board.step(&mut state)?;
/// assert_eq!(board.run(&mut state, 100)?, 2);
/// assert_eq!((state.stop(), state.pc), (Ok(Stop::Ecall), 10));
/// assert_eq!(row.word(0), Word::Burnt(7));
/// row.as_mut()[8 * 17 + 4] = 1; // a mark with value 0
/// let error = Board::new(&mut memory, &mut row).step(&mut state).unwrap_err();
/// assert_eq!(error, Error::RowRecord { word: 17 });
/// assert_eq!(error.to_string(), "refusal 3: record of word 17 breaks its rules");
/// # Ok::<(), Error>(())
/// ```
#[derive(Debug)]
pub struct Board<'a> {
    memory: &'a mut [u8],
    row: &'a mut [u8],
    masks: Masks,
}

impl<'a> Board<'a> {
    /// A board of this memory and this row, which may be a [`Row`](crate::Row) or any bytes.
    ///
    /// ```
    /// use phuyurik::{Board, Row, ROW};
    /// let mut memory = vec![0; 64];
    /// Board::new(&mut memory, &mut Row::default());
    /// Board::new(&mut memory, &mut [0; ROW]);
    /// Board::new(&mut memory[..32], &mut vec![0; ROW]);
    /// ```
    pub fn new<R: AsMut<[u8]> + ?Sized>(memory: &'a mut [u8], row: &'a mut R) -> Board<'a> {
        Board::shared(memory, row, Masks::default())
    }

    /// As [`Board::new`], of a row that two recipes share: each has a board of its own, with its own
    /// memory and with the masks of the other's swapped. A load or store at a word that is not the
    /// recipe's own stops with [`Stop::NotOwned`](crate::Stop::NotOwned). However the runs of both are cut
    /// and take turns, each comes to the end that it would have come to alone. The masks stay those of
    /// the board; whoever makes another board to carry a run on gives it the same ones.
    ///
    /// ```
    /// use phuyurik::{Board, Error, Masks, Row, State, Stop, Word, Words};
    /// // addi x5,x0,7; lui x6,524288; sw x5,0(x6); ecall
    /// let recipe = [0x9D, 0x42, 0x37, 0x03, 0x00, 0x80, 0x23, 0x20, 0x53, 0x00, 0x73, 0, 0, 0];
    /// let masks = Masks { own: Words::span(0, 31), other: Words::span(32, 63) };
    /// let (mut memory, mut others, mut row) = (recipe, recipe, Row::default());
    /// let (mut state, mut other) = (State::fresh(), State::fresh());
    /// Board::shared(&mut memory, &mut row, masks).run(&mut state, 2)?;
    /// Board::shared(&mut others, &mut row, masks.swapped()).run(&mut other, 100)?;
    /// assert_eq!((other.stop(), other.address()), (Ok(Stop::NotOwned), 0x8000_0000));
    /// Board::shared(&mut memory, &mut row, masks).run(&mut state, 100)?;
    /// assert_eq!((state.stop(), row.word(0)), (Ok(Stop::Ecall), Word::Burnt(7)));
    /// # Ok::<(), Error>(())
    /// ```
    ///
    /// Masks that share a word are refused by each step and run:
    ///
    /// ```
    /// use phuyurik::{Board, Masks, Refusal, Row, State, Words};
    /// let masks = Masks { own: Words::ALL, other: Words::span(32, 63) };
    /// let refused = Board::shared(&mut [], &mut Row::default(), masks).run(&mut State::fresh(), 1);
    /// assert_eq!(refused, Err(Refusal::MasksShare.into()));
    /// assert_eq!(masks.shared().to_string(), "32-63");
    /// ```
    pub fn shared<R: AsMut<[u8]> + ?Sized>(
        memory: &'a mut [u8],
        row: &'a mut R,
        masks: Masks,
    ) -> Board<'a> {
        let row = row.as_mut();
        Board { memory, row, masks }
    }

    /// One step; a state that has stopped stays as it is. Memory, row, masks and state may be refused.
    ///
    /// ```
    /// use phuyurik::{Board, Row, State};
    /// let (mut memory, mut row) = ([0x93, 0x00, 0x70, 0x00], Row::default());
    /// let mut state = State::fresh();
    /// Board::new(&mut memory, &mut row).step(&mut state)?;
    /// assert_eq!((state.pc, state.reg(1), state.count), (4, 7, 1));
    /// # Ok::<(), phuyurik::Error>(())
    /// ```
    pub fn step(&mut self, state: &mut State) -> Result<(), Error> {
        let (memory, row, masks) = (&mut *self.memory, &mut *self.row, self.masks);
        // SAFETY: every buffer and place is lent for the call alone, and no two of them overlap; a
        // `State` is laid out as the C interface's.
        ask_of_row(|word| unsafe {
            let (state, mem, size) = (state.lent_mut(), memory.as_mut_ptr(), memory.len());
            let (row, row_size) = (row.as_mut_ptr(), row.len());
            if masks == Masks::default() {
                return sys::phuyurik_step(state, mem, size, row, row_size, word);
            }
            let (own, other) = (masks.own.mask(), masks.other.mask());
            sys::phuyurik_step_masked(state, mem, size, row, row_size, own, other, word)
        })
    }

    /// Steps while the state is paused and fewer than `budget` have retired; the number retired.
    /// Memory, row, masks and state may be refused.
    ///
    /// ```
    /// use phuyurik::{Board, Refusal, Row, State, Stop};
    /// let (mut memory, mut row) = ([0x01, 0xA0], Row::default()); // jal x0,0
    /// let mut state = State::fresh();
    /// let mut board = Board::new(&mut memory, &mut row);
    /// assert_eq!(board.run(&mut state, 1000)?, 1000);
    /// assert_eq!(state.stop(), Ok(Stop::Paused));
    /// state.pc = 1;
    /// assert_eq!(board.run(&mut state, 1000), Err(Refusal::OddPc.into()));
    /// # Ok::<(), phuyurik::Error>(())
    /// ```
    pub fn run(&mut self, state: &mut State, budget: u64) -> Result<u64, Error> {
        let (memory, row, masks) = (&mut *self.memory, &mut *self.row, self.masks);
        let mut retired = 0;
        // SAFETY: as above.
        ask_of_row(|word| unsafe {
            let (state, mem, size) = (state.lent_mut(), memory.as_mut_ptr(), memory.len());
            let (row, row_size, done) = (row.as_mut_ptr(), row.len(), &mut retired);
            // the call without masks is the quicker one
            if masks == Masks::default() {
                return sys::phuyurik_run(state, mem, size, row, row_size, budget, done, word);
            }
            let (own, other) = (masks.own.mask(), masks.other.mask());
            sys::phuyurik_run_masked(
                state, mem, size, row, row_size, own, other, budget, done, word,
            )
        })?;
        Ok(retired)
    }

    /// Reads slot `k`, runs it as [`Board::run`] does and writes it back; the number retired. However
    /// a budget is cut into such calls, the end is that of the whole budget. Memory, row, masks, the
    /// slot and the record in it may be refused.
    ///
    /// ```
    /// use phuyurik::{Board, Row, Slots, RECORD};
    /// let (mut memory, mut row) = ([0x01, 0xA0], Row::default()); // jal x0,0
    /// let mut slots = Slots::new(vec![0; 2 * RECORD]);
    /// let mut board = Board::new(&mut memory, &mut row);
    /// for budget in [3, 0, 4] {
    ///     assert_eq!(board.run_slot(&mut slots, 1, budget)?, budget);
    /// }
    /// assert_eq!((slots.read(0)?.count, slots.read(1)?.count), (0, 7));
    /// # Ok::<(), phuyurik::Error>(())
    /// ```
    pub fn run_slot<B: AsMut<[u8]>>(
        &mut self,
        slots: &mut Slots<B>,
        k: usize,
        budget: u64,
    ) -> Result<u64, Error> {
        let (memory, row, masks) = (&mut *self.memory, &mut *self.row, self.masks);
        let slots = slots.bytes_mut();
        let mut retired = 0;
        // SAFETY: as above.
        ask_of_row(|word| unsafe {
            let (mem, size, row, row_size) = (
                memory.as_mut_ptr(),
                memory.len(),
                row.as_mut_ptr(),
                row.len(),
            );
            let (slots, slots_size, done) = (slots.as_mut_ptr(), slots.len(), &mut retired);
            if masks == Masks::default() {
                return sys::phuyurik_run_slot(
                    mem, size, row, row_size, slots, slots_size, k, budget, done, word,
                );
            }
            let (own, other) = (masks.own.mask(), masks.other.mask());
            sys::phuyurik_run_slot_masked(
                mem, size, row, row_size, slots, slots_size, k, own, other, budget, done, word,
            )
        })?;
        Ok(retired)
    }

    /// The memory as it is now.
    ///
    /// ```
    /// use phuyurik::{Board, Row};
    /// assert_eq!(Board::new(&mut [1, 2], &mut Row::default()).memory(), [1, 2]);
    /// ```
    pub fn memory(&self) -> &[u8] {
        self.memory
    }

    /// The memory, to be written between runs: what a recipe asked for with an ecall, say.
    ///
    /// ```
    /// use phuyurik::{Board, Row};
    /// let (mut memory, mut row) = ([0; 4], Row::default());
    /// let mut board = Board::new(&mut memory, &mut row);
    /// board.memory_mut()[0] = 7;
    /// assert_eq!(memory, [7, 0, 0, 0]);
    /// ```
    pub fn memory_mut(&mut self) -> &mut [u8] {
        self.memory
    }

    /// The row as it is now.
    ///
    /// ```
    /// use phuyurik::{Board, Row, ROW};
    /// assert_eq!(Board::new(&mut [], &mut Row::default()).row(), [0; ROW]);
    /// ```
    pub fn row(&self) -> &[u8] {
        self.row
    }

    /// Whose the words of the row are.
    ///
    /// ```
    /// use phuyurik::{Board, Masks, Row};
    /// assert_eq!(Board::new(&mut [], &mut Row::default()).masks(), Masks::default());
    /// ```
    pub const fn masks(&self) -> Masks {
        self.masks
    }
}

/// Asks the archive with a place for the word that a refused row tells.
#[inline]
fn ask_of_row(call: impl FnOnce(&mut usize) -> u32) -> Result<(), Error> {
    let mut word = 0;
    ask(|| call(&mut word)).map_err(|error| error.of_word(word))
}
