//! States in slots.
use crate::error::{ask, Error};
use crate::{State, RECORD};
use phuyurik_sys as sys;

/// Slots over a buffer: records of 144 bytes, one after the other. The buffer may be owned or lent; it
/// is written to where it lets itself be.
///
/// ```
/// use phuyurik::{Error, Refusal, Slots, State, RECORD};
/// let mut slots = Slots::new(vec![0; 3 * RECORD]);
/// let mut state = State::fresh();
/// state.pc = 0x20;
/// slots.write(1, &state)?;
/// assert_eq!(slots.read(1)?, state);
/// assert_eq!(slots.read(3), Err(Error::Refused(Refusal::Slot)));
/// # Ok::<(), Error>(())
/// ```
#[derive(Clone, Debug, PartialEq, Eq, Hash)]
pub struct Slots<B>(B);

impl<B> Slots<B> {
    /// The slots of a buffer. Its length and what it holds are looked at when a slot is used.
    ///
    /// ```
    /// use phuyurik::{Slots, RECORD};
    /// let mut bytes = [0; 2 * RECORD];
    /// assert_eq!(Slots::new(&bytes).len(), 2);
    /// assert_eq!(Slots::new(&mut bytes[..RECORD]).len(), 1);
    /// ```
    pub const fn new(buffer: B) -> Slots<B> {
        Slots(buffer)
    }

    /// The buffer.
    ///
    /// ```
    /// use phuyurik::Slots;
    /// assert_eq!(Slots::new(vec![1, 2]).into_inner(), [1, 2]);
    /// ```
    pub fn into_inner(self) -> B {
        self.0
    }
}

impl<B: AsRef<[u8]>> Slots<B> {
    /// How many whole slots there are. In a buffer that is no multiple of 144 bytes none can be used.
    ///
    /// ```
    /// use phuyurik::{Slots, RECORD};
    /// assert_eq!(Slots::new(vec![0; 3 * RECORD]).len(), 3);
    /// ```
    pub fn len(&self) -> usize {
        self.0.as_ref().len() / RECORD
    }

    /// Whether there is no whole slot.
    ///
    /// ```
    /// assert!(phuyurik::Slots::new([]).is_empty());
    /// ```
    pub fn is_empty(&self) -> bool {
        self.len() == 0
    }

    /// The state in slot `k`. The slot and the record in it may be refused.
    ///
    /// ```
    /// use phuyurik::{Refusal, Slots, State, RECORD};
    /// let mut bytes = [0; RECORD];
    /// assert_eq!(Slots::new(&bytes).read(0), Ok(State::fresh()));
    /// bytes[143] = 1;
    /// assert_eq!(Slots::new(&bytes).read(0), Err(Refusal::RecordEnd.into()));
    /// ```
    pub fn read(&self, k: usize) -> Result<State, Error> {
        let slots = self.0.as_ref();
        let mut state = State::fresh();
        // SAFETY: the buffer and the place are lent for the call alone, the buffer to be read.
        ask(|| unsafe {
            sys::phuyurik_read_slot(state.lent_mut(), slots.as_ptr(), slots.len(), k)
        })?;
        Ok(state)
    }
}

impl<B: AsMut<[u8]>> Slots<B> {
    /// A state into slot `k`; no other byte changes. The slot and the state may be refused.
    ///
    /// ```
    /// use phuyurik::{Refusal, Slots, State, RECORD};
    /// let mut bytes = [0; RECORD];
    /// let mut state = State::fresh();
    /// state.count = 5;
    /// Slots::new(&mut bytes).write(0, &state)?;
    /// assert_eq!(bytes, state.to_bytes());
    /// state.pc = 1;
    /// assert_eq!(Slots::new(&mut bytes).write(0, &state), Err(Refusal::OddPc.into()));
    /// # Ok::<(), phuyurik::Error>(())
    /// ```
    pub fn write(&mut self, k: usize, state: &State) -> Result<(), Error> {
        let slots = self.0.as_mut();
        // SAFETY: as above; the state is only read, and nothing else has hold of the buffer.
        ask(|| unsafe {
            sys::phuyurik_write_slot(state.lent(), slots.as_mut_ptr(), slots.len(), k)
        })
    }

    pub(crate) fn bytes_mut(&mut self) -> &mut [u8] {
        self.0.as_mut()
    }
}
