//! Runs cut into pieces, each saved to any slot of either of two buffers: A and B by turns, one slot
//! again and again, two files.

use crate::scene::{self, Scene};
use crate::tally::{Check, Difference, Tally};
use phuyurik::{Error, Slots, RECORD};
use second::Masks;
use testing::Random;

/// Where a cut run stands: its memory and row, and the slot that holds its state.
struct Saved {
    mem: Vec<u8>,
    row: Vec<u8>,
    buffers: [Vec<u8>; 2],
    /// What the buffers had at the start, with each record that was saved since in its slot.
    kept: [Vec<u8>; 2],
    buffer: usize,
    slot: usize,
    masks: Option<Masks>,
}

/// The second emulator's whole run against the proved one's in pieces, with masks or without.
pub fn cut_run(
    tally: &mut Tally,
    random: &mut Random,
    scene: &Scene,
    masks: Option<Masks>,
) -> Check {
    let mut whole = scene.clone();
    let (state, mem, row) = (&mut whole.state, &mut whole.mem, &mut whole.row);
    let answer = match masks {
        None => second::run(state, mem, row, scene.budget),
        Some(masks) => second::run_masked(state, mem, row, masks, scene.budget),
    };
    let mut saved = Saved::new(random, scene, masks);
    let mut retired = 0;
    for budget in cuts(random, scene.budget) {
        let piece = if random.once_in(2) {
            saved.run_in_slot(budget)
        } else {
            saved.run_and_move(random, budget)
        };
        retired += piece.map_err(problem)?;
    }
    let call = || format!("a run of {} in pieces: {:x?}", scene.budget, scene.state);
    tally.steps += retired;
    tally.same(call, Ok(retired), answer)?;
    let last = second::read_slot(&saved.buffers[saved.buffer], saved.slot);
    tally.same(call, last, Ok(whole.state))?;
    tally.same_bytes(call, &saved.mem, &whole.mem)?;
    tally.same_bytes(call, &saved.row, &whole.row)?;
    for (buffer, kept) in saved.buffers.iter().zip(&saved.kept) {
        tally.same_bytes(call, buffer, kept)?;
    }
    Ok(())
}

impl Saved {
    /// The scene's own slot, and a second buffer of any bytes, whole slots of them.
    fn new(random: &mut Random, scene: &Scene, masks: Option<Masks>) -> Saved {
        let slots = random.length(1, 3);
        let buffers = [scene.slots.clone(), random.bytes(RECORD * slots)];
        Saved {
            mem: scene.mem.clone(),
            row: scene.row.clone(),
            kept: buffers.clone(),
            buffers,
            buffer: 0,
            slot: scene.k,
            masks,
        }
    }

    fn run_in_slot(&mut self, budget: u64) -> Result<u64, Error> {
        let mut slots = Slots::new(&mut self.buffers[self.buffer]);
        let mut board = scene::board(&mut self.mem, &mut self.row, self.masks);
        let retired = board.run_slot(&mut slots, self.slot, budget)?;
        self.note_written();
        Ok(retired)
    }

    /// Reads the slot, runs, and writes any slot of either buffer.
    fn run_and_move(&mut self, random: &mut Random, budget: u64) -> Result<u64, Error> {
        let mut state = Slots::new(&self.buffers[self.buffer]).read(self.slot)?;
        let mut board = scene::board(&mut self.mem, &mut self.row, self.masks);
        let retired = board.run(&mut state, budget)?;
        self.buffer = random.length(0, 1);
        let mut slots = Slots::new(&mut self.buffers[self.buffer]);
        self.slot = random.length(0, slots.len() - 1);
        slots.write(self.slot, &state)?;
        self.note_written();
        Ok(retired)
    }

    fn note_written(&mut self) {
        let bytes = RECORD * self.slot..RECORD * (self.slot + 1);
        self.kept[self.buffer][bytes.clone()].copy_from_slice(&self.buffers[self.buffer][bytes]);
    }
}

/// Budgets whose sum is the given one, zeros among them.
pub fn cuts(random: &mut Random, budget: u64) -> Vec<u64> {
    let mut pieces = Vec::new();
    let mut left = budget;
    for _ in 0..random.length(0, 6) {
        let piece = if random.once_in(4) {
            0
        } else {
            random.below(left + 1)
        };
        pieces.push(piece);
        left -= piece;
    }
    pieces.push(left);
    pieces
}

fn problem(error: Error) -> Difference {
    Difference(format!("a piece of a sound scene: {error}"))
}
