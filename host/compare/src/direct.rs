//! The entries that tell a word, asked without the wrapper: it does not show what a call left in the
//! places for the number retired and for the word, nor which calls it makes for a recipe without masks.
#![allow(unsafe_code)]

use crate::lent::Lent;
use crate::scene::{self, After, Entry, Scene};
use crate::tally::{Check, Difference, Tally};
use phuyurik_sys as sys;
use second::Masks;
use std::ptr;

/// What stands in a place before a call: no row has such a word, and no run here retires so many.
const BEFORE: usize = 77_777;

/// What a call gives, and what it leaves in its places.
#[derive(Debug, PartialEq, Eq)]
struct Left {
    number: u32,
    retired: u64,
    word: usize,
}

impl Left {
    fn before() -> Left {
        Left {
            number: 0,
            retired: BEFORE as u64,
            word: BEFORE,
        }
    }
}

/// What the call itself gives and leaves, against what was answered and left: so with a refusal all is
/// as it was, but for the word's place with 3.
pub fn compare(tally: &mut Tally, entry: Entry, before: &Scene, after: &After) -> Check {
    let (mut scene, wanted) = (before.clone(), &after.scene);
    let Some(left) = called(entry, &mut scene)? else {
        return Ok(());
    };
    let call = |what| move || format!("{entry:?} without the wrapper, {what}");
    tally.same(call("its number and places"), left, expected(entry, after))?;
    tally.same(call("the state"), &scene.state, &wanted.state)?;
    tally.same_bytes(call("memory"), &scene.mem, &wanted.mem)?;
    tally.same_bytes(call("the row"), &scene.row, &wanted.row)?;
    tally.same_bytes(call("the slots"), &scene.slots, &wanted.slots)
}

fn expected(entry: Entry, after: &After) -> Left {
    let mut left = Left::before();
    match after.answer {
        Ok(retired) if !is_step(entry) => left.retired = retired,
        Ok(_) => (),
        Err(refused) => (left.number, left.word) = (refused.number, refused.word.unwrap_or(BEFORE)),
    }
    left
}

fn is_step(entry: Entry) -> bool {
    matches!(entry, Entry::Step | Entry::StepMasked)
}

/// Calls an entry on a scene, if it has a place for the word.
fn called(entry: Entry, scene: &mut Scene) -> Result<Option<Left>, Difference> {
    let lend = |bytes: &Vec<u8>| Lent::new(bytes, scene.shift);
    let mut lent = [&scene.mem, &scene.row, &scene.slots].map(lend);
    let (mut state, mut left) = (scene::to_proved(&scene.state), Left::before());
    let buffers = lent.each_mut().map(Lent::content);
    let Some(number) = ask(entry, scene, &mut state, buffers, &mut left) else {
        return Ok(None);
    };
    left.number = number;
    scene.state = scene::to_second(&state);
    let [mem, row, slots] = lent.map(Lent::back);
    (scene.mem, scene.row, scene.slots) = (mem?, row?, slots?);
    Ok(Some(left))
}

/// The number that the call answers.
fn ask(
    entry: Entry,
    scene: &Scene,
    state: &mut phuyurik::State,
    [mem, row, slots]: [&mut [u8]; 3],
    left: &mut Left,
) -> Option<u32> {
    let state = ptr::from_mut(state).cast::<sys::State>();
    let (steps, place, budget) = (&mut left.retired, &mut left.word, scene.budget);
    let (mem, mem_size) = (mem.as_mut_ptr(), mem.len());
    let (row, row_size) = (row.as_mut_ptr(), row.len());
    let (slots, slots_size, k) = (slots.as_mut_ptr(), slots.len(), scene.k);
    let Masks { own, other } = scene.masks;
    // SAFETY: a state of the wrapper is one of the C interface in memory, each buffer has as many bytes
    // as is said, and nothing that is lent overlaps.
    unsafe {
        Some(match entry {
            Entry::Step => sys::phuyurik_step(state, mem, mem_size, row, row_size, place),
            Entry::Run => {
                sys::phuyurik_run(state, mem, mem_size, row, row_size, budget, steps, place)
            }
            Entry::RunSlot => sys::phuyurik_run_slot(
                mem, mem_size, row, row_size, slots, slots_size, k, budget, steps, place,
            ),
            Entry::StepMasked => {
                sys::phuyurik_step_masked(state, mem, mem_size, row, row_size, own, other, place)
            }
            Entry::RunMasked => sys::phuyurik_run_masked(
                state, mem, mem_size, row, row_size, own, other, budget, steps, place,
            ),
            Entry::RunSlotMasked => sys::phuyurik_run_slot_masked(
                mem, mem_size, row, row_size, slots, slots_size, k, own, other, budget, steps,
                place,
            ),
            Entry::WriteSlot | Entry::ReadSlot => return None,
        })
    }
}
