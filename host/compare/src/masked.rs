//! Recipes that own some words of the row: single accesses, walks, runs and cuts.

use crate::cuts::cut_run;
use crate::program::WINDOW;
use crate::scene::{self, compare, Entry, Scene};
use crate::tally::{Check, Tally};
use crate::{masks, pairs, turns};
use second::{op, Inst, State};
use testing::Random;

pub fn round(tally: &mut Tally, random: &mut Random) -> Check {
    for operation in (op::LB..=op::SW).flat_map(|operation| [operation; 25]) {
        one_access(tally, random, operation)?;
    }
    for _ in 0..20 {
        walk(tally, random)?;
        whole_run(tally, random)?;
        recipe(tally, random)?;
        turns::round(tally, random)?;
        pairs::round(tally, random)?;
    }
    Ok(())
}

/// One load or store somewhere in the row or a little outside of it, by each entry, on its own.
fn one_access(tally: &mut Tally, random: &mut Random, operation: u32) -> Check {
    let mut scene = scene::sound(random);
    let is_load = operation <= op::LHU;
    let inst = Inst {
        operation,
        rd: if is_load { random.pick(&[0, 3]) } else { 0 },
        rs1: 1,
        rs2: if is_load { 0 } else { 2 },
        imm: (4 * random.within(-2, 2)) as u32,
    };
    scene.mem = second::encode(inst).unwrap_or(0).to_le_bytes().to_vec();
    scene.state = State::fresh();
    let word = random.within(-1, 64);
    let word = random.pick(&[0, 63, word, word, word, word]);
    let within = random.pick(&[0, 0, 0, 1, 2, 3]);
    let address = WINDOW.wrapping_add((4 * word + within) as u32);
    scene.state.x[0] = address.wrapping_sub(inst.imm);
    scene.state.x[1] = random.pick(&[0, 1, 1 << 31, u32::MAX]);
    second::write_slot(&mut scene.slots, scene.k, &scene.state).unwrap_or(());
    scene.budget = random.below(3);
    for entry in [Entry::StepMasked, Entry::RunMasked, Entry::RunSlotMasked] {
        compare(tally, entry, &scene)?;
    }
    Ok(())
}

/// A recipe that mostly keeps to its own words, or a program that knows nothing of masks.
fn any_scene(random: &mut Random) -> Scene {
    match random.below(4) {
        0 => scene::sound(random),
        1 => scene::calm(random),
        2 => scene::trimming(random),
        _ => {
            let masks = masks::disjoint(random);
            scene::sharing(random, masks)
        }
    }
}

/// Step after step, each compared.
fn walk(tally: &mut Tally, random: &mut Random) -> Check {
    let mut scene = any_scene(random);
    for _ in 0..random.length(1, 40) {
        scene = compare(tally, Entry::StepMasked, &scene)?.scene;
    }
    Ok(())
}

/// A run, and the same with huge budgets if it stops by itself.
fn whole_run(tally: &mut Tally, random: &mut Random) -> Check {
    let mut scene = any_scene(random);
    let after = compare(tally, Entry::RunMasked, &scene)?.scene;
    if after.state.stop != 0 {
        for budget in [u64::MAX, 1 << 63, 1 << 32] {
            scene.budget = budget;
            compare(tally, Entry::RunMasked, &scene)?;
            compare(tally, Entry::RunSlotMasked, &scene)?;
        }
    }
    Ok(())
}

/// The same run whole, in a slot and in pieces.
fn recipe(tally: &mut Tally, random: &mut Random) -> Check {
    let scene = any_scene(random);
    compare(tally, Entry::RunMasked, &scene)?;
    compare(tally, Entry::RunSlotMasked, &scene)?;
    cut_run(tally, random, &scene, Some(scene.masks))
}
