//! Steps and runs: one operation on hostile values, walks, whole runs, recipes on the row.

use crate::cuts::cut_run;
use crate::scene::{self, compare, Entry, Scene};
use crate::tally::{Check, Tally};
use phuyurik::{Stop, RECORD};
use second::op;
use testing::Random;

/// Values at which slips of arithmetic show.
const VALUES: [u32; 14] = [
    0,
    1,
    2,
    31,
    32,
    33,
    0x7fff_fffe,
    0x7fff_ffff,
    0x8000_0000,
    0x8000_0001,
    0xaaaa_aaab,
    0xffff_ffe0,
    0xffff_fffe,
    0xffff_ffff,
];

pub fn round(tally: &mut Tally, random: &mut Random) -> Check {
    for operation in 0..48 {
        for _ in 0..8 {
            one_operation(tally, random, operation)?;
        }
    }
    for _ in 0..40 {
        walk(tally, random)?;
        whole_run(tally, random)?;
        let scene = sound_or_calm(random);
        cut_run(tally, random, &scene, None)?;
        clear_and_trim(tally, random)?;
        slots(tally, random)?;
    }
    Ok(())
}

/// Every operation on two registers, and every branch, on every pair of these values.
pub fn all_edges(tally: &mut Tally) -> Check {
    let mut scene = scene::sound(&mut Random::new(0));
    (scene.state.pc, scene.state.count) = (0, 0);
    (scene.state.stop, scene.state.address) = (0, 0);
    let on_two = (op::BEQ..=op::BGEU)
        .chain(op::ADD..=op::AND)
        .chain(op::MUL..=op::REMU);
    for operation in on_two {
        let is_branch = operation <= op::BGEU;
        let inst = second::Inst {
            operation,
            rd: if is_branch { 0 } else { 3 },
            rs1: 1,
            rs2: 2,
            imm: if is_branch { 64 } else { 0 },
        };
        scene.mem = second::encode(inst).unwrap_or(0).to_le_bytes().to_vec();
        for (a, b) in VALUES.iter().flat_map(|a| VALUES.map(|b| (*a, b))) {
            (scene.state.x[0], scene.state.x[1]) = (a, b);
            compare(tally, Entry::Step, &scene)?;
        }
    }
    Ok(())
}

/// One step of an operation, with registers that hold the values at which slips show.
fn one_operation(tally: &mut Tally, random: &mut Random, operation: u32) -> Check {
    let mut scene = scene::sound(random);
    scene.mem.truncate(256);
    if scene.mem.len() < 4 {
        return Ok(());
    }
    let bits = any_of(random, operation);
    let at = 2 * random.length(0, (scene.mem.len() - 4) / 2);
    scene.mem[at..at + 4].copy_from_slice(&bits.to_le_bytes());
    scene.state.pc = at as u32;
    (scene.state.stop, scene.state.address) = (0, 0);
    compare(tally, Entry::Step, &scene).map(|_| ())
}

/// The bits of an instruction of this operation, with any operands.
fn any_of(random: &mut Random, operation: u32) -> u32 {
    let plain = second::Inst {
        operation,
        ..second::Inst::default()
    };
    let operands = match operation {
        op::ECALL | op::EBREAK => 0,
        op::SLLI..=op::SRAI | op::ADD..=op::AND | op::MUL..=op::REMU => 0x01ff_8f80,
        op::LUI..=op::JAL => 0xffff_ff80,
        _ => 0xffff_8f80,
    };
    second::encode(plain).unwrap_or(0) | random.word() & operands
}

fn sound_or_calm(random: &mut Random) -> Scene {
    if random.once_in(2) {
        return scene::calm(random);
    }
    scene::sound(random)
}

/// Step after step, each compared.
fn walk(tally: &mut Tally, random: &mut Random) -> Check {
    let mut scene = sound_or_calm(random);
    for _ in 0..random.length(1, 60) {
        scene = compare(tally, Entry::Step, &scene)?.scene;
    }
    Ok(())
}

/// A run, and the same with huge budgets if it stops by itself.
fn whole_run(tally: &mut Tally, random: &mut Random) -> Check {
    let mut scene = sound_or_calm(random);
    let after = compare(tally, Entry::Run, &scene)?.scene;
    if after.state.stop != 0 {
        for budget in [u64::MAX, u64::MAX - 1, 1 << 63, 1 << 32] {
            scene.budget = budget;
            compare(tally, Entry::Run, &scene)?;
            compare(tally, Entry::RunSlot, &scene)?;
        }
    }
    Ok(())
}

/// A recipe on the row: step after step, then the same run whole and in pieces.
fn clear_and_trim(tally: &mut Tally, random: &mut Random) -> Check {
    let scene = scene::trimming(random);
    let mut stepped = scene.clone();
    for _ in 0..scene.budget {
        stepped = compare(tally, Entry::Step, &stepped)?.scene;
    }
    compare(tally, Entry::Run, &scene)?;
    compare(tally, Entry::RunSlot, &scene)?;
    cut_run(tally, random, &scene, None)
}

/// Slots read, written and run, with states and buffers of every kind.
fn slots(tally: &mut Tally, random: &mut Random) -> Check {
    let mut scene = scene::sound(random);
    match random.below(4) {
        0 => scene.slots = random.bytes(scene.slots.len()),
        1 => {
            let length = random.length(0, 4 * RECORD);
            scene.slots = random.bytes(length);
        }
        _ => {}
    }
    if random.once_in(8) {
        scene.slots.iter_mut().for_each(|byte| *byte = 0);
    }
    if random.once_in(4) {
        scene.state.pc = random.word();
        scene.state.stop = random.below(Stop::ALL.len() as u64 + 3) as u8;
    }
    if random.once_in(16) {
        scene.state.zero[random.length(0, 2)] = random.number() as u8;
    }
    if random.once_in(4) {
        scene.state.address = random.word();
    }
    if random.once_in(4) {
        scene.k = random.pick(&[0, 1, 2, 3, 4, usize::MAX, 1 << 60, 1 << 63]);
    }
    compare(tally, Entry::RunSlot, &scene)?;
    compare(tally, Entry::ReadSlot, &scene)?;
    let written = compare(tally, Entry::WriteSlot, &scene)?.scene;
    compare(tally, Entry::ReadSlot, &written)?;
    compare(tally, Entry::RunSlot, &written).map(|_| ())
}
