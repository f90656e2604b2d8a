//! The plain C interpreter against the proved emulator, on short runs of random programs.
use crate::{engines, plain};
use phuyurik::{Board, State, Stop};
use testing::Random;

/// Mostly legal and near: random bits with an opcode, a sound funct7, a short way to go.
fn word(random: &mut Random) -> u32 {
    const OPCODES: [u32; 16] = [
        0x37, 0x17, 0x6f, 0x67, 0x63, 0x63, 0x03, 0x03, 0x23, 0x23, 0x13, 0x13, 0x13, 0x33, 0x33,
        0x33,
    ];
    let bits = random.word();
    if random.below(16) == 0 {
        return random.pick(&[bits, bits & 0xfff0_0f8f | 0x0f, 0x73, 0x0010_0073]);
    }
    let word = bits & !0x7f | random.pick(&OPCODES);
    match word & 0x7f {
        0x33 => word & 0x01ff_ffff | random.pick(&[0, 32, 1]) << 25,
        0x13 if word >> 12 & 3 == 1 => word & 0x01ff_ffff | random.pick(&[0, 32]) << 25,
        0x6f => word & 0xfff | random.pick(&[2, 4, 6, 12, 40]) << 20,
        0x63 => word & 0x01ff_ff7f,
        0x23 if random.below(4) == 0 => store_word(random),
        0x03 | 0x23 | 0x67 => word & 0x01ff_ffff & random.pick(&[!0x4000, !0x7000, !0]),
        _ => word,
    }
}

/// `sw` at a multiple of 4 under 32 from a register, half of them of x0.
fn store_word(random: &mut Random) -> u32 {
    let any = random.word();
    let data = random.pick(&[0, any & 31 << 20]);
    data | any & (31 << 15 | 7 << 9) | 2 << 12 | 0x23
}

fn half(random: &mut Random) -> u16 {
    loop {
        let half = random.word() as u16;
        if second::expand(half).is_ok() || random.below(64) == 0 {
            return half;
        }
    }
}

fn program(random: &mut Random) -> Vec<u8> {
    let short = random.below(40) as usize;
    let long = 1000 + random.below(100) as usize;
    let length = if random.below(8) == 0 { short } else { long };
    let mut memory = Vec::new();
    while memory.len() < length {
        if random.below(3) == 0 {
            memory.extend(half(random).to_le_bytes());
        } else {
            memory.extend(word(random).to_le_bytes());
        }
    }
    memory.truncate(length);
    memory
}

/// A quarter of the words burnt, never with 0.
fn row(random: &mut Random) -> Vec<u8> {
    let mut row = vec![0; phuyurik::ROW];
    for record in row.chunks_exact_mut(8) {
        if random.below(4) == 0 {
            record[..4].copy_from_slice(&random.word().max(1).to_le_bytes());
            record[4] = 1;
        }
    }
    row
}

/// Numbers that are addresses, near the edges of memory and window, or anything.
fn value(random: &mut Random, length: usize) -> u32 {
    let inside = random.below(length as u64 + 4) as u32;
    let window = 0x8000_0000 + random.below(260) as u32;
    let edge = random.pick(&[0, 1, u32::MAX, 0x7fff_ffff, 0x8000_0000]);
    let any = random.word();
    random.pick(&[inside, inside & !3, inside & !3, window & !3, edge, any])
}

fn state(random: &mut Random, length: usize) -> State {
    let near = random.below(length as u64 + 1) as u32;
    let far = random.word();
    let low = random.below(1000);
    let full = u64::MAX - random.below(4);
    let stopped = Stop::AlreadyBurnt.number();
    let mostly = |random: &mut Random| random.below(32) > 0;
    let pc = if mostly(random) { near } else { far } & !1;
    let x = [(); 31].map(|()| value(random, length));
    let count = if mostly(random) { low } else { full };
    let stop = if mostly(random) { 0 } else { stopped };
    engines::state(pc, &x, count, stop)
}

fn plain_state(s: &State) -> plain::State {
    plain::State {
        pc: s.pc,
        x: s.registers(),
        count: s.count,
        stop: s.stop_number(),
    }
}

/// Runs both and compares everything they leave, but for the address of a stop, which the plain one
/// does not keep; the stop number and the number retired.
fn compare(mut s: State, memory: &[u8], row: &[u8], budget: u64) -> (u8, u64) {
    let (mut memory_a, mut row_a) = (memory.to_vec(), row.to_vec());
    let (mut memory_b, mut row_b) = (memory.to_vec(), row.to_vec());
    let mut s_b = plain_state(&s);
    let retired = Board::new(&mut memory_a, &mut row_a).run(&mut s, budget);
    let retired_b = plain::run(&mut s_b, &mut memory_b, &mut row_b, budget);
    assert_eq!(retired, Ok(retired_b));
    assert_eq!(plain_state(&s), s_b);
    assert_eq!(memory_a, memory_b);
    assert_eq!(row_a, row_b);
    (s.stop_number(), retired_b)
}

#[test]
fn random_programs_end_alike() {
    let mut random = Random::new(1);
    let (mut stops, mut steps) = ([0; Stop::ALL.len()], 0);
    for _ in 0..40_000 {
        let memory = program(&mut random);
        let row = row(&mut random);
        let s = state(&mut random, memory.len());
        let (stop, retired) = compare(s, &memory, &row, random.below(40));
        stops[usize::from(stop)] += 1;
        steps += retired;
    }
    println!("{steps} steps; ends by stop number: {stops:?}");
    // The plain one knows no masks: every word is the recipe's own.
    let is_without_masks = |stop: &&Stop| **stop != Stop::NotOwned;
    let mut reached = Stop::ALL.iter().filter(is_without_masks);
    assert!(reached.all(|stop| stops[usize::from(stop.number())] > 20) && steps > 50_000);
}

/// `sw x2,0(x1)` to each word, of zero and of others, most with a single byte that is not zero.
#[test]
fn stores_into_the_row_end_alike() {
    let row = row(&mut Random::new(1));
    let values = [0, 1, 0x80, 0x100, 0x1_0000, 0x8000_0000, u32::MAX];
    let (mut blank_and_zero, mut burnt_and_zero) = (0, 0);
    for (word, value) in (0..64).flat_map(|word| values.map(|value| (word, value))) {
        let mut x = [0; 31];
        (x[0], x[1]) = (0x8000_0000 + 4 * word, value);
        let s = engines::state(0, &x, 0, 0);
        let end = compare(s, &0x0020_a023_u32.to_le_bytes(), &row, 1);
        let is_burnt = row[8 * word as usize + 4] == 1;
        assert_eq!(end, if is_burnt { (9, 0) } else { (0, 1) });
        blank_and_zero += u32::from(!is_burnt && value == 0);
        burnt_and_zero += u32::from(is_burnt && value == 0);
    }
    assert!(blank_and_zero > 9 && burnt_and_zero > 9);
}

/// Each halfword once, with what follows it: one step, from registers that are mostly addresses.
#[test]
fn every_halfword_steps_alike() {
    let mut random = Random::new(1);
    let row = row(&mut random);
    let mut retired = 0;
    for half in 0..=u16::MAX {
        let mut memory = [0; 256];
        memory[..2].copy_from_slice(&half.to_le_bytes());
        memory[2..4].copy_from_slice(&(random.word() as u16 & 0x41ff).to_le_bytes());
        let x = [(); 31].map(|()| value(&mut random, 128) & !3);
        let s = engines::state(0, &x, 0, 0);
        retired += compare(s, &memory, &row, 1).1;
    }
    println!("{retired} of 65536 retired");
    assert!(retired > 20_000);
}
