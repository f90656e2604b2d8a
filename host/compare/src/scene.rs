//! All that a call may be given, and the entries called on it by both emulators.

use crate::direct;
use crate::lent::Lent;
use crate::masks;
use crate::program::{self, Temper};
use crate::row_access::RowAccess;
use crate::row_store::RowStore;
use crate::tally::{first_other, number, Difference, Tally};
use phuyurik::{Board, Error, Slots, Stop, RECORD, ROW};
use second::{op, stop, Inst, Masks, Refused, State};
use std::ops::Range;
use testing::Random;

#[derive(Clone, PartialEq, Eq)]
pub struct Scene {
    pub state: State,
    pub mem: Vec<u8>,
    pub row: Vec<u8>,
    pub slots: Vec<u8>,
    pub k: usize,
    pub budget: u64,
    /// Whose the words of the row are; only for the entries that are given masks.
    pub masks: Masks,
    /// How far from their natural places the proved emulator is lent the buffers.
    pub shift: usize,
}

#[derive(Clone, Copy, Debug, PartialEq, Eq)]
pub enum Entry {
    Step,
    Run,
    WriteSlot,
    ReadSlot,
    RunSlot,
    StepMasked,
    RunMasked,
    RunSlotMasked,
}

/// Where the stop number, the zeros after it and the address of a state stand in its record.
pub const STOP: usize = 136;
pub const ZERO: Range<usize> = 137..140;
pub const ADDRESS: Range<usize> = 140..144;

pub fn to_proved(state: &State) -> phuyurik::State {
    let mut record = [0; RECORD];
    record[STOP] = state.stop;
    record[ZERO].copy_from_slice(&state.zero);
    record[ADDRESS].copy_from_slice(&state.address.to_le_bytes());
    let mut proved = phuyurik::State::from_bytes(record);
    (proved.pc, proved.count) = (state.pc, state.count);
    for (n, value) in (1..).zip(state.x) {
        proved.set_reg(n, value);
    }
    proved
}

pub fn to_second(proved: &phuyurik::State) -> State {
    let mut state = State {
        pc: proved.pc,
        count: proved.count,
        stop: proved.stop_number(),
        address: proved.address(),
        ..State::fresh()
    };
    state.x.copy_from_slice(&proved.registers()[1..]);
    state.zero.copy_from_slice(&proved.to_bytes()[ZERO]);
    state
}

/// What the proved emulator runs on, with masks or without.
pub fn board<'a>(mem: &'a mut [u8], row: &'a mut [u8], masks: Option<Masks>) -> Board<'a> {
    match masks {
        None => Board::new(mem, row),
        Some(Masks { own, other }) => {
            let masks = phuyurik::Masks {
                own: own.into(),
                other: other.into(),
            };
            Board::shared(mem, row, masks)
        }
    }
}

/// The word that a state stopped at because it is not its own.
pub fn foreign_word(state: &State) -> Option<usize> {
    let word = (state.address.wrapping_sub(program::WINDOW) / 4) as usize;
    (state.stop == stop::NOT_OWNED).then_some(word)
}

/// The number retired where the entry answers one, else 0; or the refusal with what it tells.
pub type Answer = Result<u64, Refused>;

/// A refusal with its word, as the second emulator answers it.
fn refused(error: Error) -> Refused {
    let word = match error {
        Error::RowRecord { word } => Some(word),
        _ => None,
    };
    Refused {
        number: number(error),
        word,
    }
}

/// What both emulators answered and left.
pub struct After {
    pub answer: Answer,
    pub scene: Scene,
}

impl Entry {
    fn by_proved(self, scene: &mut Scene) -> Result<Answer, Difference> {
        let lend = |bytes: &[u8]| Lent::new(bytes, scene.shift);
        let mut lent = (lend(&scene.mem), lend(&scene.row), lend(&scene.slots));
        let masks = self.is_masked().then_some(scene.masks);
        let mut board = board(lent.0.content(), lent.1.content(), masks);
        let mut slots = Slots::new(lent.2.content());
        let mut state = to_proved(&scene.state);
        let answer = match self {
            Entry::Step | Entry::StepMasked => board.step(&mut state).map(|()| 0),
            Entry::Run | Entry::RunMasked => board.run(&mut state, scene.budget),
            Entry::WriteSlot => slots.write(scene.k, &state).map(|()| 0),
            Entry::ReadSlot => slots.read(scene.k).map(|read| {
                state = read;
                0
            }),
            Entry::RunSlot | Entry::RunSlotMasked => {
                board.run_slot(&mut slots, scene.k, scene.budget)
            }
        };
        scene.state = to_second(&state);
        (scene.mem, scene.row, scene.slots) = (lent.0.back()?, lent.1.back()?, lent.2.back()?);
        Ok(answer.map_err(refused))
    }

    fn by_second(self, scene: &mut Scene) -> Answer {
        let (mem, row, slots) = (&mut scene.mem, &mut scene.row, &mut scene.slots);
        let (state, k, masks) = (&mut scene.state, scene.k, scene.masks);
        match self {
            Entry::Step => second::step(state, mem, row).map(|()| 0),
            Entry::Run => second::run(state, mem, row, scene.budget),
            Entry::WriteSlot => {
                second::write_slot(slots, k, state)?;
                Ok(0)
            }
            Entry::ReadSlot => {
                *state = second::read_slot(slots, k)?;
                Ok(0)
            }
            Entry::RunSlot => second::run_slot(mem, row, slots, k, scene.budget),
            Entry::StepMasked => second::step_masked(state, mem, row, masks).map(|()| 0),
            Entry::RunMasked => second::run_masked(state, mem, row, masks, scene.budget),
            Entry::RunSlotMasked => {
                second::run_slot_masked(mem, row, slots, k, masks, scene.budget)
            }
        }
    }

    pub fn is_masked(self) -> bool {
        matches!(
            self,
            Entry::StepMasked | Entry::RunMasked | Entry::RunSlotMasked
        )
    }

    /// The state that the entry works on.
    fn subject(self, scene: &Scene) -> Option<State> {
        match self {
            Entry::Step | Entry::Run | Entry::StepMasked | Entry::RunMasked => {
                Some(scene.state.clone())
            }
            Entry::RunSlot | Entry::RunSlotMasked => second::read_slot(&scene.slots, scene.k).ok(),
            Entry::WriteSlot | Entry::ReadSlot => None,
        }
    }
}

/// Calls the entry by both emulators on equal scenes: the answers, the state and every buffer
/// must be the same, and on a refusal as they were.
pub fn compare(tally: &mut Tally, entry: Entry, before: &Scene) -> Result<After, Difference> {
    let (mut proved, mut second) = (before.clone(), before.clone());
    let answers = (entry.by_proved(&mut proved)?, entry.by_second(&mut second));
    tally.comparisons += 1;
    if answers.0 != answers.1 || proved != second {
        return Err(describe(entry, before, answers, &proved, &second));
    }
    if answers.1.is_err() && second != *before {
        return Err(Difference(format!("{entry:?} refused, but altered a byte")));
    }
    tally.note_refused(answers.1);
    let after = After {
        answer: answers.1,
        scene: second,
    };
    if entry.is_masked() {
        foreign_words_stay(before, &after.scene)?;
        tally.note_masks(before.masks, after.answer);
    }
    direct::compare(tally, entry, before, &after)?;
    note_stop(tally, entry, before, &after.scene);
    note_row_access(tally, entry, before, &after.scene);
    Ok(after)
}

/// Whatever both emulators say, no word that is not the recipe's own may have changed.
fn foreign_words_stay(before: &Scene, after: &Scene) -> Result<(), Difference> {
    let is_row = before.row.len() == ROW;
    if is_row && masks::joined(before.masks.own, &after.row, &before.row) != after.row {
        let what = format!("a word changed that is not its own: {:x?}", before.masks);
        return Err(Difference(what));
    }
    Ok(())
}

/// Counts the stop that a paused state came to, and its address; paused only if it retired something.
fn note_stop(tally: &mut Tally, entry: Entry, before: &Scene, after: &Scene) {
    let (Some(from), Some(to)) = (entry.subject(before), entry.subject(after)) else {
        return;
    };
    let retired = to.count.wrapping_sub(from.count);
    tally.steps += retired;
    if from.stop == 0 && (retired > 0 || to.stop != 0) {
        tally.stops[usize::from(to.stop)] += 1;
        tally.note_address(&to);
    }
}

/// Counts what a step loaded or stored in the row, or stopped at there.
fn note_row_access(tally: &mut Tally, entry: Entry, before: &Scene, after: &Scene) {
    if before.state == after.state {
        return;
    }
    if entry == Entry::Step {
        if let Some(kind) = RowStore::next(before) {
            tally.row_stores[kind as usize] += 1;
        }
    }
    if entry == Entry::StepMasked {
        if let Some(kind) = RowAccess::next(before) {
            tally.accesses[kind.owner as usize][kind.place()] += 1;
        }
    }
}

fn describe(
    entry: Entry,
    before: &Scene,
    answers: (Answer, Answer),
    proved: &Scene,
    second: &Scene,
) -> Difference {
    let at = (before.state.pc as usize).min(before.mem.len());
    let end = (at + 16).min(before.mem.len());
    let text = format!(
        "{entry:?} of budget {} in slot {} of {} bytes, memory of {}, row of {}, {:x?}\n  \
         answers: phuyurik {:?}, second {:?}\n  before: {:x?}\n  bytes at pc: {:02x?}\n  \
         phuyurik: {:x?}\n  second:   {:x?}\n  first other byte: memory {:?}, row {:?}, slots {:?}",
        before.budget,
        before.k,
        before.slots.len(),
        before.mem.len(),
        before.row.len(),
        before.masks,
        answers.0,
        answers.1,
        before.state,
        &before.mem[at..end],
        proved.state,
        second.state,
        first_other(&proved.mem, &second.mem),
        first_other(&proved.row, &second.row),
        first_other(&proved.slots, &second.slots),
    );
    Difference(text)
}

/// A scene that no entry refuses, with a program in its memory and its state in slot `k`.
pub fn sound(random: &mut Random) -> Scene {
    let length = memory_length(random);
    let (state, mem) = (state(random, length), memory(random, length));
    with_slots(random, state, mem)
}

/// As `sound`, with a program that goes on for long: its pointers lead behind the code, and one
/// perhaps to the window.
pub fn calm(random: &mut Random) -> Scene {
    let length = 4 * random.length(200, 600);
    let mut mem = program::code(random, length / 2, Temper::Calm);
    mem.resize(length, 0);
    let mut state = state(random, length);
    (state.pc, state.count) = (0, random.below(1000));
    (state.stop, state.address) = (0, 0);
    for pointer in program::POINTERS {
        let behind = random.length(length / 2 + 12, length - 132);
        state.x[pointer as usize - 1] = behind as u32 & !3;
    }
    if random.once_in(2) {
        state.x[14 - 1] = 0x8000_0000 + 4 * random.below(30) as u32;
    }
    let mut scene = with_slots(random, state, mem);
    scene.budget = random.below(20_000);
    scene
}

/// As `sound`, with a recipe that clears and trims.
pub fn trimming(random: &mut Random) -> Scene {
    recipe(random, Temper::Trimming)
}

/// As `trimming`, with masks: a recipe that works on its own words, and perhaps strays from them.
pub fn sharing(random: &mut Random, masks: Masks) -> Scene {
    let strays = random.pick(&[4, 16, u64::MAX]);
    let mut scene = recipe(random, Temper::Sharing { masks, strays });
    scene.masks = masks;
    scene
}

/// A recipe on the row, which perhaps begins anew at its end.
fn recipe(random: &mut Random, temper: Temper) -> Scene {
    let length = random.length(8, 200);
    let mut mem = program::code(random, length, temper);
    let end = random.pick(&[op::ECALL, op::JAL]);
    let back = (mem.len() as u32).wrapping_neg();
    let last = Inst {
        operation: end,
        imm: if end == op::JAL { back } else { 0 },
        ..Inst::default()
    };
    mem.extend(second::encode(last).unwrap_or(0).to_le_bytes());
    let mut state = state(random, mem.len());
    (state.pc, state.count, state.stop, state.address) = (0, random.below(1000), 0, 0);
    for pointer in program::ROW_POINTERS {
        state.x[pointer as usize - 1] = program::WINDOW;
    }
    let mut scene = with_slots(random, state, mem);
    scene.budget = random.below(100);
    scene
}

fn with_slots(random: &mut Random, state: State, mem: Vec<u8>) -> Scene {
    let slots = random.length(1, 4);
    let mut scene = Scene {
        state,
        mem,
        row: row(random),
        slots: vec![0; RECORD * slots],
        k: random.length(0, slots - 1),
        budget: budget(random),
        masks: masks::disjoint(random),
        shift: random.length(0, 7),
    };
    for k in 0..slots {
        let other = self::state(random, scene.mem.len());
        let state = if k == scene.k { &scene.state } else { &other };
        second::write_slot(&mut scene.slots, k, state).unwrap_or(());
    }
    scene
}

fn memory_length(random: &mut Random) -> usize {
    match random.below(40) {
        0 => 0,
        1 | 2 => random.length(1, 8),
        3..=7 => random.length(9, 64),
        8..=33 => random.length(65, 1024),
        34..=37 => random.length(1025, 8192),
        38 => random.length(65_530, 65_536),
        _ => 65_536,
    }
}

/// A program at the start, and in long memories also at the end; any bytes between them.
fn memory(random: &mut Random, length: usize) -> Vec<u8> {
    const LONGEST_PROGRAM: usize = 3000;
    let temper = Temper::Wild(random.pick(&[10, 50, 400, 1 << 40]));
    let mut mem = program::code(random, length.min(LONGEST_PROGRAM), temper);
    let filler = if random.once_in(2) {
        0
    } else {
        random.number() as u8
    };
    mem.resize(length, filler);
    if length > LONGEST_PROGRAM + 128 {
        let tail = program::code(random, 64, temper);
        mem[length - 64..].copy_from_slice(&tail[..64]);
    }
    mem
}

fn budget(random: &mut Random) -> u64 {
    match random.below(10) {
        0 => 0,
        1 => 1,
        2..=4 => random.below(20),
        5..=8 => random.below(500),
        _ => random.below(5000),
    }
}

/// A state that is not refused, mostly paused, with pc mostly in the program. Where its stop may have
/// an address it has any, also none, as old records do.
pub fn state(random: &mut Random, length: usize) -> State {
    let mut state = State {
        pc: program_counter(random, length) & !1,
        count: count(random),
        ..State::fresh()
    };
    if random.once_in(16) {
        let stop = random.pick(Stop::ALL);
        state.stop = stop.number();
        if stop.has_address() && !random.once_in(3) {
            state.address = program::value(random, length);
        }
    }
    for value in &mut state.x {
        *value = program::value(random, length);
    }
    for pointer in program::POINTERS {
        state.x[pointer as usize - 1] = program::address(random, length);
    }
    for link in program::LINKS {
        state.x[link as usize - 1] = random.below(length.min(256) as u64 + 1) as u32;
    }
    state
}

fn program_counter(random: &mut Random, length: usize) -> u32 {
    let length = length as u32;
    match random.below(24) {
        0 => length.wrapping_add(random.within(-8, 4) as u32),
        1 => random.word(),
        2 => 0x8000_0000 + random.below(256) as u32,
        3 => u32::MAX - random.below(8) as u32,
        4..=7 => random.below(u64::from(length) + 1) as u32,
        _ => 0,
    }
}

fn count(random: &mut Random) -> u64 {
    match random.below(16) {
        0 => u64::MAX - random.below(40),
        1 => u64::MAX,
        2 => random.number(),
        3 => u64::from(u32::MAX) - random.below(10),
        _ => 0,
    }
}

/// A sound row: blank, full, or partly burnt, never with 0.
pub fn row(random: &mut Random) -> Vec<u8> {
    let burnt_in_eight = random.pick(&[0, 0, 1, 4, 8]);
    let mut row = vec![0; ROW];
    for record in row.chunks_exact_mut(8) {
        if random.below(8) < burnt_in_eight {
            let value = if random.once_in(4) {
                program::one_bit(random)
            } else {
                random.word().max(1)
            };
            record[..4].copy_from_slice(&value.to_le_bytes());
            record[4] = 1;
        }
    }
    row
}
