//! Malformed inputs: for each entry every set of faults that it can meet, so that the order of
//! refusals is compared. The paper's answer is known beforehand: the first in its order, and with 3
//! the lowest word.

use crate::scene::{self, Entry, Scene, ADDRESS, STOP, ZERO};
use crate::tally::{Check, Difference, Tally};
use crate::{masks, program, texts, words};
use phuyurik::Refusal::{
    MasksShare, MemoryTooLong, OddPc, RecordEnd, RowLength, RowRecord, Slot, StopNumber,
};
use phuyurik::{Refusal, Stop, RECORD};
use second::Refused;
use testing::Random;

pub fn round(tally: &mut Tally, random: &mut Random) -> Check {
    for entry in ENTRIES {
        let order = order(entry);
        for set in 0..1_u32 << order.len() {
            let is_chosen = |place: &usize| set >> place & 1 == 1;
            let chosen = (0..order.len()).filter(is_chosen);
            let faults: Vec<Refusal> = chosen.map(|place| order[place]).collect();
            malformed(tally, random, entry, &faults)?;
        }
    }
    for _ in 0..20 {
        text_faults(tally, random)?;
    }
    Ok(())
}

const ENTRIES: [Entry; 8] = [
    Entry::Step,
    Entry::Run,
    Entry::WriteSlot,
    Entry::ReadSlot,
    Entry::RunSlot,
    Entry::StepMasked,
    Entry::RunMasked,
    Entry::RunSlotMasked,
];

/// The refusals of an entry, in the paper's order: by rising numbers, but 14 and 15 at the place of 5
/// and 16 after 3.
fn order(entry: Entry) -> Vec<Refusal> {
    let board = [MemoryTooLong, RowLength, RowRecord];
    let state = [OddPc, StopNumber, RecordEnd];
    let parts: &[&[Refusal]] = match entry {
        Entry::Step | Entry::Run => &[&board, &state],
        Entry::StepMasked | Entry::RunMasked => &[&board, &[MasksShare], &state],
        Entry::WriteSlot | Entry::ReadSlot => &[&[Slot], &state],
        Entry::RunSlot => &[&board, &[Slot], &state],
        Entry::RunSlotMasked => &[&board, &[MasksShare], &[Slot], &state],
    };
    parts.concat()
}

fn malformed(tally: &mut Tally, random: &mut Random, entry: Entry, faults: &[Refusal]) -> Check {
    let mut scene = scene::sound(random);
    let bad_words = bad_words(random);
    // the row's record before its length, so that a longer row keeps the bad record; a stop's address
    // before the stop number, since it comes with a number of its own
    for fault in faults.iter().rev() {
        spoil(random, &mut scene, *fault, &bad_words);
    }
    let answer = scene::compare(tally, entry, &scene)?.answer;
    let lowest_word = bad_words.into_iter().min();
    let expected = faults.first().map(|first| Refused {
        number: first.number(),
        word: lowest_word.filter(|_| *first == RowRecord),
    });
    if answer.err() == expected {
        return Ok(());
    }
    Err(Difference(format!(
        "{entry:?} with the faults {faults:?}: both answered {answer:?}"
    )))
}

/// Words of a row, in any order.
fn bad_words(random: &mut Random) -> Vec<usize> {
    let anywhere = |random: &mut Random| {
        let word = random.length(0, 63);
        random.pick(&[0, 63, word, word])
    };
    (0..random.length(1, 3)).map(|_| anywhere(random)).collect()
}

/// Makes a scene such that the entries which look there refuse it so; in a row it is these words.
fn spoil(random: &mut Random, scene: &mut Scene, refusal: Refusal, bad_words: &[usize]) {
    match refusal {
        MasksShare => scene.masks = masks::sharing(random),
        MemoryTooLong => scene.mem.resize(random.length(65_537, 65_600), 0),
        RowLength => scene
            .row
            .resize(random.pick(&[0, 8, 504, 511, 513, 520, 1024]), 0),
        RowRecord => {
            for word in bad_words {
                spoil_row_record(random, &mut scene.row[8 * word..][..8]);
            }
        }
        Slot => spoil_slots(random, scene),
        OddPc | StopNumber | RecordEnd => {
            let mut record = scene::to_proved(&scene.state).to_bytes();
            spoil_record(random, &mut record, refusal);
            scene.state = scene::to_second(&phuyurik::State::from_bytes(record));
            for record in scene.slots.chunks_exact_mut(RECORD) {
                spoil_record(random, record, refusal);
            }
        }
        _ => unreachable!("a scene has nothing else that can be refused"),
    }
}

fn spoil_row_record(random: &mut Random, record: &mut [u8]) {
    match random.below(4) {
        0 => record[4] = random.length(2, 255) as u8,
        1 => record[random.length(5, 7)] = not_zero(random),
        2 => record[..5].copy_from_slice(&[0, 0, 0, 0, 1]),
        _ => {
            record[4] = 0;
            record[random.length(0, 3)] = not_zero(random);
        }
    }
}

/// No such slot, or a length that is no multiple of 144; 144 x 2^60 is 0 in 64 bits.
fn spoil_slots(random: &mut Random, scene: &mut Scene) {
    let slots = scene.slots.len() / RECORD;
    match random.below(6) {
        0 => scene.k = slots,
        1 => scene.k = slots + random.length(0, 1000),
        2 => scene.k += 1 << 60,
        3 => scene.k = usize::MAX - random.length(0, 3),
        4 => scene.slots.clear(),
        _ => {
            let stray = random.length(1, RECORD - 1);
            scene
                .slots
                .resize(scene.slots.len() + stray - RECORD * random.length(0, 1), 0);
        }
    }
}

/// Often the first one after the last stop.
fn no_stop(random: &mut Random) -> u8 {
    let first = Stop::ALL.len();
    let any = random.length(first, 255);
    random.pick(&[first, any]) as u8
}

/// Paused, ecall, ebreak and count full.
fn stop_without_address(random: &mut Random) -> u8 {
    random.pick(&[0, 1, 2, 10])
}

fn not_zero(random: &mut Random) -> u8 {
    random.length(1, 255) as u8
}

fn spoil_record(random: &mut Random, record: &mut [u8], refusal: Refusal) {
    match refusal {
        OddPc => record[0] |= 1,
        StopNumber => record[STOP] = no_stop(random),
        _ => spoil_record_end(random, record),
    }
}

/// The zeros after the stop number, an address for a stop that has none, or both.
fn spoil_record_end(random: &mut Random, record: &mut [u8]) {
    let way = random.below(3);
    if way != 0 {
        record[ZERO][random.length(0, 2)] = not_zero(random);
    }
    if way != 1 {
        record[STOP] = stop_without_address(random);
        record[ADDRESS][random.length(0, 3)] = not_zero(random);
    }
}

/// Rooms too short or not, with bits or instructions that are none or not.
fn text_faults(tally: &mut Tally, random: &mut Random) -> Check {
    for shortest in [0, 24] {
        let mut room = || {
            let length = random.length(shortest, shortest + 23);
            random.bytes(length)
        };
        let rooms = [room(), room(), room(), room(), room(), room()];
        let legal = program::instruction(random);
        let mut none = legal;
        none.operation = 48 + random.word() % 48;
        texts::word(tally, program::legal_word(random), &rooms[0])?;
        texts::word(tally, words::any_word(random) & !3, &rooms[1])?;
        texts::half(tally, program::legal_half(random), &rooms[2])?;
        texts::half(tally, random.word() as u16 | 3, &rooms[3])?;
        texts::instruction(tally, legal, &rooms[4])?;
        texts::instruction(tally, none, &rooms[5])?;
    }
    Ok(())
}
