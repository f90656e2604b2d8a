//! Two recipes that trim one die in turns, `examples/reference_trim` and `examples/oscillator_trim`:
//! through the wrapper and through the tool, cut at random and killed. What each burns, and in how many
//! steps, is worked out here from the numbers in its source.
mod bench;
mod common;

use bench::{row_of, Bench};
use common::tool;
use phuyurik::*;
use std::process::Stdio;
use std::time::Duration;
use testing::{Folder, Random};

#[derive(Clone, Copy)]
struct Recipe {
    name: &'static str,
    source: &'static str,
    image: &'static [u8],
    /// Its slot, and its masks as they are typed.
    slot: usize,
    masks: &'static str,
}

const REFERENCE: Recipe = Recipe {
    name: "reference_trim",
    source: include_str!("../../examples/reference_trim.s"),
    image: include_bytes!("../../examples/reference_trim.bin"),
    slot: 0,
    masks: "--own 0-31 --other 32-63",
};

const OSCILLATOR: Recipe = Recipe {
    name: "oscillator_trim",
    source: include_str!("../../examples/oscillator_trim.s"),
    image: include_bytes!("../../examples/oscillator_trim.bin"),
    slot: 1,
    masks: "--own 32-63 --other 0-31",
};

const BOTH: [Recipe; 2] = [REFERENCE, OSCILLATOR];

/// The words that a recipe burns, with their values, and its steps before the ecall.
#[derive(Debug, PartialEq)]
struct Trimmed {
    words: Vec<(usize, u32)>,
    steps: u64,
}

/// The numbers of a source's data.
fn data(source: &str) -> Vec<i64> {
    let lines = source.lines().filter_map(|line| line.split_once(".half"));
    let numbers = lines.flat_map(|(_, numbers)| numbers.split(','));
    numbers
        .map(|number| number.trim().parse().expect("a number"))
        .collect()
}

/// Each temperature has 13 steps and 5 for each reading, each word that is read back has 4.
fn reference() -> Trimmed {
    let readings = data(REFERENCE.source);
    let code = |readings: &[i64]| {
        let mean = (readings.iter().sum::<i64>() + 4) / 8;
        ((2048 - mean) / 3) as u32 & 0xFF | 0x100
    };
    let mut words: Vec<(usize, u32)> = (0..).zip(readings.chunks(8).map(code)).collect();
    words.push((31, words.iter().map(|(_, value)| value).sum()));
    let steps = 4 + 4 * (13 + 8 * 5) + 3 + 4 * 4;
    Trimmed { words, steps }
}

/// Each range has 18 steps and 7 for each count but the first, and one for each new least or greatest.
fn oscillator() -> Trimmed {
    let (mut words, mut steps) = (Vec::new(), 5 + 3 * (18 + 4 * 7) + 3 + 3 * 4);
    for (k, counts) in (32..).zip(data(OSCILLATOR.source).chunks(5)) {
        let (mut least, mut greatest) = (counts[0], counts[0]);
        for count in &counts[1..] {
            steps += u64::from(*count < least) + u64::from(*count > greatest);
            (least, greatest) = (least.min(*count), greatest.max(*count));
        }
        let mean = (counts.iter().sum::<i64>() - least - greatest) / 3;
        let code = (1000 - mean).div_euclid(4);
        words.push((k, code as u32 & 0x7F | 0x80));
    }
    let check = words.iter().fold(u32::MAX, |all, (_, value)| all ^ value);
    words.push((63, check));
    Trimmed { words, steps }
}

fn trimmed(recipe: Recipe) -> Trimmed {
    match recipe.slot {
        0 => reference(),
        _ => oscillator(),
    }
}

/// The row that both have trimmed.
fn trimmed_row() -> Vec<u8> {
    row_of(&[reference().words, oscillator().words].concat())
}

fn masks(recipe: Recipe) -> Masks {
    let own = Masks {
        own: Words::span(0, 31),
        other: Words::span(32, 63),
    };
    match recipe.slot {
        0 => own,
        _ => own.swapped(),
    }
}

/// What a recipe's runs have come to, but for the row.
#[derive(Clone, Debug, PartialEq)]
struct Run {
    memory: Vec<u8>,
    slots: Slots<[u8; RECORD]>,
}

impl Run {
    fn start(recipe: Recipe) -> Run {
        Run {
            memory: recipe.image.to_vec(),
            slots: Slots::new([0; RECORD]),
        }
    }

    fn state(&self) -> State {
        self.slots.read(0).expect("a state")
    }

    /// At most so many steps, through one of the three calls.
    fn go(&mut self, row: &mut Row, masks: Masks, budget: u64, call: u64) {
        let mut state = self.state();
        let mut board = Board::shared(&mut self.memory, row, masks);
        assert_eq!(board.masks(), masks);
        match call {
            0 => board.run_slot(&mut self.slots, 0, budget).map(drop),
            1 => board.run(&mut state, budget).map(drop),
            _ => (0..budget).try_for_each(|_| board.step(&mut state)),
        }
        .expect("not refused");
        if call > 0 {
            self.slots.write(0, &state).expect("a state");
        }
    }

    /// So many steps, uncut and alone, on a blank row.
    fn alone(recipe: Recipe, steps: u64) -> (Run, Row) {
        let (mut run, mut row) = (Run::start(recipe), Row::default());
        run.go(&mut row, masks(recipe), steps, 1);
        (run, row)
    }
}

fn own_words(row: &Row, masks: Masks) -> Vec<Word> {
    masks.own.iter().map(|k| row.word(k)).collect()
}

/// Worked out by hand from the comments of the sources.
#[test]
fn the_trims_are_those_on_paper() {
    let words = [(0, 0x1F9), (1, 0x100), (2, 0x105), (3, 0x110), (31, 1294)].to_vec();
    let steps = 235;
    assert_eq!(reference(), Trimmed { words, steps });
    let words = [(32, 0xFD), (33, 0x83), (34, 0x80), (63, 0xFFFF_FF01)].to_vec();
    let steps = 165;
    assert_eq!(oscillator(), Trimmed { words, steps });
}

#[test]
fn each_alone_comes_to_its_end() {
    for recipe in BOTH {
        let Trimmed { words, steps } = trimmed(recipe);
        let (run, row) = Run::alone(recipe, u64::MAX);
        assert_eq!(
            (run.state().stop(), run.state().count),
            (Ok(Stop::Ecall), steps)
        );
        assert_eq!(row.as_ref(), row_of(&words), "{}", recipe.name);
        // The same without masks: it keeps to its own words.
        let (mut plain, mut row) = (Run::start(recipe), Row::default());
        plain.go(&mut row, Masks::default(), u64::MAX, 1);
        assert_eq!((plain, row.as_ref()), (run, &row_of(&words)[..]));
    }
}

/// With the masks of the other it stops where it would burn its first word, and burns none.
#[test]
fn with_the_others_masks_each_stops_at_its_first_word() {
    for recipe in BOTH {
        let (mut run, mut row) = (Run::start(recipe), Row::default());
        run.go(&mut row, masks(recipe).swapped(), u64::MAX, 1);
        let (first, _) = trimmed(recipe).words[0];
        assert_eq!(run.state().stop(), Ok(Stop::NotOwned));
        assert_eq!(run.state().address(), 0x8000_0000 + 4 * first as u32);
        assert_eq!(row, Row::default());
    }
}

/// However both are cut, and whichever comes next: each ends as it does alone.
#[test]
fn in_turns_each_ends_as_it_does_alone() {
    let mut random = Random::new(0x7475_726e);
    for _ in 0..500 {
        let mut row = Row::default();
        let mut runs = BOTH.map(Run::start);
        while runs
            .iter()
            .any(|run| run.state().stop() == Ok(Stop::Paused))
        {
            let which = random.length(0, 1);
            let (budget, call) = (random.below(60), random.below(3));
            runs[which].go(&mut row, masks(BOTH[which]), budget, call);
            let (alone, alone_row) = Run::alone(BOTH[which], runs[which].state().count);
            let masks = masks(BOTH[which]);
            assert_eq!(own_words(&row, masks), own_words(&alone_row, masks));
            // At the ecall itself the uncut run of that many steps is still paused.
            assert_eq!(runs[which].memory, alone.memory);
        }
        for (recipe, run) in BOTH.into_iter().zip(runs) {
            assert_eq!(run, Run::alone(recipe, u64::MAX).0, "{}", recipe.name);
        }
        assert_eq!(row.as_ref(), trimmed_row());
    }
}

/// Whatever the other's words hold, they stay so, and make no difference.
#[test]
fn the_others_words_make_no_difference() {
    let mut random = Random::new(0x6f74_6865);
    for recipe in BOTH.into_iter().cycle().take(400) {
        let masks = masks(recipe);
        let mut others = Vec::new();
        for k in masks.other.iter() {
            if random.once_in(2) {
                others.push((k, random.word() | 1));
            }
        }
        let mut row = Row::try_from(&row_of(&others)[..]).expect("a row");
        let steps = random.below(300);
        let mut run = Run::start(recipe);
        run.go(&mut row, masks, steps, random.below(3));
        let (alone, alone_row) = Run::alone(recipe, steps);
        assert_eq!(run, alone);
        assert_eq!(own_words(&row, masks), own_words(&alone_row, masks));
        let untouched = own_words(&row, masks.swapped());
        let before = Row::try_from(&row_of(&others)[..]).expect("a row");
        assert_eq!(untouched, own_words(&before, masks.swapped()));
    }
}

// Through the tool.

fn with_die() -> Folder {
    let folder = Folder::new();
    for recipe in BOTH {
        folder.write(&format!("{}.bin", recipe.name), recipe.image);
    }
    folder.write("die.row", &[0; ROW]);
    folder
}

fn line(recipe: Recipe, more: &str) -> String {
    let Recipe { name, slot, .. } = recipe;
    format!("run {name}.bin --row die.row --slots line.slots --slot {slot} {more}")
}

/// The run in a slot is what it is after as many steps alone, as far as the slots file has it.
fn is_as_alone(folder: &Folder, recipe: Recipe) -> State {
    let state = Slots::new(folder.get("line.slots"))
        .read(recipe.slot)
        .expect("a state");
    let has_ended = state.stop() != Ok(Stop::Paused);
    let steps = if has_ended { u64::MAX } else { state.count };
    let (alone, alone_row) = Run::alone(recipe, steps);
    assert_eq!(state, alone.state(), "{}", recipe.name);
    let row = Row::try_from(&folder.get("die.row")[..]).expect("a row");
    let masks = masks(recipe);
    assert_eq!(own_words(&row, masks), own_words(&alone_row, masks));
    state
}

/// What the last call of a recipe tells of the words that it burnt.
fn burnt_facts(recipe: Recipe, out: &str) {
    let words = trimmed(recipe).words;
    let head = format!("\n{} words burnt since the recipe's start", words.len());
    assert!(out.contains(&head), "{out}");
    assert_eq!(out.matches("\nword ").count(), words.len(), "{out}");
    for (k, value) in words {
        let word = format!("\nword {k} burnt with {value} (0x{value:08x})");
        assert!(out.contains(&word), "{out}");
    }
}

/// In random turns of random budgets, the masks named each time or remembered.
#[test]
fn through_the_tool_in_turns_each_ends_as_it_does_alone() {
    let mut random = Random::new(0x746f_6f6c);
    for _ in 0..6 {
        let folder = with_die();
        let mut is_started = [false; 2];
        let mut has_ended = [false; 2];
        while has_ended != [true; 2] {
            let which = random.length(0, 1);
            let recipe = BOTH[which];
            if has_ended[which] {
                continue;
            }
            let starts = !is_started[which];
            let named = starts || random.once_in(2);
            let masks = if named { recipe.masks } else { "" };
            let budget = random.below(60);
            let mode = if is_started[which] {
                random.pick(&["", "--resume"])
            } else {
                ""
            };
            let done = folder.call(&line(recipe, &format!("--budget {budget} {masks} {mode}")));
            is_started[which] = true;
            has_ended[which] = done.code == 0;
            assert!(done.code == 0 || done.code == 10, "{}", done.err);
            // A start tells its masks, and so does a run that goes on without being given them.
            let is_told = done.err.contains(recipe.masks);
            assert_eq!(is_told, starts || !named, "{}", done.err);
            is_as_alone(&folder, recipe);
            if has_ended[which] {
                burnt_facts(recipe, &done.out);
            }
        }
        for recipe in BOTH {
            is_as_alone(&folder, recipe);
        }
        assert_eq!(folder.get("die.row"), trimmed_row());
    }
}

/// Starts a recipe with many saves and kills it after a random time.
fn killed(folder: &Folder, recipe: Recipe, random: &mut Random) {
    let more = format!("--budget 1000 --piece 7 {}", recipe.masks);
    let mut command = tool(folder, &line(recipe, &more));
    command.stdout(Stdio::null()).stderr(Stdio::null());
    let mut child = command.spawn().expect("started");
    std::thread::sleep(Duration::from_micros(random.below(60_000)));
    child.kill().expect("killed, or over already");
    child.wait().expect("over");
}

/// Whichever is killed, the other's next call carries out the save that was cut short; nothing of either
/// is lost, and nothing is done twice.
#[test]
fn killed_in_turns_each_ends_as_it_does_alone() {
    let mut random = Random::new(0x6b69_6c6c);
    let (mut in_a_save, mut parts) = (0, 0);
    while parts < 2 || in_a_save < 3 {
        assert!(parts < 40, "no kill has hit a save");
        let folder = with_die();
        // A start of each, so that the slots are there whatever is killed.
        let started =
            BOTH.map(|recipe| folder.call(&line(recipe, &format!("--budget 0 {}", recipe.masks))));
        assert_eq!(started.map(|start| start.code), [10, 10]);
        let mut counts = [0; 2];
        while counts != BOTH.map(|recipe| trimmed(recipe).steps) {
            let which = random.length(0, 1);
            if counts[which] < trimmed(BOTH[which]).steps {
                killed(&folder, BOTH[which], &mut random);
                in_a_save += u64::from(folder.has("die.row.journal"));
            }
            // The other's call, of no step.
            let other = folder.call(&line(BOTH[1 - which], "--budget 0 --resume"));
            assert!(other.code == 10 || other.code == 0, "{}", other.err);
            assert!(!folder.has("die.row.journal"));
            let now = BOTH.map(|recipe| is_as_alone(&folder, recipe).count);
            assert!(now[which] >= counts[which], "a saved step is lost");
            assert_eq!(now[1 - which], counts[1 - which]);
            counts = now;
        }
        for recipe in BOTH {
            let end = folder.call(&line(recipe, "--budget 1 --resume"));
            assert_eq!(end.code, 0, "{}", end.err);
            burnt_facts(recipe, &end.out);
        }
        assert_eq!(folder.get("die.row"), trimmed_row());
        parts += 1;
    }
}
