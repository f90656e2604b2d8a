//! Runs that are killed at random moments and carried on: nothing is lost, and nothing done twice.
//! `PHUYURIK_KILLS` says how many kills must hit (200 if it is not set).
mod common;

use common::tool;
use phuyurik::{Board, State, Stop, RECORD, ROW};
use std::collections::BTreeMap;
use std::fs;
use std::os::unix::ffi::OsStrExt;
use std::os::unix::process::ExitStatusExt;
use std::path::PathBuf;
use std::process::{Command, Output, Stdio};
use std::time::{Duration, Instant};
use testing::{Folder, Random};

/// An instruction's bits, as GNU as has them.
enum Bits {
    Word(u32),
    Half(u16),
}
use Bits::{Half, Word};

/// Stirs 2,048 bytes of memory all the time, and burns a word after every 8,192 rounds: 30 words
/// over 2.9 million steps.
const RECIPE: [Bits; 21] = [
    Word(0x800003b7), //       lui    x7,0x80000   the next word to burn
    Half(0x4479),     //       c.li   x8,30        words to come
    Word(0x123454b7), //       lui    x9,0x12345   what is stirred in
    Word(0x00002537), // word: lui    x10,2        rounds to come
    Word(0x00d49593), // stir: slli   x11,x9,13
    Word(0x00b4c4b3), //       xor    x9,x9,x11
    Word(0x0114d593), //       srli   x11,x9,17
    Word(0x00b4c4b3), //       xor    x9,x9,x11
    Word(0x00549593), //       slli   x11,x9,5
    Word(0x00b4c4b3), //       xor    x9,x9,x11
    Word(0x7fc4f613), //       andi   x12,x9,0x7fc
    Word(0x08062683), //       lw     x13,128(x12)
    Word(0x009686b3), //       add    x13,x13,x9
    Word(0x08d62023), //       sw     x13,128(x12)
    Half(0x157d),     //       c.addi x10,-1
    Word(0xfc051be3), //       bne    x10,x0,stir
    Word(0x0093a023), //       sw     x9,0(x7)
    Half(0x0391),     //       c.addi x7,4
    Half(0x147d),     //       c.addi x8,-1
    Half(0xf079),     //       c.bnez x8,word
    Word(0x00000073), //       ecall
];
const MEMORY: usize = 128 + 2048;
const WORDS: usize = 30;
const ROUNDS: usize = 8192;
/// The ecall stops, so it does not retire.
const STEPS: u64 = 3 + (WORDS * (ROUNDS * 12 + 5)) as u64;

const PIECE: u64 = 100_000;
const SLOT: usize = 1;

/// State, memory and row of one step, the words burnt since the start, and the number of its save.
#[derive(Clone, Debug, PartialEq)]
struct Moment {
    record: Vec<u8>,
    memory: Vec<u8>,
    row: Vec<u8>,
    burnt: u64,
    serial: u64,
}

impl Moment {
    /// The first `count` steps, uncut. The save at the start has the number 1, and so on.
    fn at(count: u64) -> Moment {
        let mut memory = image();
        let mut row = vec![0; ROW];
        let mut state = State::fresh();
        let mut board = Board::new(&mut memory, &mut row);
        board.run(&mut state, count).expect("not refused");
        Moment {
            record: state.to_bytes().to_vec(),
            memory,
            burnt: burnt_mask(&row),
            row,
            serial: 1 + state.count.div_ceil(PIECE),
        }
    }

    /// The fields of a run, as the memory file has them and the journal at its end.
    fn from_fields(fields: &[Vec<u8>]) -> Moment {
        let [_, serial, _, _, record, row, burnt, _, memory] = fields else {
            panic!("{} fields", fields.len());
        };
        let number = |field: &[u8]| u64::from_le_bytes(field.try_into().expect("8 bytes"));
        Moment {
            record: record.clone(),
            memory: memory.clone(),
            row: row.clone(),
            burnt: number(burnt),
            serial: number(serial),
        }
    }

    fn count(&self) -> u64 {
        u64::from_le_bytes(self.record[128..136].try_into().expect("8 bytes"))
    }

    fn is_paused(&self) -> bool {
        self.record[136] == Stop::Paused.number()
    }
}

/// The burnt words of a row, a bit for each.
fn burnt_mask(row: &[u8]) -> u64 {
    let words = row.chunks_exact(8).enumerate();
    words.fold(0, |mask, (k, word)| mask | u64::from(word[4]) << k)
}

/// Whether every burnt word of one row is burnt in the other, with the same value.
fn is_within(row: &[u8], other: &[u8]) -> bool {
    let words = row.chunks_exact(8).zip(other.chunks_exact(8));
    row.len() == other.len()
        && words
            .into_iter()
            .all(|(one, two)| one[4] == 0 || one == two)
}

fn image() -> Vec<u8> {
    let mut image = Vec::new();
    for bits in &RECIPE {
        match bits {
            Word(word) => image.extend_from_slice(&word.to_le_bytes()),
            Half(half) => image.extend_from_slice(&half.to_le_bytes()),
        }
    }
    image.resize(MEMORY, 0);
    image
}

/// What the recipe burns, worked out here.
fn burnt_row() -> Vec<u8> {
    let mut row = vec![0; ROW];
    let mut stirred: u32 = 0x1234_5000;
    for word in row.chunks_exact_mut(8).take(WORDS) {
        for _ in 0..ROUNDS {
            stirred ^= stirred << 13;
            stirred ^= stirred >> 17;
            stirred ^= stirred << 5;
        }
        word[..4].copy_from_slice(&stirred.to_le_bytes());
        word[4] = 1;
    }
    row
}

/// The fields of a file that the tool seals; its own reader, apart from the tool's.
fn fields(bytes: &[u8]) -> Vec<Vec<u8>> {
    let mut rest = &bytes[8..bytes.len() - 8];
    let mut fields = Vec::new();
    while let Some((length, after)) = rest.split_first_chunk::<4>() {
        let (field, after) = after.split_at(u32::from_le_bytes(*length) as usize);
        fields.push(field.to_vec());
        rest = after;
    }
    fields
}

/// Whether a call told the end of the recipe, with all that it burnt, and once.
fn tells_the_end(done: &Output) -> bool {
    let out = String::from_utf8_lossy(&done.stdout);
    let end = format!("\ncount {STEPS}\nstop 1: ecall\n");
    let words = format!("\n{WORDS} words burnt since the recipe's start, ");
    out.matches(&end).count() == 1 && out.matches(&words).count() == 1
}

/// What the files of a part hold after a kill.
enum Found {
    /// The run's start was not saved yet.
    Nothing,
    /// In the journal, to be carried out by the next run.
    Journal(Moment),
    Files(Moment),
}

struct Stage {
    folder: Folder,
    /// The moments that may be saved, by their count.
    moments: BTreeMap<u64, Moment>,
    end: Moment,
    random: Random,
    kills: u64,
    /// Kills that hit between the journal's writing and its removal.
    in_a_save: u64,
    /// Kills that hit after the last save.
    after_the_end: u64,
    longest_delay: Duration,
}

impl Stage {
    fn new() -> Stage {
        let folder = Folder::new();
        folder.write("stir.bin", &image());
        let mut slots = vec![0x5B; 3 * RECORD];
        slots[SLOT * RECORD..][..RECORD].fill(0);
        folder.write("slots", &slots);
        let ends = (0..=STEPS / PIECE).map(|piece| piece * PIECE);
        let end = Moment::at(u64::MAX);
        let mut moments: BTreeMap<u64, Moment> =
            ends.map(|count| (count, Moment::at(count))).collect();
        moments.insert(end.count(), end.clone());
        Stage {
            folder,
            moments,
            end,
            random: Random::new(0x7068_7579_7572_696b),
            kills: 0,
            in_a_save: 0,
            after_the_end: 0,
            longest_delay: Duration::ZERO,
        }
    }

    fn file(&self, name: &str) -> PathBuf {
        self.folder.file(name)
    }

    /// How a run is carried on: by name or without, which is the same unless its end was told; then
    /// it would be started anew. Before the first save the part is new.
    fn mode(&mut self, row: &str, saved: Option<u64>) -> &'static str {
        match saved {
            None => "--new",
            Some(STEPS) if self.is_told(row) => "--resume",
            Some(_) => self.random.pick(&["", "--resume"]),
        }
    }

    /// Starts the tool, kills it after a random time, and gives how it ended and what it told.
    fn killed(&mut self, row: &str, saved: Option<u64>) -> Output {
        let limit = self.longest_delay.as_micros() as u64;
        let delay = Duration::from_micros(self.random.below(limit));
        let mode = self.mode(row, saved);
        let mut child = self.tool(row, mode, u64::MAX).spawn().expect("started");
        std::thread::sleep(delay);
        child.kill().expect("killed, or over already");
        child.wait_with_output().expect("over")
    }

    fn tool(&self, row: &str, mode: &str, budget: u64) -> Command {
        let files = format!("stir.bin --row {row} --slots slots --slot {SLOT}");
        let line = format!("run {files} --budget {budget} --piece {PIECE} {mode}");
        let mut command = tool(&self.folder, &line);
        command.stdout(Stdio::piped()).stderr(Stdio::null());
        command
    }

    /// What was seen: the row, the number, and where a run was last paused; if anything was.
    fn seen(&self, row: &str) -> Option<(Vec<u8>, u64, Vec<u8>)> {
        let fields = fields(&fs::read(self.file(&format!("{row}.seen"))).ok()?);
        let [serial, row, last_paused] = &fields[..] else {
            panic!("{} fields", fields.len());
        };
        let serial = u64::from_le_bytes(serial[..].try_into().expect("8 bytes"));
        Some((row.clone(), serial, last_paused.clone()))
    }

    /// What is seen after this save: the run's place, until it has ended.
    fn seen_after(&self, moment: &Moment) -> (Vec<u8>, u64, Vec<u8>) {
        let mut place = Vec::new();
        if moment.is_paused() {
            place.extend_from_slice(&(SLOT as u64).to_le_bytes());
            place.extend_from_slice(self.file("slots").as_os_str().as_bytes());
        }
        (moment.row.clone(), moment.serial, place)
    }

    /// Whether the end of the run on this row is marked as told.
    fn is_told(&self, row: &str) -> bool {
        let Ok(bytes) = fs::read(self.file("slots.1.memory")) else {
            return false;
        };
        let run = fields(&bytes);
        run[0] == self.file(row).as_os_str().as_bytes() && run[7] == [1]
    }

    fn found(&self, row: &str) -> Found {
        let there = fs::read(self.file(row)).ok();
        if let Ok(journal) = fs::read(self.file(&format!("{row}.journal"))) {
            let run = &fields(&journal)[3..];
            let moment = Moment::from_fields(run);
            assert_eq!(run[7], [0], "told before it was printed");
            let seen = self.seen(row).map(|(seen, ..)| seen);
            // Whatever was written by now, all that was burnt is in the journal.
            for part in there.iter().chain(&seen) {
                assert!(
                    is_within(part, &moment.row),
                    "a word is lost in the journal"
                );
            }
            return Found::Journal(moment);
        }
        let run = match fs::read(self.file("slots.1.memory")) {
            Ok(bytes) => fields(&bytes),
            Err(_) => return Found::Nothing,
        };
        let moment = Moment::from_fields(&run);
        let slots = fs::read(self.file("slots")).expect("there");
        assert_eq!(slots[SLOT * RECORD..][..RECORD], moment.record);
        if run[0] != self.file(row).as_os_str().as_bytes() {
            // The slot still has the end of the run before, all of it.
            assert!(moment == self.end);
            assert!(there.is_none(), "a row without its run");
            return Found::Nothing;
        }
        assert_eq!(there.expect("there"), moment.row);
        assert_eq!(self.seen(row), Some(self.seen_after(&moment)));
        Found::Files(moment)
    }

    /// The count of the saved moment, which must be exactly that of the uncut run; nothing before
    /// the first is saved.
    fn checked(&mut self, row: &str) -> Option<u64> {
        let moment = match self.found(row) {
            Found::Nothing => return None,
            Found::Journal(moment) => {
                self.in_a_save += 1;
                moment
            }
            Found::Files(moment) => moment,
        };
        let count = moment.count();
        let uncut = self.moments.get(&count).expect("the end of a piece");
        assert!(*uncut == moment, "a mixture of moments at count {count}");
        Some(count)
    }

    /// One part, from its start to the recipe's end, which is told by the last call, and before it
    /// only by one that was killed after it had told it.
    fn whole_run(&mut self, row: &str) {
        let (mut saved, mut was_told) = (None, false);
        loop {
            let done = self.killed(row, saved);
            was_told |= tells_the_end(&done);
            if done.status.signal() != Some(9) {
                assert_eq!(done.status.code(), Some(0), "the tool's own end");
                assert!(tells_the_end(&done), "an end without a report");
                break;
            }
            self.kills += 1;
            let now = self.checked(row);
            assert!(
                now >= saved,
                "{now:?} after {saved:?}: a saved step is lost"
            );
            assert!(was_told || !self.is_told(row), "marked as told unheard");
            saved = now;
            self.after_the_end += u64::from(saved == Some(STEPS));
            if self.kills.is_multiple_of(8) && saved.is_some() {
                was_told |= self.settles_at(row, saved);
            }
        }
        self.is_at_its_end(row);
        assert!(self.is_told(row));
    }

    /// A run of budget 0 puts the saved moment into its files, and does nothing else but tell of it.
    fn settles_at(&mut self, row: &str, saved: Option<u64>) -> bool {
        let mode = self.mode(row, saved);
        let done = self.tool(row, mode, 0).output().expect("started");
        let is_over = saved == Some(STEPS);
        assert_eq!(done.status.code(), Some(if is_over { 0 } else { 10 }));
        assert_eq!(tells_the_end(&done), is_over);
        assert!(matches!(self.found(row), Found::Files(_)));
        assert_eq!(self.checked(row), saved);
        is_over
    }

    fn is_at_its_end(&self, row: &str) {
        let Found::Files(moment) = self.found(row) else {
            panic!("the last save was not carried out");
        };
        assert!(moment == self.end, "the end differs from the uncut run's");
        let slots = fs::read(self.file("slots")).expect("there");
        let (before, after) = (&slots[..SLOT * RECORD], &slots[(SLOT + 1) * RECORD..]);
        assert!(before.iter().chain(after).all(|byte| *byte == 0x5B));
    }
}

#[test]
fn killed_runs_end_as_the_uncut_run() {
    let wanted = std::env::var("PHUYURIK_KILLS").unwrap_or_else(|_| "200".to_string());
    let wanted: u64 = wanted.parse().expect("PHUYURIK_KILLS is a number");
    let mut stage = Stage::new();
    assert_eq!(stage.end.count(), STEPS);
    assert_eq!(stage.end.record[136], Stop::Ecall.number());
    assert_eq!(stage.end.row, burnt_row());
    let clock = Instant::now();
    let uncut = stage.tool("uncut", "--new", u64::MAX).output();
    let uncut = uncut.expect("started");
    assert_eq!(uncut.status.code(), Some(0));
    assert!(tells_the_end(&uncut));
    stage.is_at_its_end("uncut");
    // The whole run has some 30 saves; a delay of a few of them lets every attempt come forward.
    stage.longest_delay = clock.elapsed() / 15 + Duration::from_millis(5);
    let mut runs = 0;
    while stage.kills < wanted {
        assert!(runs < 10 + wanted, "only {} kills hit", stage.kills);
        runs += 1;
        stage.whole_run(&format!("part-{runs}"));
    }
    let (kills, in_a_save, after) = (stage.kills, stage.in_a_save, stage.after_the_end);
    println!(
        "{kills} kills, {runs} whole runs, 0 differences ({in_a_save} kills within a save, {after} \
         after the end)"
    );
}
