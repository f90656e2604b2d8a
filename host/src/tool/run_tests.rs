//! Runs that no command line can come to in a test's time.
use super::args::{Mode, Order};
use super::files::{self, Action};
use super::journal::{journal_of, memory_of, ImageMark, Memory, Moment};
use super::known::seen_of;
use super::place::LastPaused;
use super::run::run;
use super::show::stop_code;
use super::watch::Watch;
use phuyurik::{Masks, Row, State, Stop, RECORD};
use std::collections::BTreeMap;
use std::fs;
use std::path::{Path, PathBuf};
use testing::Folder;

/// Keeps what it is told.
#[derive(Default)]
struct Told {
    notes: Vec<String>,
    progress: Vec<(u64, u64, usize)>,
}

impl Watch for Told {
    fn note(&mut self, text: &str) {
        self.notes.push(text.to_string());
    }
    fn progress(&mut self, retired: u64, budget: u64, burnt: usize) {
        self.progress.push((retired, budget, burnt));
    }
    fn end(&mut self) {}
}

fn order(folder: &Folder, image: &[u8], budget: u64, piece: u64) -> Order {
    folder.write("image", image);
    Order {
        image: folder.file("image"),
        row: folder.file("row"),
        slots: folder.file("slots"),
        slot: 0,
        budget,
        piece,
        memory: None,
        mode: Mode::Either,
        new: true,
        accept_row: false,
        dry_run: false,
        masks: None,
    }
}

/// `c.j 0`: it never ends.
const ENDLESS: [u8; 2] = [0x01, 0xA0];

/// The save of a run that has come to this count, as the tool saves it.
fn saving(folder: &Folder, count: u64) -> Vec<Action> {
    let mut state = State::fresh();
    state.count = count;
    folder.write("slots", &[0; RECORD]);
    let run = Memory {
        row_path: folder.file("row"),
        serial: 1,
        image: ImageMark::of(&ENDLESS),
        record: state.to_bytes(),
        row: Row::default(),
        burnt: 0,
        told: false,
        bytes: ENDLESS.to_vec(),
        masks: Masks::default(),
    };
    let moment = Moment {
        slots_path: folder.file("slots"),
        slot: 0,
        last_paused: LastPaused::default(),
        run,
    };
    moment.saving()
}

#[test]
fn a_full_count_is_20() {
    let folder = Folder::new();
    files::carry_out(&saving(&folder, u64::MAX - 2)).expect("saved");
    let order = Order {
        new: false,
        mode: Mode::Resume,
        ..order(&folder, &ENDLESS, u64::MAX, u64::MAX)
    };
    let done = run(&order, &mut Told::default()).expect("not refused");
    assert_eq!((done.retired, done.state.count), (2, u64::MAX));
    assert_eq!(done.state.stop(), Ok(Stop::CountFull));
    assert_eq!(done.state.stop().map(stop_code), Ok(20));
}

#[test]
fn the_last_piece_is_what_is_left_of_the_budget() {
    let folder = Folder::new();
    let mut told = Told::default();
    let done = run(&order(&folder, &ENDLESS, 10, 4), &mut told).expect("not refused");
    assert_eq!((done.retired, done.state.stop()), (10, Ok(Stop::Paused)));
    assert_eq!(told.progress, [(4, 10, 0), (8, 10, 0), (10, 10, 0)]);
    assert_eq!(told.notes.len(), 1);
    assert!(told.notes[0].contains("a new part, its row blank"));
}

#[test]
fn a_journal_left_behind_is_carried_out_and_told_of() {
    let folder = Folder::new();
    files::carry_out(&saving(&folder, 5)[..2]).expect("the journal alone");
    let mut told = Told::default();
    let order = Order {
        new: false,
        mode: Mode::Resume,
        ..order(&folder, &ENDLESS, 1, 1)
    };
    let done = run(&order, &mut told).expect("carried out");
    assert_eq!(done.state.count, 6);
    assert_eq!(told.notes.len(), 1);
    assert!(told.notes[0].contains("cut short"));
}

/// Every file with its bytes.
fn all_files(folder: &Folder) -> BTreeMap<PathBuf, Vec<u8>> {
    let entries = fs::read_dir(folder.path()).expect("there");
    let paths = entries.map(|entry| entry.expect("there").path());
    paths
        .map(|path| (path.clone(), fs::read(path).expect("read")))
        .collect()
}

/// Whatever byte of the file is another, and wherever it ends: the run is not begun.
fn every_damage_is_seen(folder: &Folder, order: &Order, path: &Path) {
    let whole = fs::read(path).expect("there");
    for at in 0..whole.len() {
        let mut flipped = whole.clone();
        flipped[at] ^= 1 << (at % 8);
        for bytes in [&flipped[..], &whole[..at]] {
            fs::write(path, bytes).expect("written");
            let before = all_files(folder);
            let Err(error) = run(order, &mut Told::default()) else {
                panic!("{}, byte {at}: not seen", path.display());
            };
            assert_eq!(error.exit_code(), 5, "byte {at}: {error}");
            assert_eq!(all_files(folder), before);
        }
    }
    fs::write(path, whole).expect("written");
}

#[test]
fn every_flip_and_every_cut_of_the_tools_own_files_is_5_and_changes_nothing() {
    let folder = Folder::new();
    let first = order(&folder, &ENDLESS, 10, 4);
    run(&first, &mut Told::default()).expect("not refused");
    let (row, slots) = (folder.file("row"), folder.file("slots"));
    let files = [memory_of(&slots, 0), seen_of(&row), journal_of(&row)];
    let next = Order {
        new: false,
        ..first
    };
    for path in &files[..2] {
        every_damage_is_seen(&folder, &next, path);
    }
    // With a save that was cut short the journal is read, too, and before it is carried out the rest.
    let mut saved = Memory::read(&slots, 0).expect("whole").expect("there");
    saved.serial += 1;
    let moment = Moment {
        slots_path: slots,
        slot: 0,
        last_paused: LastPaused::default(),
        run: saved,
    };
    fs::write(journal_of(&row), moment.to_journal()).expect("written");
    for path in &files {
        every_damage_is_seen(&folder, &next, path);
    }
    let done = run(&next, &mut Told::default()).expect("whole again");
    assert_eq!(done.state.count, 20);
}
