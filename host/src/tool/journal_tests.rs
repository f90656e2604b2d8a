//! Saves that are cut short at every place: what is found afterwards is the old moment or the new
//! one, whole. And journals that must not be carried out.
use super::end::End;
use super::error::Error;
use super::files::{self, Action, Lock};
use super::journal::{journal_of, path_bytes, pending, slot_name, ImageMark, Memory, Moment};
use super::known::{seen_of, Seen};
use super::place::{LastPaused, Paused, Place};
use super::settling::Locks;
use phuyurik::{Masks, Row, State, Stop, Words, RECORD, ROW, WORDS};
use std::fs;
use testing::Folder;

const SLOTS: usize = 3;
const SLOT: usize = 1;

/// A row of which the first words are burnt, every byte of their values other than 0.
fn row_of(words: usize) -> Row {
    let mut bytes = [0; ROW];
    for (k, word) in bytes.chunks_exact_mut(8).take(words).enumerate() {
        word.copy_from_slice(&[k as u8 + 1, 2, 3, 4, 1, 0, 0, 0]);
    }
    Row::from(bytes)
}

/// A moment of which no byte of state or memory is that of another `mark`, and which has burnt more
/// words than one of a lower one.
fn moment(folder: &Folder, row: &str, mark: u8) -> Moment {
    let mut state = State::fresh();
    (state.pc, state.count) = (2 * u32::from(mark), u64::from(mark));
    for n in 1..32 {
        state.set_reg(n, u32::from(mark));
    }
    Moment {
        slots_path: folder.file("slots"),
        slot: SLOT,
        last_paused: paused(place(folder), Words::ALL),
        run: Memory {
            row_path: folder.file(row),
            serial: u64::from(mark),
            image: ImageMark::of(b"image"),
            record: state.to_bytes(),
            row: row_of(5 * usize::from(mark)),
            burnt: (1 << (5 * mark)) - 1,
            told: false,
            bytes: vec![mark; 5],
            masks: Masks::default(),
        },
    }
}

fn paused(place: Place, own: Words) -> LastPaused {
    let mut last_paused = LastPaused::default();
    last_paused.remember(Paused { place, own });
    last_paused
}

fn place(folder: &Folder) -> Place {
    Place {
        slots_path: folder.file("slots"),
        slot: SLOT,
    }
}

fn stopped(mut moment: Moment) -> Moment {
    moment.run.record[136] = Stop::Ecall.number();
    moment.last_paused = LastPaused::default();
    moment
}

/// Slots whose other records would show a write beside the slot.
fn other_slots() -> Vec<u8> {
    (0..SLOTS * RECORD).map(|at| at as u8 | 1).collect()
}

/// The files as they are before a save: with an older moment, or with none.
fn prepare(folder: &Folder, old: Option<&Moment>) {
    let mut slots = other_slots();
    slots[SLOT * RECORD..][..RECORD].fill(0);
    folder.write("slots", &slots);
    for name in ["row", "slots.1.memory", "row.journal", "row.seen"] {
        let _ = fs::remove_file(folder.file(name));
    }
    if let Some(old) = old {
        files::carry_out(&old.saving()).expect("done");
    }
}

/// The moment that the files hold, if they hold one; they must agree with each other.
fn found(like: &Moment) -> Option<Moment> {
    let row_path = &like.run.row_path;
    assert!(!journal_of(row_path).exists());
    let slots = fs::read(&like.slots_path).expect("there");
    let (before, rest) = slots.split_at(SLOT * RECORD);
    let (record, after) = rest.split_at(RECORD);
    let others = other_slots();
    assert_eq!(before, &others[..before.len()]);
    assert_eq!(after, &others[others.len() - after.len()..]);
    let Some(run) = Memory::read(&like.slots_path, SLOT).expect("whole") else {
        assert!(!row_path.exists() && record == [0; RECORD]);
        assert_eq!(Seen::read(row_path).expect("none"), Seen::default());
        return None;
    };
    assert_eq!(run.record, record);
    assert_eq!(fs::read(row_path).expect("there"), run.row.as_ref());
    let found = Moment {
        run,
        ..like.clone()
    };
    assert_eq!(Seen::read(row_path).expect("whole"), found.seen());
    Some(found)
}

/// What the next run does first.
fn settle(like: &Moment) -> Result<usize, Error> {
    let mut locks = Locks::take(&like.run.row_path, &like.slots_path, like.slot, false)?;
    locks.settle_both().map(|(_, settled)| settled.len())
}

/// Does the first `done` actions, and of the next one so many hundredths if it is a write.
fn cut_short(actions: &[Action], done: usize, torn: Option<usize>) {
    files::carry_out(&actions[..done]).expect("done");
    let Some(hundredths) = torn else {
        return;
    };
    let front = |bytes: &[u8]| bytes[..bytes.len() * hundredths / 100].to_vec();
    match actions.get(done) {
        Some(Action::WriteTmp(path, bytes)) => {
            fs::write(files::tmp(path), front(bytes)).expect("written");
        }
        Some(Action::WriteAt(path, at, bytes)) => write_front(path, *at, &front(bytes)),
        Some(Action::Burn(path, row)) => match path.exists() {
            true => write_front(path, 0, &front((**row).as_ref())),
            false => fs::write(files::tmp(path), front((**row).as_ref())).expect("written"),
        },
        _ => {}
    }
}

fn write_front(path: &std::path::Path, at: u64, front: &[u8]) {
    let file = files::open_in_place(path).expect("writable");
    files::write_at(&file, at, front).expect("written");
}

/// Within a word of the row, too: 37 hundredths of it are 23 words and 5 bytes.
const TEARS: [Option<usize>; 5] = [None, Some(0), Some(37), Some(63), Some(99)];

fn every_cut(with_old: bool) {
    let folder = Folder::new();
    let old = with_old.then(|| moment(&folder, "row", 3));
    let new = moment(&folder, "row", 5);
    for done in 0..=9 {
        for torn in TEARS {
            prepare(&folder, old.as_ref());
            let actions = new.saving();
            assert_eq!(actions.len(), 9);
            cut_short(&actions, done, torn);
            // The journal stands from the second action to the last but one.
            let settled = settle(&new).expect("whole");
            assert_eq!(settled, usize::from((2..9).contains(&done)));
            let expected = if done < 2 { old.as_ref() } else { Some(&new) };
            assert_eq!(found(&new).as_ref(), expected, "{done} {torn:?}");
        }
    }
    let next = moment(&folder, "row", 7);
    files::carry_out(&next.saving()).expect("done");
    assert_eq!(found(&next), Some(next));
}

#[test]
fn a_save_cut_short_anywhere_gives_the_old_moment_or_the_new() {
    every_cut(true);
}

#[test]
fn a_first_save_cut_short_anywhere_gives_no_moment_or_the_new() {
    every_cut(false);
}

#[test]
fn a_recovery_cut_short_anywhere_is_done_again() {
    let folder = Folder::new();
    let (old, new) = (moment(&folder, "row", 3), moment(&folder, "row", 5));
    for done in 2..9 {
        for done_again in 0..7 {
            prepare(&folder, Some(&old));
            cut_short(&new.saving(), done, Some(37));
            let again = pending(&new.run.row_path).expect("whole").expect("there");
            assert_eq!(again, new);
            cut_short(&again.settling(), done_again, Some(63));
            assert_eq!(settle(&new).expect("whole"), 1);
            assert_eq!(found(&new).as_ref(), Some(&new), "{done} {done_again}");
        }
    }
}

/// Two runs on one row, each with words of its own, in slots 1 and 2: the first as it was saved and as it
/// is to be saved next, and the other.
fn in_turns(folder: &Folder) -> [Moment; 3] {
    let own = |first, last| Masks {
        own: Words::span(first, last),
        other: Words::NONE,
    };
    let mut runs = [3, 5, 4].map(|mark| moment(folder, "row", mark));
    for run in &mut runs[..2] {
        run.run.masks = own(0, 14);
    }
    runs[2].slot = SLOT + 1;
    runs[2].run.masks = own(15, 63);
    // The first was saved, then the other, now the first again.
    let mut last_paused = LastPaused::default();
    for at in [0, 2, 1] {
        runs[at].last_paused = last_paused.clone();
        runs[at].remember_place();
        last_paused = runs[at].last_paused.clone();
        runs[at].run.serial = [1, 3, 2][at];
    }
    runs
}

/// Whichever of two paused runs was cut short in its save, the other's next call finds the files as they
/// were, or as that save leaves them, and its own untouched.
#[test]
fn a_save_cut_short_anywhere_is_settled_by_the_other_run_of_the_row() {
    let folder = Folder::new();
    let [first, next, other] = in_turns(&folder);
    assert_eq!(next.seen().last_paused.iter().count(), 2);
    let begin = || {
        prepare(&folder, None);
        files::carry_out(&first.saving()).expect("done");
        files::carry_out(&other.saving()).expect("done");
    };
    begin();
    let before = without_tmp(&folder);
    files::carry_out(&next.saving()).expect("done");
    let after = without_tmp(&folder);
    for (done, torn) in (0..=9).flat_map(|done| TEARS.map(|torn| (done, torn))) {
        begin();
        cut_short(&next.saving(), done, torn);
        let settled = settle(&other).expect("whole");
        assert_eq!(settled, usize::from((2..9).contains(&done)));
        let expected = if done < 2 { &before } else { &after };
        assert_eq!(&without_tmp(&folder), expected, "{done} {torn:?}");
    }
}

fn without_tmp(folder: &Folder) -> Vec<(std::ffi::OsString, Vec<u8>)> {
    let mut all = all_files(folder);
    all.retain(|(name, _)| !name.as_encoded_bytes().ends_with(b".tmp"));
    all
}

/// Moments with masks come back as they were, and those without are of the old kinds.
#[test]
fn moments_with_and_without_masks_come_back() {
    let folder = Folder::new();
    let [first, next, other] = in_turns(&folder);
    // Also an end after which no run, or only one that has all words, is remembered.
    let (mut ended, mut beside) = (stopped(first.clone()), stopped(next.clone()));
    beside.last_paused = paused(other_place(&folder), Words::ALL);
    let mut plain = moment(&folder, "row", 3);
    ended.run.told = true;
    for moment in [&first, &next, &other, &ended, &beside] {
        is_kept(&folder, moment, [b"phuyJRN3", b"phuyMEM3"]);
    }
    is_kept(&folder, &plain, [b"phuyJRN2", b"phuyMEM2"]);
    // The run has none, but one that is remembered has.
    plain.last_paused = other.last_paused.clone();
    is_kept(&folder, &plain, [b"phuyJRN3", b"phuyMEM2"]);
}

fn is_kept(folder: &Folder, moment: &Moment, kinds: [&[u8; 8]; 2]) {
    prepare(folder, None);
    let (journal, memory) = (moment.to_journal(), moment.run.to_bytes());
    assert_eq!([&journal[..8], &memory[..8]], [&kinds[0][..], kinds[1]]);
    folder.write("row.journal", &journal);
    assert_eq!(
        pending(&folder.file("row")).expect("whole").as_ref(),
        Some(moment)
    );
    fs::remove_file(folder.file("row.journal")).expect("removed");
    fs::write(moment.memory_path(), &memory).expect("written");
    let read = Memory::read(&moment.slots_path, moment.slot).expect("whole");
    assert_eq!(read.as_ref(), Some(&moment.run));
    let seen = moment.seen();
    files::carry_out(&seen.writing(&moment.run.row_path)).expect("written");
    assert_eq!(Seen::read(&moment.run.row_path).expect("whole"), seen);
}

/// The library refuses masks that share a word, so no run was saved with them.
#[test]
fn a_saved_run_whose_masks_share_a_word_is_damaged() {
    let folder = Folder::new();
    let [mut first, ..] = in_turns(&folder);
    first.run.masks.other = first.run.masks.own;
    prepare(&folder, None);
    fs::write(first.memory_path(), first.run.to_bytes()).expect("written");
    let error = Memory::read(&first.slots_path, SLOT).expect_err("damaged");
    assert_eq!(error.exit_code(), 5);
    folder.write("row.journal", &first.to_journal());
    let error = pending(&folder.file("row")).expect_err("damaged");
    assert_eq!(error.exit_code(), 5);
}

/// The name and the bytes of every file but the locks.
fn all_files(folder: &Folder) -> Vec<(std::ffi::OsString, Vec<u8>)> {
    let mut all = Vec::new();
    for entry in fs::read_dir(folder.path()).expect("there") {
        let entry = entry.expect("there");
        if entry.path().extension() != Some("lock".as_ref()) {
            all.push((entry.file_name(), fs::read(entry.path()).expect("read")));
        }
    }
    all.sort();
    all
}

/// The settling fails with this code and these words, and changes nothing.
fn is_refused(folder: &Folder, journal: &Moment, code: u8, words: &[&str]) {
    fs::write(journal_of(&journal.run.row_path), journal.to_journal()).expect("written");
    let before = all_files(folder);
    let error = settle(journal).expect_err("refused");
    assert_eq!(error.exit_code(), code, "{error}");
    for word in words {
        assert!(error.to_string().contains(word), "{error}");
    }
    assert_eq!(all_files(folder), before);
}

#[test]
fn a_damaged_journal_is_an_error_and_changes_nothing() {
    let folder = Folder::new();
    let (old, new) = (moment(&folder, "row", 3), moment(&folder, "row", 5));
    prepare(&folder, Some(&old));
    let journal = journal_of(&new.run.row_path);
    let whole = new.to_journal();
    for at in 0..whole.len() {
        let mut damaged = whole.clone();
        damaged[at] ^= 0x10;
        for bytes in [&damaged[..], &whole[..at]] {
            fs::write(&journal, bytes).expect("written");
            let error = settle(&new).expect_err("damaged");
            assert_eq!(error.exit_code(), 5);
            assert!(error.to_string().contains("row.journal: damaged"));
        }
    }
    fs::remove_file(&journal).expect("removed");
    assert_eq!(found(&old), Some(old));
}

#[test]
fn a_journal_of_another_version_is_not_called_damaged() {
    let folder = Folder::new();
    let path = journal_of(&folder.file("row"));
    let sealed = super::sealed::seal(b"phuyJRN1", &[b"what version 1 had"]);
    fs::write(path, sealed).expect("written");
    let error = pending(&folder.file("row")).expect_err("of another version");
    assert_eq!(error.exit_code(), 3);
    assert!(error.to_string().contains("another version"));
}

#[test]
fn a_journal_of_another_row_is_an_error() {
    let folder = Folder::new();
    let other = moment(&folder, "other", 3);
    folder.write("row.journal", &other.to_journal());
    let error = pending(&folder.file("row")).expect_err("of another row");
    assert_eq!(error.exit_code(), 7);
    assert!(error.to_string().contains("other"));
}

#[test]
fn an_old_journal_takes_no_word_back() {
    let folder = Folder::new();
    let (old, new) = (moment(&folder, "row", 3), moment(&folder, "row", 5));
    prepare(&folder, Some(&new));
    let words = ["row.journal", "word 15 (burnt with", "word 24 (burnt with"];
    is_refused(&folder, &old, 9, &words);
    // The row alone knows, then what was seen of it alone.
    fs::remove_file(seen_of(&new.run.row_path)).expect("removed");
    is_refused(&folder, &old, 9, &words);
    prepare(&folder, Some(&new));
    folder.write("row", &[0; ROW]);
    is_refused(&folder, &old, 9, &words);
    fs::remove_file(folder.file("row")).expect("removed");
    is_refused(&folder, &old, 9, &words);
    // Another value is another word.
    let mut other = moment(&folder, "row", 7);
    other.run.row.as_mut()[8] = 99;
    prepare(&folder, Some(&new));
    is_refused(
        &folder,
        &other,
        9,
        &["word 1 (burnt with 67305986) is 67306083"],
    );
}

#[test]
fn an_old_journal_of_the_same_words_is_not_carried_out_again() {
    let folder = Folder::new();
    let old = moment(&folder, "row", 3);
    let mut new = moment(&folder, "row", 5);
    new.run.row = old.run.row.clone();
    prepare(&folder, Some(&new));
    is_refused(&folder, &old, 7, &["an old copy of a save"]);
    // Also where only the memory file knows that there was a later one.
    fs::remove_file(seen_of(&new.run.row_path)).expect("removed");
    is_refused(&folder, &old, 7, &["an old copy of a save"]);
    // Carried out, and the run in its slot gone on.
    let mut gone_on = new.clone();
    gone_on.run.record[0] ^= 2;
    prepare(&folder, Some(&gone_on));
    is_refused(&folder, &new, 7, &["an old copy of a save"]);
    fs::remove_file(seen_of(&new.run.row_path)).expect("removed");
    is_refused(&folder, &new, 7, &["an old copy of a save"]);
}

/// The last save's own journal, back beside a run whose end was told meanwhile.
#[test]
fn a_journal_that_was_carried_out_is_removed_also_where_the_end_was_told() {
    let folder = Folder::new();
    let end = stopped(moment(&folder, "row", 5));
    prepare(&folder, Some(&end));
    End::of(&end).expect("it has ended").was_told();
    let mut told = end.clone();
    told.run.told = true;
    assert_eq!(found(&end).as_ref(), Some(&told));
    fs::write(journal_of(&end.run.row_path), end.to_journal()).expect("written");
    assert_eq!(settle(&end).expect("settled"), 1);
    assert_eq!(found(&end), Some(told));
    // With what was seen gone it is carried out again, and the end told once more.
    fs::remove_file(seen_of(&end.run.row_path)).expect("removed");
    fs::write(journal_of(&end.run.row_path), end.to_journal()).expect("written");
    assert_eq!(settle(&end).expect("settled"), 1);
    assert_eq!(found(&end).as_ref(), Some(&end));
}

#[test]
fn only_the_run_that_ended_is_marked_as_told() {
    let folder = Folder::new();
    let end = stopped(moment(&folder, "row", 5));
    assert!(End::of(&moment(&folder, "row", 5)).is_none());
    let told = End::of(&end).expect("it has ended");
    // The next run of the row in this slot, another row's, and none at all.
    for other in [moment(&folder, "row", 6), moment(&folder, "other", 5)] {
        prepare(&folder, Some(&stopped(other)));
        let before = all_files(&folder);
        told.was_told();
        assert_eq!(all_files(&folder), before);
    }
    prepare(&folder, None);
    told.was_told();
    assert!(!end.memory_path().exists());
    // While another holds the slot it is left alone.
    prepare(&folder, Some(&end));
    let held = Lock::take(&slot_name(&end.slots_path, SLOT)).expect("free");
    told.was_told();
    assert_eq!(found(&end).as_ref(), Some(&end));
    drop(held);
    told.was_told();
    assert!(found(&end).expect("there").run.told);
}

#[test]
fn a_paused_run_is_remembered_until_it_has_ended_itself() {
    let folder = Folder::new();
    let none = LastPaused::default();
    let own = paused(place(&folder), Words::ALL);
    let elsewhere = paused(other_place(&folder), Words::ALL);
    let remembered = |mut moment: Moment, before: &LastPaused| {
        moment.last_paused = before.clone();
        moment.remember_place();
        moment.seen().last_paused
    };
    let run = moment(&folder, "row", 3);
    let ended = stopped(run.clone());
    for before in [&none, &own, &elsewhere] {
        assert_eq!(remembered(run.clone(), before), own);
    }
    assert_eq!(remembered(ended.clone(), &own), none);
    assert_eq!(remembered(ended.clone(), &none), none);
    assert_eq!(remembered(ended, &elsewhere), elsewhere);
}

fn other_place(folder: &Folder) -> Place {
    Place {
        slot: SLOT + 1,
        ..place(folder)
    }
}

#[test]
fn a_journal_overwrites_no_paused_run_of_another_row() {
    let folder = Folder::new();
    let (row, other) = (moment(&folder, "row", 5), moment(&folder, "other", 3));
    prepare(&folder, Some(&other));
    is_refused(&folder, &row, 7, &["row.journal", "paused run on", "other"]);
    // One that has ended may be replaced.
    prepare(&folder, None);
    fs::remove_file(seen_of(&other.run.row_path)).expect("removed");
    fs::remove_file(&other.run.row_path).expect("removed");
    files::carry_out(&stopped(other).saving()).expect("done");
    cut_short(&row.saving(), 2, None);
    assert_eq!(settle(&row).expect("settled"), 1);
    assert_eq!(found(&row), Some(row));
}

#[test]
fn what_a_journal_needs_must_be_sound() {
    let folder = Folder::new();
    let (old, new) = (moment(&folder, "row", 3), moment(&folder, "row", 5));
    prepare(&folder, Some(&old));
    folder.write("slots.1.memory", b"phuyMEM2");
    is_refused(&folder, &new, 5, &["slots.1.memory: damaged"]);
    prepare(&folder, Some(&old));
    folder.write("row.seen", b"phuySEE1");
    is_refused(&folder, &new, 5, &["row.seen: damaged"]);
    prepare(&folder, Some(&old));
    folder.write("slots", &[0; 2 * RECORD + 1]);
    is_refused(&folder, &new, 34, &["slots: refusal 4"]);
    folder.write("row", &[0; 100]);
    is_refused(&folder, &new, 32, &["row: refusal 2"]);
    prepare(&folder, Some(&old));
    fs::remove_file(folder.file("slots")).expect("removed");
    is_refused(&folder, &new, 6, &["slots: missing", "settle"]);
}

#[test]
fn a_journal_makes_the_row_and_lengthens_the_slots() {
    let folder = Folder::new();
    let (old, new) = (moment(&folder, "row", 3), moment(&folder, "row", 5));
    prepare(&folder, Some(&old));
    cut_short(&new.saving(), 2, None);
    fs::remove_file(folder.file("row")).expect("removed");
    folder.write("slots", &other_slots()[..RECORD]);
    assert_eq!(settle(&new).expect("settled"), 1);
    assert_eq!(found(&new), Some(new));
}

/// Without this a run of another row could take the slot, and the journal would then be in its way.
#[test]
fn a_slot_is_settled_for_the_row_that_used_it_last() {
    let folder = Folder::new();
    let last = moment(&folder, "last", 5);
    let next = moment(&folder, "next", 7);
    for lock_stays in [true, false] {
        prepare(&folder, None);
        let _ = fs::remove_file(folder.file("last"));
        let _ = fs::remove_file(folder.file("last.seen"));
        assert_eq!(settle(&last).expect("nothing to settle"), 0);
        // With the memory file there, it names the row where the lock file was removed.
        cut_short(&last.saving(), 4, None);
        if !lock_stays {
            fs::remove_file(folder.file("slots.1.lock")).expect("removed");
        }
        assert_eq!(settle(&next).expect("settled"), 1);
        assert_eq!(found(&last).as_ref(), Some(&last));
        assert_eq!(settle(&next).expect("settled"), 0);
        let mut lock = Lock::take(&slot_name(&next.slots_path, SLOT)).expect("free");
        let remark = lock.remark().expect("read");
        assert_eq!(remark, path_bytes(&next.run.row_path));
    }
}

#[test]
fn a_journal_for_another_slot_needs_its_lock() {
    let folder = Folder::new();
    let new = moment(&folder, "row", 5);
    prepare(&folder, None);
    cut_short(&new.saving(), 2, None);
    let before = all_files(&folder);
    let mut locks = Locks::take(&new.run.row_path, &new.slots_path, 2, false).expect("free");
    let held = Lock::take(&slot_name(&new.slots_path, SLOT)).expect("free");
    assert_eq!(locks.settle_both().expect_err("held").exit_code(), 4);
    assert_eq!(all_files(&folder), before);
    drop(held);
    assert_eq!(locks.settle_both().expect("free").1.len(), 1);
    assert_eq!(found(&new), Some(new));
}

/// Lock files can be removed by hand; then each save looks whether another run was here.
#[test]
fn a_save_sees_that_another_run_used_the_row_or_the_slot() {
    let folder = Folder::new();
    let (old, new) = (moment(&folder, "row", 3), moment(&folder, "row", 5));
    prepare(&folder, Some(&old));
    let code = |seen, memory| {
        new.may_be_saved(seen, memory)
            .map_err(|why| why.exit_code())
    };
    assert_eq!(code(3, None), Ok(()));
    assert_eq!(code(3, Some(3)), Ok(()));
    assert_eq!(code(2, Some(3)), Err(7));
    assert_eq!(code(3, Some(2)), Err(7));
    folder.write("row.journal", b"");
    assert_eq!(code(3, Some(3)), Err(7));
    fs::remove_file(folder.file("row.journal")).expect("removed");
    folder.write("row", row_of(WORDS).as_ref());
    assert_eq!(code(3, Some(3)), Err(9));
    folder.write("row", old.run.row.as_ref());
    files::carry_out(&moment(&folder, "other", 3).saving()).expect("done");
    assert_eq!(code(3, Some(3)), Err(7));
}
