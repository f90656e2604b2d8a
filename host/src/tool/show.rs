//! What people read: a row, a slot, the facts of a run.
use super::error::Error;
use super::files;
use super::going::Burnt;
use super::journal::{self, Moment};
use super::known::burnt_words;
use super::masks;
use super::row_file;
use super::run::Outcome;
use super::settling;
use super::slot::Slot;
use super::view::View;
use super::watch;
use phuyurik::{Masks, Row, Slots, State, Stop, Words, WORDS};
use std::fmt::Write;
use std::path::{Path, PathBuf};

const WINDOW: u32 = 0x8000_0000;

pub fn both(value: u32) -> String {
    format!("{value} (0x{value:08x})")
}

pub fn row(path: &Path, masks: Option<Masks>) -> Result<String, Error> {
    let path = files::canonical(path)?;
    let view = with_pending([path.clone()], |_| true);
    let Some(bytes) = view.row(&path)? else {
        return Err(Error::missing(&path, "missing"));
    };
    let row = row_file::row_in(&path, &bytes)?;
    masks.map_or(Ok(()), masks::are_accepted)?;
    Ok(row_text(&row, masks))
}

/// The files as the next run will find them once it has settled what is pending beside these rows.
/// Where it would not, they are as they stand.
fn with_pending(
    rows: impl IntoIterator<Item = PathBuf>,
    is_wanted: impl Fn(&Moment) -> bool,
) -> View {
    let mut view = View::default();
    for row in rows {
        let pending = journal::pending(&row).map(|found| found.filter(&is_wanted));
        match pending.and_then(|found| found.map(|save| may_be_seen(save, &view)).transpose()) {
            Ok(Some(save)) => {
                let row = row.display();
                watch::note(&format!(
                    "{row}: a save is under way or was cut short; shown as it will be when that is \
                     carried out"
                ));
                view.add(save);
            }
            Ok(None) => {}
            Err(why) => watch::note(&format!("{why}; shown is what the file holds")),
        }
    }
    view
}

fn may_be_seen(save: Moment, view: &View) -> Result<Moment, Error> {
    save.may_be_settled(view).map(|_| save)
}

fn row_text(row: &Row, masks: Option<Masks>) -> String {
    let words = burnt_words(row);
    let owners = masks.map(owners);
    let mut text = String::new();
    for (index, value) in &words {
        let address = WINDOW + 4 * *index as u32;
        let whose = |(_, words): &&(&str, Words)| words.contains(*index);
        let owner = owners.iter().flatten().find(whose);
        let owner = owner.map_or(String::new(), |(name, _)| format!(", {name}"));
        let value = both(*value);
        writeln!(text, "word {index:>2} at 0x{address:08x}: {value}{owner}")
            .expect("a string takes all");
    }
    text += &format!("{}\n", burnt_and_blank(row, Words::ALL));
    for (name, words) in owners
        .iter()
        .flatten()
        .filter(|(_, words)| !words.is_empty())
    {
        let (mask, burnt) = (words.mask(), burnt_and_blank(row, *words));
        text += &format!("{name}: {words} (0x{mask:016x}), {burnt}\n");
    }
    text
}

/// Whose the words are; each word is in one of these. Where no word was named as the other's, one that is
/// not its own may be the other's or no one's.
fn owners(masks: Masks) -> [(&'static str, Words); 3] {
    let neither = Words::from(!(masks.own | masks.other).mask());
    let neithers = match masks.other {
        Words::NONE => "not its own",
        _ => "no one's",
    };
    [
        ("own", masks.own),
        ("the other's", masks.other),
        (neithers, neither),
    ]
}

fn burnt_and_blank(row: &Row, words: Words) -> String {
    let all = words.iter().count();
    let burnt = burnt_words(row)
        .iter()
        .filter(|(k, _)| words.contains(*k))
        .count();
    format!("{burnt} burnt, {} blank", all - burnt)
}

pub fn slot(path: &Path, k: usize) -> Result<String, Error> {
    let path = files::canonical(path)?;
    let lock = files::lock_of(&journal::slot_name(&path, k));
    let remark = files::read_if_there(&lock, usize::MAX)?.unwrap_or_default();
    let rows = settling::last_row(&remark, &path, k);
    let view = with_pending(rows, |save| save.slots_path == path && save.slot == k);
    let Some(bytes) = view.slots(&path)? else {
        return Err(Error::missing(&path, "missing"));
    };
    let slots_path = &path;
    let state = Slots::new(&bytes)
        .read(k)
        .map_err(|error| Slot { slots_path, k }.refused(&bytes, error))?;
    Ok(slot_text(&state))
}

pub fn slot_text(state: &State) -> String {
    let mut text = format!("pc {}\n", both(state.pc));
    for (n, value) in state.registers().into_iter().enumerate() {
        if value != 0 {
            text += &format!("x{n} {}\n", both(value));
        }
    }
    text + &format!("count {}\n{}\n", state.count, stop_line(state))
}

/// The stop of a state, in words, and where it stopped, if the stop has an address; the library gives
/// none that has no name.
pub fn stop_line(state: &State) -> String {
    match state.stop() {
        Ok(stop) if stop.has_address() => {
            let (stop, address, word) = (stop_text(stop), state.address(), word_of(state));
            format!("{stop}, at 0x{address:08x}{word}")
        }
        Ok(stop) => stop_text(stop),
        Err(unknown) => format!("stop {}: {unknown}", unknown.number()),
    }
}

/// The word that was not the run's own: who looks at masks counts words, and not bytes.
fn word_of(state: &State) -> String {
    let offset = state.address().wrapping_sub(WINDOW);
    match state.stop() {
        Ok(Stop::NotOwned) if offset < 4 * WORDS as u32 => format!(" (word {})", offset / 4),
        _ => String::new(),
    }
}

pub fn stop_text(stop: Stop) -> String {
    format!("stop {}: {stop}", stop.number())
}

/// 0 for ecall: the recipe is done. A pause has a code of its own, for the loop that carries on.
pub fn stop_code(stop: Stop) -> u8 {
    match stop {
        Stop::Ecall => 0,
        _ => 10 + stop.number(),
    }
}

pub fn words(number: usize) -> String {
    match number {
        0 => "no word".to_string(),
        1 => "1 word".to_string(),
        many => format!("{many} words"),
    }
}

pub fn facts(done: &Outcome) -> String {
    let state = &done.state;
    let mut text = format!("retired {} in this run\n", done.retired);
    text += &format!("count {}\n", state.count);
    text += &format!("{}\n", stop_line(state));
    text += &format!("pc {}\n", both(state.pc));
    text + &match done.dry_run {
        true => would_be_burnt(&done.burnt),
        false => burnt(&done.burnt),
    }
}

fn burnt(all: &[Burnt]) -> String {
    let new = all.iter().filter(|word| word.in_this_run).count();
    let mut text = format!("{} burnt since the recipe's start", words(all.len()));
    if !all.is_empty() {
        text += &format!(", {new} of them in this run");
    }
    text += "\n";
    for word in all {
        let when = if word.in_this_run { " in this run" } else { "" };
        let (index, value) = (word.index, both(word.value));
        text += &format!("word {index} burnt with {value}{when}\n");
    }
    text
}

fn would_be_burnt(all: &[Burnt]) -> String {
    let (new, old): (Vec<Burnt>, Vec<Burnt>) = all.iter().partition(|word| word.in_this_run);
    let mut text = format!("{} burnt since the recipe's start\n", words(old.len()));
    for word in &old {
        text += &format!("word {} burnt with {}\n", word.index, both(word.value));
    }
    text += &format!("{} would be burnt in this run\n", words(new.len()));
    for word in &new {
        let (index, value) = (word.index, both(word.value));
        text += &format!("word {index} would be burnt with {value}\n");
    }
    text + "dry run: no file was changed\n"
}
