//! Burnt words that a run or a save knows of, and that must not be forgotten with it.
use super::super::journal::Memory;
use super::super::known::{self, Known, Seen};
use super::super::place::{LastPaused, Paused};
use super::super::view::View;
use super::plan::{has_folder, Plan};
use super::typed;
use phuyurik::{Row, Word};

/// Such as `word 4 burnt with 7, word 5 burnt with 9`.
pub fn text(words: &[(usize, u32)]) -> String {
    let one = |(index, value): &(usize, u32)| format!("word {index} burnt with {value}");
    words.iter().map(one).collect::<Vec<_>>().join(", ")
}

/// A row with these words burnt too, but for those that it has with another value.
pub fn with_words(row: &Row, words: &[(usize, u32)]) -> Row {
    let mut row = row.clone();
    for (index, value) in words {
        if row.word(*index) == Word::Blank {
            let bytes = &mut row.as_mut()[8 * index..][..8];
            bytes[..4].copy_from_slice(&value.to_le_bytes());
            bytes[4] = 1;
        }
    }
    row
}

/// Puts what a run knows of its row into `ROW.seen`, before the run is given up; where that cannot
/// be, it is told. What is remembered there of paused runs becomes what the last argument makes of
/// it.
pub fn keep(plan: &mut Plan, view: &View, run: &Memory, last_paused: impl FnOnce(&mut LastPaused)) {
    let words = known::burnt_words(&run.row);
    let (row, told) = (typed::name(&run.row_path), text(&words));
    let seen = match view.seen(&run.row_path) {
        _ if !has_folder(&run.row_path) => Err(format!(
            "the folder of {row} is gone; note what was known of it"
        )),
        Err(why) => Err(format!("{why}; note what else is known of {row}")),
        Ok(seen) => Ok(seen),
    };
    match seen {
        Ok(seen) => {
            let mut after = seen.clone();
            add(plan, run, &words, &mut after);
            last_paused(&mut after.last_paused);
            say_place(plan, run, &seen, &after);
            if after != seen {
                plan.act(after.writing(&run.row_path));
            }
        }
        Err(_) if words.is_empty() => {}
        Err(why) => plan.say(format!("{why}: {told}")),
    }
}

/// A run with a number that was seen already knows nothing more, unless its part was exchanged
/// since.
fn add(plan: &mut Plan, run: &Memory, words: &[(usize, u32)], seen: &mut Seen) {
    let (name, told) = (typed::name(&known::seen_of(&run.row_path)), text(words));
    let lost = Known::of(&run.row).lost_in(&seen.row);
    if lost.is_empty() {
        if !words.is_empty() {
            plan.say(format!("{name} knows what the run knew: {told}"));
        }
        return;
    }
    if run.serial <= seen.serial {
        return plan.say(format!(
            "the row was accepted as another one since; the run knew: {told}"
        ));
    }
    seen.serial = run.serial;
    seen.row = with_words(&seen.row, words);
    plan.say(format!("{name} comes to know {told}"));
    let other = Known::of(&run.row).lost_in(&seen.row);
    if !other.is_empty() {
        let told = known::text(&other);
        plan.say(format!(
            "{name} knows some of them otherwise, and keeps them so: {told}"
        ));
    }
}

fn say_place(plan: &mut Plan, run: &Memory, before: &Seen, after: &Seen) {
    let name = typed::name(&known::seen_of(&run.row_path));
    let is_new = |run: &&Paused| before.last_paused.iter().all(|known| known != *run);
    match after.last_paused.iter().find(is_new) {
        _ if after.last_paused == before.last_paused => {}
        Some(Paused { place, .. }) => {
            let (slot, slots) = (place.slot, typed::name(&place.slots_path));
            plan.say(format!(
                "{name} is told that a run is paused in slot {slot} of {slots}"
            ));
        }
        None => plan.say(format!("{name} is told that this run is not paused")),
    }
}

#[cfg(test)]
mod tests {
    use super::*;

    #[test]
    fn words_are_added_and_none_is_changed() {
        let one = with_words(&Row::default(), &[(0, 7), (63, u32::MAX)]);
        assert_eq!(known::burnt_words(&one), [(0, 7), (63, u32::MAX)]);
        let two = with_words(&one, &[(0, 8), (5, 9)]);
        assert_eq!(known::burnt_words(&two), [(0, 7), (5, 9), (63, u32::MAX)]);
        assert_eq!(
            text(&[(0, 7), (5, 9)]),
            "word 0 burnt with 7, word 5 burnt with 9"
        );
    }
}
