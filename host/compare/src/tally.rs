//! What was compared, and what was reached by it.

use crate::masks::{MaskKind, Owner};
use crate::places::Place;
use crate::row_access::RowAccess;
use crate::row_store::RowStore;
use crate::scene::Answer;
use crate::shared::Shared;
use phuyurik::{Error, Refusal, Stop};
use second::{Fault, Masks, State};
use std::fmt::{Debug, Display};

/// What differed, in words.
pub struct Difference(pub String);

pub type Check = Result<(), Difference>;

/// A refusal's number, as the second emulator answers it. No other error has the number of one.
pub fn number(error: Error) -> u32 {
    error.refusal().map_or(u32::MAX, Refusal::number)
}

#[derive(Default)]
pub struct Tally {
    pub comparisons: u64,
    pub steps: u64,
    /// How often a paused state came to each stop.
    pub stops: [u64; Stop::ALL.len()],
    /// How often an address other than 0 came with the stop; pc + 2 for a fetch is counted apart.
    pub addresses: [u64; Stop::ALL.len()],
    pub second_halfwords: u64,
    /// How often a single step came to each kind of store into the row.
    pub row_stores: [u64; RowStore::ALL.len()],
    /// How often a single step of a recipe with masks came to each kind of access to the row.
    pub accesses: [[u64; RowAccess::OF_OWNER]; Owner::ALL.len()],
    /// How often each kind of masks was accepted, or refused with 16.
    pub masks: [u64; MaskKind::ALL.len()],
    /// How often two recipes on one row, or one on two rows, came to each of these.
    pub shared: [u64; Shared::ALL.len()],
    /// How often each refusal was answered; the first place stays 0.
    pub refusals: [u64; Refusal::ALL.len() + 1],
    /// How often refusal 3 told another word than 0, which would stand there without having been told.
    pub later_words: u64,
    /// How often a refused line had each kind of place.
    pub places: [u64; Place::ALL.len()],
}

impl Tally {
    /// Compares two answers; `call` says in words what was asked.
    pub fn same<T: PartialEq + Debug>(
        &mut self,
        call: impl FnOnce() -> String,
        proved: T,
        second: T,
    ) -> Check {
        self.comparisons += 1;
        if proved == second {
            return Ok(());
        }
        let call = call();
        Err(Difference(format!(
            "{call}\n  phuyurik: {proved:x?}\n  second:   {second:x?}"
        )))
    }

    /// As `same`, for bytes that are too many to show: shows where they begin to differ.
    pub fn same_bytes(
        &mut self,
        call: impl FnOnce() -> String,
        proved: &[u8],
        second: &[u8],
    ) -> Check {
        self.comparisons += 1;
        if proved == second {
            return Ok(());
        }
        let shorter = proved.len().min(second.len());
        let at = first_other(proved, second).unwrap_or(shorter);
        let near = |bytes: &[u8]| {
            let end = bytes.len().min(at + 16);
            format!("{:02x?} of {} bytes", &bytes[at..end], bytes.len())
        };
        Err(Difference(format!(
            "{}, bytes from {at} on\n  phuyurik: {}\n  second:   {}",
            call(),
            near(proved),
            near(second)
        )))
    }

    /// As `same`, for answers that may be refusals, which are counted.
    pub fn same_answer<T: PartialEq + Debug>(
        &mut self,
        call: impl FnOnce() -> String,
        proved: Result<T, Error>,
        second: Result<T, u32>,
    ) -> Check {
        self.note_refusal(&second);
        self.same(call, proved.map_err(number), second)
    }

    pub fn note_refusal<T>(&mut self, answer: &Result<T, u32>) {
        if let Err(number) = answer {
            self.refusals[*number as usize] += 1;
        }
    }

    /// As `note_refusal`, with the word that an entry told.
    pub fn note_refused(&mut self, answer: Answer) {
        self.note_refusal(&answer.map_err(|refused| refused.number));
        let word = answer.err().and_then(|refused| refused.word);
        self.later_words += u64::from(word.is_some_and(|word| word > 0));
    }

    /// Counts the kinds of masks that an answer depends on: not those that were never looked at.
    pub fn note_masks(&mut self, masks: Masks, answer: Answer) {
        let refusal = answer.map_or_else(|refused| refused.number, |_| 0);
        if refusal != 0 && refusal != Refusal::MasksShare.number() {
            return;
        }
        for (kind, count) in MaskKind::ALL.iter().zip(&mut self.masks) {
            *count += u64::from(kind.holds(masks));
        }
    }

    pub fn note_shared(&mut self, kind: Shared) {
        self.shared[kind as usize] += 1;
    }

    /// Counts the kinds of places that a text's refusal has.
    pub fn note_place(&mut self, text: &[u8], answer: Result<usize, Fault>) {
        let Err(fault) = answer else {
            return;
        };
        for (place, count) in Place::ALL.iter().zip(&mut self.places) {
            *count += u64::from(place.holds(text, fault));
        }
    }

    /// Counts the address of a state that has just stopped. An address of 0 shows nothing: it would
    /// stand there without having been set.
    pub fn note_address(&mut self, state: &State) {
        if state.address == 0 {
            return;
        }
        let is_second_halfword = state.address == state.pc.wrapping_add(2);
        if state.stop == Stop::FetchOutside.number() && is_second_halfword {
            self.second_halfwords += 1;
        } else {
            self.addresses[usize::from(state.stop)] += 1;
        }
    }

    /// How often each stop that has an address came with one, by the stop's number.
    fn addressed(&self) -> impl Iterator<Item = (u8, u64)> + '_ {
        let stops = Stop::ALL.iter().filter(|stop| stop.has_address());
        let numbers = stops.map(|stop| stop.number());
        numbers.map(|number| (number, self.addresses[usize::from(number)]))
    }

    /// How often each kind of store into the row was reached.
    fn stored(&self) -> impl Iterator<Item = (&'static str, u64)> + '_ {
        RowStore::ALL
            .map(RowStore::words)
            .into_iter()
            .zip(self.row_stores)
    }

    /// How often each kind of masks, and what two recipes came to, was reached.
    fn owned(&self) -> impl Iterator<Item = (&'static str, u64)> + '_ {
        let masks = MaskKind::ALL.map(MaskKind::words).into_iter();
        let shared = Shared::ALL.map(Shared::words).into_iter();
        let masks = masks.zip(self.masks);
        masks.chain(shared.zip(self.shared))
    }

    /// How often each kind of place of a refused line was reached.
    fn placed(&self) -> impl Iterator<Item = (&'static str, u64)> + '_ {
        Place::ALL.map(Place::words).into_iter().zip(self.places)
    }

    /// The stops, their addresses, the stores into the row, what masks can come to, the refusals, their
    /// words and their places that were never reached; a full comparison has none.
    pub fn missing(&self) -> Vec<String> {
        let mut reached = Vec::new();
        let mut note = |what: String, count: u64| reached.push((what, count));
        for (number, count) in self.stops.iter().enumerate() {
            note(format!("stop {number}"), *count);
        }
        for (number, count) in self.addressed() {
            note(format!("an address of stop {number}"), count);
        }
        note("stop 4 at pc + 2".to_string(), self.second_halfwords);
        for (kind, count) in self.stored() {
            note(format!("a store of {kind}"), count);
        }
        for (access, count) in RowAccess::all().zip(self.accesses.as_flattened()) {
            note(format!("with masks, {}", access.words()), *count);
        }
        for (kind, count) in self.owned() {
            note(format!("with masks, {kind}"), count);
        }
        for (number, count) in self.refusals.iter().enumerate().skip(1) {
            note(format!("refusal {number}"), *count);
        }
        note(
            "a word above 0 told by refusal 3".to_string(),
            self.later_words,
        );
        for (place, count) in self.placed() {
            note(format!("a refusal's place: {place}"), count);
        }
        reached.retain(|(_, count)| *count == 0);
        reached.into_iter().map(|(what, _)| what).collect()
    }

    pub fn summary(&self, differences: u32, seed: u64) -> String {
        let (comparisons, steps) = (grouped(self.comparisons), grouped(self.steps));
        let least = self.accesses.as_flattened().iter().min();
        let least = least.copied().unwrap_or(0);
        format!(
            "compare: {comparisons} comparisons ({steps} steps), {differences} differences, \
             seed {seed}, stops 0-{} reached: {}, addresses of stop {}, 4 at pc + 2: {}, \
             stores of {}, with masks: each of {} accesses: {} or more, {}, \
             refusals 1-{} reached: {}, words above 0: {}, places: {}",
            self.stops.len() - 1,
            counts(&self.stops),
            named(self.addressed()),
            grouped(self.second_halfwords),
            named(self.stored()),
            self.accesses.as_flattened().len(),
            grouped(least),
            named(self.owned()),
            self.refusals.len() - 1,
            counts(&self.refusals[1..]),
            grouped(self.later_words),
            named(self.placed())
        )
    }
}

/// The first place at which two runs of bytes differ.
pub fn first_other(left: &[u8], right: &[u8]) -> Option<usize> {
    left.iter().zip(right).position(|(a, b)| a != b)
}

fn counts(numbers: &[u64]) -> String {
    let numbers: Vec<String> = numbers.iter().map(|n| grouped(*n)).collect();
    numbers.join(" ")
}

/// Each count after what it counts.
fn named<T: Display>(counts: impl Iterator<Item = (T, u64)>) -> String {
    let counts = counts.map(|(name, count)| format!("{name}: {}", grouped(count)));
    counts.collect::<Vec<_>>().join(", ")
}

/// A number with a comma before each three digits.
pub fn grouped(number: u64) -> String {
    let digits = number.to_string();
    let mut text = String::new();
    for (place, digit) in digits.chars().enumerate() {
        if place > 0 && (digits.len() - place).is_multiple_of(3) {
            text.push(',');
        }
        text.push(digit);
    }
    text
}

#[cfg(test)]
mod tests {
    use super::*;
    use second::Refused;

    #[test]
    fn numbers_are_grouped_by_three() {
        let texts = [0, 12, 123, 1234, 123_456, 1_234_567].map(grouped);
        assert_eq!(texts, ["0", "12", "123", "1,234", "123,456", "1,234,567"]);
    }

    #[test]
    fn bytes_are_the_same_only_if_all_are() {
        let mut tally = Tally::default();
        let mut same = |a: &[u8], b: &[u8]| tally.same_bytes(String::new, a, b).is_ok();
        assert!(same(&[], &[]) && same(&[1, 2, 3], &[1, 2, 3]));
        assert!(!same(&[1, 2, 3], &[1, 2]) && !same(&[0; 40], &[0; 41]));
        assert!(!same(&[0, 0, 1], &[0, 0, 2]));
    }

    #[test]
    fn what_was_never_reached_is_missing() {
        let mut tally = Tally {
            stops: [1; Stop::ALL.len()],
            row_stores: [1; RowStore::ALL.len()],
            accesses: [[1; RowAccess::OF_OWNER]; Owner::ALL.len()],
            masks: [1; MaskKind::ALL.len()],
            shared: [1; Shared::ALL.len()],
            refusals: [1; Refusal::ALL.len() + 1],
            later_words: 1,
            places: [1; Place::ALL.len()],
            ..Tally::default()
        };
        for stop in (3..=9).chain([11]) {
            assert!(tally
                .missing()
                .contains(&format!("an address of stop {stop}")));
            tally.note_address(&stopped(stop, 0));
            tally.note_address(&stopped(stop, 8));
        }
        assert_eq!(tally.missing(), ["stop 4 at pc + 2"]);
        tally.note_address(&stopped(4, 10));
        assert!(tally.missing().is_empty());
        (tally.stops[10], tally.refusals[9]) = (0, 0);
        (tally.refusals[14], tally.refusals[15]) = (0, 0);
        let numbers = ["stop 10", "refusal 9", "refusal 14", "refusal 15"];
        assert_eq!(tally.missing(), numbers);
        for kind in RowStore::ALL {
            let name = format!("a store of {}", kind.words());
            tally.row_stores[kind as usize] = 0;
            assert!(tally.missing().contains(&name));
        }
        tally.places = [0; Place::ALL.len()];
        for place in Place::ALL {
            let name = format!("a refusal's place: {}", place.words());
            assert!(tally.missing().contains(&name));
        }
    }

    #[test]
    fn what_masks_never_came_to_is_missing() {
        let kinds = MaskKind::ALL.map(MaskKind::words).map(str::to_string);
        let shared = Shared::ALL.map(Shared::words).map(str::to_string);
        let accesses = RowAccess::all().map(RowAccess::words);
        let missing = Tally::default().missing();
        for what in accesses.chain(kinds).chain(shared) {
            assert!(missing.contains(&format!("with masks, {what}")), "{what}");
        }
        let mut tally = Tally::default();
        tally.note_shared(Shared::WentOn);
        let found = |tally: &Tally| missing.len() - tally.missing().len();
        assert_eq!(found(&tally), 1);
        let equal = Masks { own: 1, other: 1 };
        tally.note_masks(equal, Err(3.into()));
        assert_eq!(found(&tally), 1);
        tally.note_masks(equal, Err(16.into()));
        assert_eq!(found(&tally), 4);
        tally.note_masks(Masks::default(), Ok(0));
        assert_eq!(found(&tally), 5);
    }

    #[test]
    fn a_word_of_0_shows_nothing() {
        let mut tally = Tally::default();
        let mut note = |number, word| {
            tally.note_refused(Err(Refused { number, word }));
            tally.later_words
        };
        assert_eq!(
            [note(3, Some(0)), note(14, None), note(3, Some(63))],
            [0, 0, 1]
        );
        tally.note_refused(Ok(7));
        assert_eq!((tally.refusals[3], tally.refusals[14]), (2, 1));
        let missing = "a word above 0 told by refusal 3".to_string();
        assert!(!tally.missing().contains(&missing));
        assert!(Tally::default().missing().contains(&missing));
    }

    /// A state at 8.
    fn stopped(stop: u8, address: u32) -> State {
        State {
            pc: 8,
            stop,
            address,
            ..State::fresh()
        }
    }

    #[test]
    fn an_address_of_0_shows_nothing_and_the_second_halfword_is_no_first() {
        let mut tally = Tally::default();
        tally.note_address(&stopped(6, 0));
        tally.note_address(&stopped(4, 10));
        assert_eq!((tally.addresses[6], tally.addresses[4]), (0, 0));
        tally.note_address(&stopped(6, 10));
        assert_eq!((tally.addresses[6], tally.second_halfwords), (1, 1));
    }
}
