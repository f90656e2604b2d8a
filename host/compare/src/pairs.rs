//! Two rows that differ only in words which are not the recipe's own: the two runs must be the same.

use crate::masks::{self, Owner};
use crate::scene::{self, compare, Entry, Scene};
use crate::shared::Shared;
use crate::tally::{Check, Difference, Tally};
use testing::Random;

pub fn round(tally: &mut Tally, random: &mut Random) -> Check {
    let masks = masks::disjoint(random);
    let mut left = match random.below(3) {
        0 => scene::sound(random),
        _ => scene::sharing(random, masks),
    };
    left.masks = masks;
    let other_row = scene::row(random);
    let mut right = left.clone();
    right.row = masks::joined(masks.own, &left.row, &other_row);
    note_rows(tally, &left, &right);
    same_end(tally, Entry::RunMasked, &left, &right)?;
    same_end(tally, Entry::RunSlotMasked, &left, &right)?;
    for _ in 0..random.length(1, 20) {
        (left, right) = same_end(tally, Entry::StepMasked, &left, &right)?;
    }
    Ok(())
}

/// Both ends, which differ only in the words that differed before.
fn same_end(
    tally: &mut Tally,
    entry: Entry,
    left: &Scene,
    right: &Scene,
) -> Result<(Scene, Scene), Difference> {
    let (a, b) = (compare(tally, entry, left)?, compare(tally, entry, right)?);
    let call = |what| {
        let (masks, state) = (left.masks, &left.state);
        move || format!("{entry:?} on two rows (in their order), {what}, {masks:x?}: {state:x?}")
    };
    tally.same(call("the answer"), a.answer, b.answer)?;
    let (a, b) = (a.scene, b.scene);
    tally.same(call("the state"), &a.state, &b.state)?;
    tally.same_bytes(call("memory"), &a.mem, &b.mem)?;
    tally.same_bytes(call("the slots"), &a.slots, &b.slots)?;
    let left_with_rights = masks::joined(left.masks.own, &a.row, &b.row);
    tally.same_bytes(call("its own words"), &left_with_rights, &b.row)?;
    note_end(tally, left, right, &a);
    Ok((a, b))
}

/// The words in which two rows differ, as a mask.
fn differing(left: &[u8], right: &[u8]) -> u64 {
    let records = left.chunks_exact(8).zip(right.chunks_exact(8));
    let differ = records.map(|(a, b)| u64::from(a != b));
    differ.enumerate().fold(0, |mask, (k, bit)| mask | bit << k)
}

fn note_rows(tally: &mut Tally, left: &Scene, right: &Scene) {
    let differing = differing(&left.row, &right.row);
    let of = |owner| {
        let mut words = (0..64).filter(|k| differing >> k & 1 == 1);
        words.any(|k| Owner::of(left.masks, k) == owner)
    };
    if of(Owner::Other) {
        tally.note_shared(Shared::PairDiffersInOthers);
    }
    if of(Owner::Nobody) {
        tally.note_shared(Shared::PairDiffersInNobodys);
    }
}

fn note_end(tally: &mut Tally, left: &Scene, right: &Scene, end: &Scene) {
    let differing = differing(&left.row, &right.row);
    if differing == 0 || left.state.stop != 0 {
        return;
    }
    if masks::burnt(&end.row) != masks::burnt(&left.row) {
        tally.note_shared(Shared::PairBurnt);
    }
    let word = scene::foreign_word(&end.state);
    if word.is_some_and(|word| differing >> word & 1 == 1) {
        tally.note_shared(Shared::PairStoppedWhereItDiffers);
    }
}

#[cfg(test)]
mod tests {
    use super::*;

    #[test]
    fn words_that_differ_are_told_by_their_bits() {
        let (left, mut right) = ([0; 512], [0; 512]);
        assert_eq!(differing(&left, &right), 0);
        (right[7], right[8 * 63]) = (1, 1);
        assert_eq!(differing(&left, &right), 1 << 63 | 1);
    }
}
