//! Two recipes that take turns on one row, their masks swapped, cut at random: each must end as it does
//! alone on the first row, and the row with the words of both. Between turns there are calls that are
//! refused, and guests, whose masks are not swapped: the first one ends as alone also where they burn
//! words of the second.

use crate::cuts::cuts;
use crate::masks;
use crate::scene::{self, compare, Entry, Scene};
use crate::shared::Shared;
use crate::tally::{Check, Difference, Tally};
use second::Masks;
use testing::Random;

/// One of the two: where it began, where it stands, and the budgets that are left, the next one last.
struct Recipe {
    start: Scene,
    now: Scene,
    budgets: Vec<u64>,
    retired: u64,
    /// The words that it has burnt so far.
    burnt: u64,
}

pub fn round(tally: &mut Tally, random: &mut Random) -> Check {
    let masks = masks::of_two(random);
    let first = scene::sharing(random, masks);
    let second = scene::sharing(random, masks.swapped());
    let mut row = first.row.clone();
    let mut recipes = [first, second].map(|scene| Recipe::new(random, scene, &row));
    let mut guests = 0;
    while recipes.iter().any(|recipe| !recipe.budgets.is_empty()) {
        let turn = random.length(0, 1);
        let others = recipes[1 - turn].burnt;
        recipes[turn].take_turn(tally, random, &mut row, others)?;
        match random.below(8) {
            0 => recipes[turn].is_refused(tally, random, &mut row)?,
            1 => guests |= burnt_by_guest(tally, random, &mut row, masks)?,
            _ => {}
        }
    }
    if recipes.iter().all(|recipe| recipe.burnt != 0) {
        tally.note_shared(Shared::BothBurnt);
    }
    let mut side_by_side = masks::joined(guests, &row, &recipes[0].start.row);
    for recipe in &recipes {
        let own = recipe.start.masks.own;
        // Guests leave the first one's words alone, so that it is always compared.
        let left = match own & masks.other & guests {
            0 => recipe.ends_as_alone(tally, &row)?.row,
            _ => row.clone(),
        };
        side_by_side = masks::joined(own, &left, &side_by_side);
    }
    tally.same_bytes(|| words("the row", &recipes[0]), &row, &side_by_side)
}

/// A run of a third one, none of whose own words is the first's; mostly none is the second's either.
/// Gives the words that it burnt.
fn burnt_by_guest(
    tally: &mut Tally,
    random: &mut Random,
    row: &mut Vec<u8>,
    masks: Masks,
) -> Result<u64, Difference> {
    let nobodys = !(masks.own | masks.other);
    let own = random.pick(&[!masks.own, nobodys, nobodys, nobodys]);
    let other = random.number() & !own;
    let mut guest = scene::sharing(random, Masks { own, other });
    guest.row.clone_from(row);
    let after = compare(tally, Entry::RunMasked, &guest)?;
    after.answer.map_err(problem)?;
    let burnt = masks::burnt(&after.scene.row) & !masks::burnt(row);
    *row = after.scene.row;
    if burnt != 0 {
        tally.note_shared(Shared::GuestBurnt);
    }
    if burnt & masks.other != 0 {
        tally.note_shared(Shared::GuestBurntOthers);
    }
    Ok(burnt)
}

impl Recipe {
    fn new(random: &mut Random, mut scene: Scene, row: &[u8]) -> Recipe {
        scene.row = row.to_vec();
        Recipe {
            budgets: cuts(random, scene.budget),
            now: scene.clone(),
            start: scene,
            retired: 0,
            burnt: 0,
        }
    }

    /// The next piece, if there is one, on the row as both have left it.
    fn take_turn(
        &mut self,
        tally: &mut Tally,
        random: &mut Random,
        row: &mut Vec<u8>,
        others: u64,
    ) -> Check {
        let Some(budget) = self.budgets.pop() else {
            return Ok(());
        };
        (self.now.row, self.now.budget) = (row.clone(), budget);
        let was_paused = self.now.state.stop == 0;
        let before = self.retired;
        match random.below(3) {
            0 => self.by_steps(tally)?,
            1 => self.by_run(tally)?,
            _ => self.in_slot(tally)?,
        }
        self.burnt |= masks::burnt(&self.now.row) & !masks::burnt(row);
        row.clone_from(&self.now.row);
        if others != 0 && self.retired > before {
            tally.note_shared(Shared::WentOn);
        }
        if was_paused && is_at(&self.now, others) {
            tally.note_shared(Shared::StoppedAtBurn);
        }
        Ok(())
    }

    /// A call of it that is refused between turns: it goes on from what that left.
    fn is_refused(&mut self, tally: &mut Tally, random: &mut Random, row: &mut Vec<u8>) -> Check {
        let mut call = self.now.clone();
        call.row.clone_from(row);
        let (fault, number) =
            random.pick(&[(Shared::RefusedForMasks, 16), (Shared::RefusedForPc, 5)]);
        match fault {
            Shared::RefusedForMasks => call.masks = masks::sharing(random),
            _ => call.state.pc |= 1,
        }
        let entry = random.pick(&[Entry::StepMasked, Entry::RunMasked]);
        let after = compare(tally, entry, &call)?;
        (self.now.mem, *row) = (after.scene.mem, after.scene.row);
        tally.note_shared(fault);
        let call = || format!("{entry:?} with {fault:?}");
        tally.same(call, after.answer, Err(number.into()))
    }

    fn by_steps(&mut self, tally: &mut Tally) -> Check {
        for _ in 0..self.now.budget {
            let before = self.now.state.count;
            self.now = compare(tally, Entry::StepMasked, &self.now)?.scene;
            self.retired += self.now.state.count - before;
        }
        self.now = compare(tally, Entry::WriteSlot, &self.now)?.scene;
        Ok(())
    }

    fn by_run(&mut self, tally: &mut Tally) -> Check {
        let after = compare(tally, Entry::RunMasked, &self.now)?;
        self.retired += after.answer.map_err(problem)?;
        self.now = compare(tally, Entry::WriteSlot, &after.scene)?.scene;
        Ok(())
    }

    fn in_slot(&mut self, tally: &mut Tally) -> Check {
        let after = compare(tally, Entry::RunSlotMasked, &self.now)?;
        self.retired += after.answer.map_err(problem)?;
        self.now = compare(tally, Entry::ReadSlot, &after.scene)?.scene;
        Ok(())
    }

    /// What it gets back is what it gets alone, on the first row and in one piece; its end there.
    fn ends_as_alone(&self, tally: &mut Tally, row: &[u8]) -> Result<Scene, Difference> {
        let alone = compare(tally, Entry::RunMasked, &self.start)?;
        let call = |what| move || words(what, self);
        tally.same(call("the number retired"), Ok(self.retired), alone.answer)?;
        let (now, alone) = (&self.now, alone.scene);
        tally.same(call("the state"), &now.state, &alone.state)?;
        tally.same_bytes(call("memory"), &now.mem, &alone.mem)?;
        let own = masks::joined(alone.masks.own, row, &alone.row);
        tally.same_bytes(call("its own words"), &own, &alone.row)?;
        Ok(alone)
    }
}

/// Whether it stopped at one of these words because it is not its own.
fn is_at(scene: &Scene, words: u64) -> bool {
    scene::foreign_word(&scene.state).is_some_and(|word| words >> word & 1 == 1)
}

/// What differs between a recipe in turns and the same alone.
fn words(what: &str, recipe: &Recipe) -> String {
    let (budget, masks, state) = (recipe.start.budget, recipe.start.masks, &recipe.start.state);
    format!("{what} of a run of {budget} in turns (shown first) and alone, {masks:x?}: {state:x?}")
}

fn problem(refused: second::Refused) -> Difference {
    Difference(format!("a turn of a sound scene: {refused:?}"))
}
