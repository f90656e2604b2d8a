//! `phuyurik run`: a recipe on a part, in pieces, with a saved moment after each.
use super::args::{Mode, Order};
use super::end::End;
use super::error::Error;
use super::files::{self, Lock};
use super::going::{Burnt, Going};
use super::image::{self, Image};
use super::journal::{self, ImageMark, Memory, Moment, MOST_SLOTS};
use super::known::{self, Known, RowKnown, Seen};
use super::masks;
use super::place::{self, Paused, Place};
use super::row_file;
use super::settling::Locks;
use super::slot::{Owner, Part, Slot};
use super::view::View;
use super::watch::Watch;
use super::ways::typed;
use phuyurik::{Argument, Board, Masks, Refusal, Row, Slots, State, Stop, Words, RECORD};
use std::collections::BTreeSet;
use std::path::{Path, PathBuf};

/// What a run has to tell at its end.
pub struct Outcome {
    pub retired: u64,
    pub state: State,
    /// The words burnt since the recipe's start, with their values.
    pub burnt: Vec<Burnt>,
    /// Nothing was changed: it was a dry run.
    pub dry_run: bool,
    /// The run's end, to be marked as told once it is.
    pub end: Option<End>,
}

/// What was ordered, with the files' canonical names.
struct Job<'a> {
    order: &'a Order,
    image: Image,
    row_path: PathBuf,
    slots_path: PathBuf,
}

pub fn run(order: &Order, watch: &mut dyn Watch) -> Result<Outcome, Error> {
    let job = Job {
        order,
        image: image::load(&order.image, order.memory)?,
        row_path: files::canonical(&order.row)?,
        slots_path: files::canonical(&order.slots)?,
    };
    job.names_are_distinct()?;
    job.names_are_likely()?;
    let mut locks = Locks::take(&job.row_path, &job.slots_path, order.slot, order.dry_run)?;
    let (view, settled) = locks.settle_both()?;
    for save in &settled {
        watch.note(&settled_text(save, order.dry_run));
    }
    let mut going = job.begin(&view, watch)?;
    let outcome = job.go(&mut going, watch);
    watch.end();
    outcome
}

fn settled_text(save: &Moment, dry_run: bool) -> String {
    let row = save.run.row_path.display();
    match dry_run {
        true => format!("{row}: a save that was cut short would be carried out"),
        false => format!("{row}: a save that was cut short has been carried out"),
    }
}

/// What starts a run beside this one, although they share a word: beside masks with masks.
fn restart_beside(run: &Paused) -> &'static str {
    match run.own {
        Words::ALL => "--restart",
        _ => "--restart --own WORDS",
    }
}

impl Job<'_> {
    fn slot(&self) -> Slot<'_> {
        Slot {
            slots_path: &self.slots_path,
            k: self.order.slot,
        }
    }

    fn place(&self) -> Place {
        Place::of(&self.slots_path, self.order.slot)
    }

    /// The masks of a start. A run that is carried on keeps those that it was started with.
    fn masks(&self) -> Masks {
        self.order.masks.unwrap_or_default()
    }

    /// No file that a run writes may be another one that it needs.
    fn names_are_distinct(&self) -> Result<(), Error> {
        let slot = journal::slot_name(&self.slots_path, self.order.slot);
        let journal = journal::journal_of(&self.row_path);
        let seen = known::seen_of(&self.row_path);
        let memory = journal::memory_of(&self.slots_path, self.order.slot);
        let mut names = vec![files::canonical(&self.order.image)?];
        for path in [&self.row_path, &self.slots_path, &journal, &seen, &memory] {
            names.extend([path.clone(), files::tmp(path)]);
        }
        for path in [&self.row_path, &self.slots_path, &slot] {
            names.push(files::lock_of(path));
        }
        match names.iter().collect::<BTreeSet<_>>().len() == names.len() {
            true => Ok(()),
            false => Err(Error::Usage(
                "the image, the row and the slots must be files of their own".to_string(),
            )),
        }
    }

    /// Looked at before any lock file is made: a mistyped name should leave nothing behind.
    fn names_are_likely(&self) -> Result<(), Error> {
        let slots = files::read_if_there(&self.slots_path, usize::MAX)?;
        let slots = slots.unwrap_or_default().len() / RECORD;
        let k = self.order.slot;
        if k >= slots.max(MOST_SLOTS) {
            let why = format!("--slot {k}: no slots file is made for more than {MOST_SLOTS}");
            return Err(Error::Usage(why));
        }
        match files::read_if_there(&journal::journal_of(&self.row_path), 0)? {
            Some(_) => Ok(()),
            None => {
                let row = self.row(&View::default())?;
                self.masks_are_likely(row.as_deref())?;
                self.slot_is_likely(row.is_none())
            }
        }
    }

    /// Masks that share a word are refused in the library's order, and whatever the slot holds.
    fn masks_are_likely(&self, row: Option<&[u8]>) -> Result<(), Error> {
        match self.masks().shared().is_empty() {
            true => Ok(()),
            false => {
                let blank = Row::default();
                let row = row.unwrap_or(blank.as_ref());
                self.checked(row, &[]).map(drop)
            }
        }
    }

    /// An empty slot is where a run starts, perhaps beside one that was meant. A row at which a run
    /// is at work is busy, which is told later.
    fn slot_is_likely(&self, is_new: bool) -> Result<(), Error> {
        let memory = journal::memory_of(&self.slots_path, self.order.slot);
        match Lock::look(&self.row_path) {
            Ok(_free) if memory.symlink_metadata().is_err() => {
                let view = View::default();
                self.slots(&view)?;
                self.may_go(&view, None, is_new)
            }
            _ => Ok(()),
        }
    }

    fn failed(&self, error: phuyurik::Error) -> Error {
        let path: &Path = match error.refusal().map(Refusal::argument) {
            Some(Argument::Memory) => &self.order.image,
            Some(Argument::Row) => &self.row_path,
            _ => &self.slots_path,
        };
        Error::of_library(path, error)
    }

    /// The row's bytes, or nothing if the part is new, which has to be said.
    fn row(&self, view: &View) -> Result<Option<Vec<u8>>, Error> {
        let row = view.row(&self.row_path)?;
        match (&row, self.order.new) {
            (None, false) => {
                let why = "missing; the row of a new part is made with --new";
                Err(Error::missing(&self.row_path, why))
            }
            // The same command again, after a pause, a kill or a power cut.
            (Some(_), true) if self.is_under_way(view) => Ok(row),
            (Some(_), true) => {
                let row = self.row_path.display();
                let why = format!("--new: {row} is there already; leave --new out");
                Err(Error::Usage(why))
            }
            _ => Ok(row),
        }
    }

    /// Whether the slot holds this very run, and it has not come to its end, or no one heard of it.
    fn is_under_way(&self, view: &View) -> bool {
        let image = ImageMark::of(&self.image.bytes);
        let is_this = |run: &Memory| run.row_path == self.row_path && run.image == image;
        let there = view.memory(&self.slots_path, self.order.slot);
        matches!(there, Ok(Some(run)) if is_this(&run) && (run.is_paused() || !run.told))
    }

    /// The slots' bytes, as they will be when this run's slot is there.
    fn slots(&self, view: &View) -> Result<Vec<u8>, Error> {
        let there = view.slots(&self.slots_path)?;
        let with_memory = view.slots_with_memory(&self.slots_path)?;
        if let (None, Some(k)) = (&there, with_memory.first()) {
            let slots = self.slots_path.display();
            let why = format!("missing, but slot {k} has a memory file (mend {slots})");
            return Err(Error::missing(&self.slots_path, why));
        }
        let mut slots = there.unwrap_or_default();
        let k = self.order.slot;
        // One that is no multiple of a record is left as it is, for the library to refuse.
        if slots.len() % RECORD == 0 && slots.len() / RECORD <= k {
            slots.resize((k + 1) * RECORD, 0);
        }
        Ok(slots)
    }

    /// The library's own answer on everything that it would be lent: a run of budget 0.
    fn checked(&self, row: &[u8], slots: &[u8]) -> Result<State, Error> {
        let (mut memory, mut copy) = (self.image.memory.clone(), row.to_vec());
        let mut lent = Slots::new(slots.to_vec());
        Board::shared(&mut memory, &mut copy, self.masks())
            .run_slot(&mut lent, self.order.slot, 0)
            .and_then(|_| lent.read(self.order.slot))
            .map_err(|error| match error.refusal().map(Refusal::argument) {
                Some(Argument::Row) => row_file::refused(&self.row_path, row, error),
                Some(Argument::Masks) => masks::refused(self.masks()),
                Some(Argument::State) => self.slot().refused(slots, error),
                _ => self.failed(error),
            })
    }

    /// All that is looked at before a run, and only then its first save.
    fn begin(&self, view: &View, watch: &mut dyn Watch) -> Result<Going, Error> {
        let row = self.row(view)?;
        let is_new = row.is_none();
        let bytes = row.unwrap_or_else(|| Row::default().as_ref().to_vec());
        let slots = self.slots(view)?;
        let state = self.checked(&bytes, &slots)?;
        for path in [&self.row_path, &self.slots_path] {
            if path.exists() {
                files::open_in_place(path)?;
            }
        }
        let content = self.slot().content(view, &slots, &state)?;
        let row = row_file::row_in(&self.row_path, &bytes)?;
        let part = Part { row, is_new };
        let owner = Owner {
            row_path: &self.row_path,
            part: &part,
            image: ImageMark::of(&self.image.bytes),
            memory: self.order.memory,
            masks: self.order.masks,
        };
        let saved = self.slot().to_resume(content, self.order.mode, &owner)?;
        self.may_go(view, saved.as_ref(), is_new)?;
        if saved.is_none() {
            self.tell_of_masks(view, watch)?;
        }
        let going = self.going(saved, part.row, view, watch)?;
        if is_new {
            let row = self.row_path.display();
            watch.note(&format!("{row}: a new part, its row blank"));
        }
        Ok(going)
    }

    /// A paused run waits for its own row, and for that as the run left it. One that has no word of
    /// this one's is in no one's way: the two take turns.
    fn may_go(&self, view: &View, saved: Option<&Memory>, is_new: bool) -> Result<(), Error> {
        let paused = place::of_paused(view, &self.row_path, &self.slots_path)?;
        if let Some(run) = paused.first().filter(|_| is_new && !self.order.accept_row) {
            return Err(self.awaited(&run.place));
        }
        match (saved, self.order.mode) {
            (Some(saved), Mode::Either) => self.is_saved_last(view, saved),
            (None, Mode::Either) => {
                self.may_start(view, &paused)?;
                self.masks_are_named(view, &paused)
            }
            (None, Mode::Restart) => self.masks_are_named(view, &paused),
            _ => Ok(()),
        }
    }

    /// A start has all words if it names none. Where recipes with words of their own are at work that
    /// was forgotten, most likely, and has to be said: in the slot of one, whatever its row was, and on
    /// the row of one.
    fn masks_are_named(&self, view: &View, paused: &[Paused]) -> Result<(), Error> {
        if self.order.masks.is_some() {
            return Ok(());
        }
        let k = self.order.slot;
        let slots = view.slots_with_memory(&self.slots_path)?;
        let here = slots.iter().filter(|slot| **slot == k);
        for slot in here.chain(slots.iter().filter(|slot| **slot != k)) {
            let there = view.memory(&self.slots_path, *slot).ok().flatten();
            let is_of = |run: &Memory| *slot == k || run.row_path == self.row_path;
            if let Some(run) = there.filter(|run| run.is_masked() && is_of(run)) {
                return Err(self.unnamed(&Place::of(&self.slots_path, *slot), run.masks));
            }
        }
        match paused.iter().find(|run| run.own != Words::ALL) {
            Some(Paused { place, own }) => {
                let (own, other) = (*own, Words::NONE);
                Err(self.unnamed(place, Masks { own, other }))
            }
            None => Ok(()),
        }
    }

    fn unnamed(&self, place: &Place, masks: Masks) -> Error {
        let (k, slots) = (place.slot, place.slots_path.display());
        let masks = masks::typed(masks);
        let why = format!(
            "the run in slot {k} of {slots} has {masks}: name the words of this one, too (--own all, \
             if it is to have all of them)"
        );
        Error::other_run(&self.row_path, why)
    }

    /// Whether this is another run than that in the slot, and one that has a word of these.
    fn is_in_the_way(&self, run: &Paused, own: Words) -> bool {
        run.place != self.place() && !masks::are_apart(run.own, own)
    }

    fn may_start(&self, view: &View, paused: &[Paused]) -> Result<(), Error> {
        let is_in_the_way = |run: &&Paused| self.is_in_the_way(run, self.masks().own);
        // Also this very slot, where all of its slots file is gone: its folder is not mounted, perhaps.
        let all_gone = view.slots(&self.slots_path)?.is_none();
        let is_away = |run: &&Paused| {
            let has_gone = all_gone && run.place.slots_path == self.slots_path;
            run.place.is_away(view) && (has_gone || is_in_the_way(run))
        };
        if let Some(away) = paused.iter().find(is_away) {
            return Err(self.paused_away(away));
        }
        match paused.iter().find(is_in_the_way) {
            Some(run) => Err(self.paused_elsewhere(run)),
            None => Ok(()),
        }
    }

    /// The words of a start that names some: a mask in hexadecimal is easily meant as a list. And whether
    /// they are those that a paused run leaves to it: both go on all the same.
    fn tell_of_masks(&self, view: &View, watch: &mut dyn Watch) -> Result<(), Error> {
        let (masks, k) = (self.masks(), self.order.slot);
        if self.order.masks.is_some() {
            let masks = masks::typed(masks);
            watch.note(&format!("the run in slot {k} starts with {masks}"));
        }
        for run in place::of_paused(view, &self.row_path, &self.slots_path)? {
            if run.place != self.place() {
                self.tell_of_other(&run, view, watch);
            }
        }
        Ok(())
    }

    fn tell_of_other(&self, run: &Paused, view: &View, watch: &mut dyn Watch) {
        let Place { slots_path, slot } = &run.place;
        let there = view.memory(slots_path, *slot).ok().flatten();
        let (own, other) = (run.own, Words::NONE);
        let (masks, other) = (
            self.masks(),
            there.map_or(Masks { own, other }, |run| run.masks),
        );
        let shared = masks.own & other.own;
        let how = match shared.is_empty() {
            _ if masks == other && masks == Masks::default() => return,
            true if masks::agree(masks, other) => return,
            true => "they do not agree whose each word is".to_string(),
            false => format!("both have {}", masks::named(shared)),
        };
        let (slots, masks, other) = (
            slots_path.display(),
            masks::typed(masks),
            masks::typed(other),
        );
        watch.note(&format!(
            "the run that is paused in slot {slot} of {slots} has {other}, and this one {masks}: {how}"
        ));
    }

    /// Of two runs on one row that are paused and have a word in common, the default carries on the one
    /// that was saved last: the other may be an old copy of it.
    fn is_saved_last(&self, view: &View, saved: &Memory) -> Result<(), Error> {
        let last = view.seen(&self.row_path).unwrap_or_default().last_paused;
        let is_in_the_way = |run: &&Paused| {
            let is_paused = run.place.paused(view, &self.row_path).is_some();
            is_paused && self.is_in_the_way(run, saved.masks.own)
        };
        let since = last.iter().take_while(|run| run.place != self.place());
        let later = since.into_iter().find(is_in_the_way);
        later.map_or(Ok(()), |run| Err(self.saved_later(&run.place)))
    }

    /// A folder that is not mounted, or a file that was moved: what was paused may come back.
    fn paused_away(&self, run: &Paused) -> Error {
        let (k, slots) = (run.place.slot, run.place.slots_path.display());
        let restart = restart_beside(run);
        let why = format!(
            "a run on it was paused in slot {k} of {slots}, which cannot be read now: bring it back; \
             {restart} starts anew all the same"
        );
        Error::missing(&self.row_path, why)
    }

    fn saved_later(&self, place: &Place) -> Error {
        let (k, slots) = (place.slot, place.slots_path.display());
        let why = format!(
            "a run on it was saved later in slot {k} of {slots}: is this one a copy? --resume carries \
             it on all the same"
        );
        Error::other_run(&self.row_path, why)
    }

    fn awaited(&self, place: &Place) -> Error {
        let (k, slots) = (place.slot, place.slots_path.display());
        let why = format!(
            "missing, and slot {k} of {slots} has a paused run on it: bring the row back; for a new \
             part in its place say --accept-row"
        );
        Error::other_run(&self.row_path, why)
    }

    /// Most likely the slot or the slots file was mistyped. A start would burn the words of the paused
    /// run, which could then never come to its proper end.
    fn paused_elsewhere(&self, run: &Paused) -> Error {
        let (k, slots) = (run.place.slot, run.place.slots_path.display());
        let command = typed::run(&self.row_path, &run.place.slots_path, k);
        let restart = restart_beside(run);
        let (whose, turns) = match run.own {
            Words::ALL => (String::new(), ""),
            own => (
                format!(", with its own {},", masks::named(own)),
                " with --own of other words this one takes turns with it;",
            ),
        };
        let why = format!(
            "a run on it{whose} is paused in slot {k} of {slots}, and can be carried on there \
             ({command});{turns} {restart} starts anew all the same"
        );
        Error::other_run(&self.row_path, why)
    }

    fn fresh(&self, row: &Row) -> Memory {
        Memory {
            row_path: self.row_path.clone(),
            serial: 0,
            image: ImageMark::of(&self.image.bytes),
            record: State::fresh().to_bytes(),
            row: row.clone(),
            burnt: 0,
            told: false,
            bytes: self.image.memory.clone(),
            masks: self.masks(),
        }
    }

    /// A new start, or the run that the slot holds, on the row as it is. A new start is saved before
    /// its first step, so that it can be resumed if it is killed right after it.
    fn going(
        &self,
        saved: Option<Memory>,
        row: Row,
        view: &View,
        watch: &mut dyn Watch,
    ) -> Result<Going, Error> {
        let accept = self.order.accept_row;
        let mut known = RowKnown::read(view, &self.row_path, &self.slots_path, accept)?;
        if let Some(saved) = &saved {
            self.may_be_carried_over(saved, &row)?;
            known.known.add(&saved.row);
        }
        let accepted = self.agree(&mut known, &row, watch)?;
        if let Some(saved) = &saved {
            self.tell_of(saved, watch);
        }
        let memory = saved.as_ref().map(|saved| saved.serial);
        let mut run = saved.unwrap_or_else(|| self.fresh(&row));
        run.burnt &= known::mask_of_same(&run.row, &row);
        run.row = row;
        let moment = Moment {
            slots_path: self.slots_path.clone(),
            slot: self.order.slot,
            last_paused: known.last_paused.clone(),
            run,
        };
        let mut going = Going::new(moment, &known, memory, self.order.dry_run);
        if memory.is_none() || accepted {
            going.save()?;
        }
        Ok(going)
    }

    /// A recipe that has burnt words of one part is not carried on over another one, which would come
    /// out half trimmed.
    fn may_be_carried_over(&self, run: &Memory, row: &Row) -> Result<(), Error> {
        let lost = Known::of(&run.row).lost_in(row);
        let is_its_own = |word: &known::Lost| run.burnt >> word.index & 1 == 1;
        if !self.order.accept_row || !lost.iter().any(is_its_own) {
            return Ok(());
        }
        let restart = masks::restart(run.masks);
        let why = format!(
            "of a run that has burnt words of the part that was here: a new one is trimmed from the \
             start (--accept-row {restart})"
        );
        Err(Error::other_run(&self.slot().memory_path(), why))
    }

    /// Whoever resumes by name knows that he does; whose the words are he may not know.
    fn tell_of(&self, run: &Memory, watch: &mut dyn Watch) {
        let k = self.order.slot;
        if run.is_paused() && run.is_masked() && self.order.masks.is_none() {
            let masks = masks::typed(run.masks);
            watch.note(&format!(
                "the run in slot {k} goes on as it was started: {masks}"
            ));
        }
        match (self.order.mode, run.state()) {
            (Mode::Either, Ok(state)) if run.is_paused() => {
                let count = state.count;
                watch.note(&format!("carrying on the run in slot {k}, count {count}"));
            }
            (Mode::Either, _) => watch.note(&format!(
                "the run in slot {k} had ended, and its end was not told"
            )),
            _ => {}
        }
    }

    /// Compares the row with what is known of it. Where it is accepted as another one, what was seen
    /// of it is from now on what it has; gives whether it was.
    fn agree(&self, known: &mut RowKnown, row: &Row, watch: &mut dyn Watch) -> Result<bool, Error> {
        let lost = known.known.lost_in(row);
        if !self.order.accept_row {
            known.known.is_held_by(&self.row_path, row)?;
        }
        for note in &known.notes {
            watch.note(note);
        }
        if lost.is_empty() && !known.seen_is_damaged {
            return Ok(false);
        }
        if !lost.is_empty() {
            let (path, words) = (self.row_path.display(), known::text(&lost));
            watch.note(&format!(
                "{path}: accepted as it is; known otherwise: {words}"
            ));
        }
        known.serial += 1;
        known.seen = known.serial;
        let seen = Seen {
            serial: known.serial,
            row: row.clone(),
            last_paused: known.last_paused.clone(),
        };
        if !self.order.dry_run {
            files::carry_out(&seen.writing(&self.row_path))?;
        }
        Ok(true)
    }

    fn go(&self, going: &mut Going, watch: &mut dyn Watch) -> Result<Outcome, Error> {
        let (budget, mut retired) = (self.order.budget, 0);
        let mut state = going.state().map_err(|error| self.failed(error))?;
        while state.stop() == Ok(Stop::Paused) && retired < budget {
            let piece = self.order.piece.min(budget - retired);
            retired += going.piece(piece).map_err(|error| self.failed(error))?;
            going.save()?;
            state = going.state().map_err(|error| self.failed(error))?;
            watch.progress(retired, budget, going.burnt.count_ones() as usize);
        }
        Ok(Outcome {
            retired,
            state,
            burnt: going.words(),
            dry_run: self.order.dry_run,
            end: going.end(),
        })
    }
}
