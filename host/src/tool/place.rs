//! Where runs are: a slots file, and a slot of it.
use super::error::Error;
use super::journal::{path_bytes, path_from};
use super::sealed::{fields_of, with_length, Broken};
use super::view::View;
use phuyurik::Words;
use std::path::{Path, PathBuf};

#[derive(Clone, Debug, PartialEq, Eq)]
pub struct Place {
    /// Canonical.
    pub slots_path: PathBuf,
    pub slot: usize,
}

impl Place {
    pub fn of(slots_path: &Path, slot: usize) -> Place {
        let slots_path = slots_path.to_path_buf();
        Place { slots_path, slot }
    }

    /// As a field of a file that the tool writes for itself.
    fn to_field(&self) -> Vec<u8> {
        let slot = (self.slot as u64).to_le_bytes();
        [&slot[..], path_bytes(&self.slots_path)].concat()
    }

    fn from_field(field: &[u8]) -> Result<Place, Broken> {
        let (slot, path) = field.split_first_chunk::<8>().ok_or(Broken::Damaged)?;
        let slot = usize::try_from(u64::from_le_bytes(*slot)).or(Err(Broken::Damaged))?;
        let slots_path = path_from(path);
        Ok(Place { slots_path, slot })
    }

    /// The own words of the run on this row that is paused here, if one is. What cannot be read is no
    /// such run.
    pub fn paused(&self, view: &View, row_path: &Path) -> Option<Words> {
        let there = view.memory(&self.slots_path, self.slot).ok()??;
        (there.row_path == row_path && there.is_paused()).then_some(there.masks.own)
    }

    /// Whether what was paused here cannot be read now: its folder may be away for a moment.
    pub fn is_away(&self, view: &View) -> bool {
        !matches!(view.memory(&self.slots_path, self.slot), Ok(Some(_)))
    }
}

/// A paused run: where it is, and which words are its own.
#[derive(Clone, Debug, PartialEq, Eq)]
pub struct Paused {
    pub place: Place,
    pub own: Words,
}

/// The runs that were last saved as paused on a row, the last of them last: for each word the last one
/// that has it. So a run is remembered beside one whose own words are others, and not beside a later copy
/// of it, nor one that has all words.
#[derive(Clone, Debug, Default, PartialEq, Eq)]
pub struct LastPaused(Vec<Paused>);

impl LastPaused {
    pub fn remember(&mut self, run: Paused) {
        self.forget(&run.place);
        self.0.push(run);
        let mut later = Words::NONE;
        let mut kept = Vec::new();
        for run in self.0.drain(..).rev() {
            if kept.is_empty() || (run.own & later) != run.own {
                later = later | run.own;
                kept.push(run);
            }
        }
        kept.reverse();
        self.0 = kept;
    }

    pub fn forget(&mut self, place: &Place) {
        self.0.retain(|run| run.place != *place);
    }

    /// The runs, the last one first.
    pub fn iter(&self) -> impl Iterator<Item = &Paused> {
        self.0.iter().rev()
    }

    /// Whether earlier versions, which knew of no masks, remembered it so: one run at most, and it
    /// has all words.
    pub fn is_plain(&self) -> bool {
        self.0.len() <= 1 && self.0.iter().all(|run| run.own == Words::ALL)
    }

    /// A plain one as a field of a file: the place, or nothing.
    pub fn to_plain_field(&self) -> Vec<u8> {
        let last = self.0.last();
        last.map_or(Vec::new(), |run| run.place.to_field())
    }

    /// As a field of a file: the own words and the place of each.
    pub fn to_field(&self) -> Vec<u8> {
        let fields = self.0.iter().flat_map(|run| {
            let own = with_length(&run.own.mask().to_le_bytes());
            [own, with_length(&run.place.to_field())]
        });
        fields.flatten().collect()
    }

    pub fn from_plain_field(field: &[u8]) -> Result<LastPaused, Broken> {
        if field.is_empty() {
            return Ok(LastPaused::default());
        }
        let (place, own) = (Place::from_field(field)?, Words::ALL);
        Ok(LastPaused(vec![Paused { place, own }]))
    }

    pub fn from_field(mut field: &[u8]) -> Result<LastPaused, Broken> {
        let mut runs = Vec::new();
        while !field.is_empty() {
            let ([own, place], rest) = fields_of(field).ok_or(Broken::Damaged)?;
            let own = u64::from_le_bytes(own.try_into().or(Err(Broken::Damaged))?);
            let place = Place::from_field(place)?;
            runs.push(Paused {
                place,
                own: own.into(),
            });
            field = rest;
        }
        Ok(LastPaused(runs))
    }
}

/// The paused runs on a row: in the slots of this slots file, and where `ROW.seen` remembers one,
/// unless another run or its end is found there. A damaged `ROW.seen` is told of by whoever needs its
/// words.
pub fn of_paused(view: &View, row_path: &Path, slots_path: &Path) -> Result<Vec<Paused>, Error> {
    let here = |slot| Place::of(slots_path, slot);
    let slots = view.slots_with_memory(slots_path)?;
    let paused_at = |place: Place| {
        let own = place.paused(view, row_path)?;
        Some(Paused { place, own })
    };
    let mut runs: Vec<Paused> = slots.into_iter().map(here).filter_map(paused_at).collect();
    let seen = view.seen(row_path).unwrap_or_default();
    let is_open = |run: &&Paused| {
        let is_paused = run.place.paused(view, row_path).is_some();
        is_paused || run.place.is_away(view)
    };
    for run in seen.last_paused.iter().filter(is_open) {
        if !runs.contains(run) {
            runs.push(run.clone());
        }
    }
    Ok(runs)
}

#[cfg(test)]
mod tests {
    use super::*;

    fn paused(slots: &str, slot: usize, own: &str) -> Paused {
        let slots_path = slots.into();
        Paused {
            place: Place { slots_path, slot },
            own: own.parse().expect("words"),
        }
    }

    fn remembered(runs: &[&Paused]) -> LastPaused {
        let mut all = LastPaused::default();
        runs.iter().for_each(|run| all.remember((*run).clone()));
        all
    }

    #[test]
    fn a_place_comes_back_from_its_field() {
        let run = paused("/a/line.slots", 258, "all");
        let field = remembered(&[&run]).to_plain_field();
        assert_eq!(field, b"\x02\x01\0\0\0\0\0\0/a/line.slots");
        let read = LastPaused::from_plain_field;
        assert_eq!(read(&field), Ok(LastPaused(vec![run])));
        assert_eq!(LastPaused::default().to_plain_field(), b"");
        assert_eq!(read(b""), Ok(LastPaused::default()));
        assert_eq!(read(&field[..7]), Err(Broken::Damaged));
    }

    #[test]
    fn places_of_masked_runs_come_back_from_their_field() {
        let one = paused("/s", 1, "0");
        let field = remembered(&[&one]).to_field();
        let text = b"\x08\0\0\0\x01\0\0\0\0\0\0\0\x0a\0\0\0\x01\0\0\0\0\0\0\0/s";
        assert_eq!(field, text);
        let both = remembered(&[&one, &paused("/a/b", 7, "1-63")]);
        assert_eq!((both.0.len(), both.is_plain()), (2, false));
        assert_eq!(LastPaused::from_field(&both.to_field()), Ok(both));
        assert_eq!(LastPaused::from_field(&field), Ok(LastPaused(vec![one])));
        for end in 1..field.len() {
            let cut = LastPaused::from_field(&field[..end]);
            assert_eq!(cut, Err(Broken::Damaged), "{end}");
        }
    }

    /// What is remembered after these, the last one first.
    fn is_left(runs: &[&Paused], left: &[&Paused]) {
        let remembered = remembered(runs);
        assert!(remembered.iter().eq(left.iter().copied()), "{runs:?}");
    }

    #[test]
    fn the_last_run_of_each_word_is_remembered() {
        let (low, high) = (&paused("/s", 0, "0-31"), &paused("/s", 1, "32-63"));
        let (copy, part) = (&paused("/copy", 0, "0-31"), &paused("/t", 0, "31"));
        let (all, none) = (&paused("/t", 0, "all"), &paused("/t", 1, "none"));
        is_left(&[low, high], &[high, low]);
        is_left(&[low, high, low], &[low, high]);
        is_left(&[low, high, copy], &[copy, high]);
        is_left(&[low, part, high], &[high, part, low]);
        is_left(&[low, part, low], &[low]);
        is_left(&[low, high, all], &[all]);
        is_left(&[all, low], &[low, all]);
        is_left(&[all, low, high], &[high, low]);
        is_left(&[all, none], &[none, all]);
        is_left(&[none, low], &[low]);
        // The same place has another run now.
        is_left(&[part, all], &[all]);
        let mut both = remembered(&[low, high]);
        assert!(!both.is_plain() && remembered(&[all]).is_plain());
        both.forget(&high.place);
        assert!(both.iter().eq([low]));
    }
}
