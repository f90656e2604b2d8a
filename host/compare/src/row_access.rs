//! Loads and stores in the row by a recipe with masks: which kinds the comparison has come to.

use crate::masks::{self, Owner};
use crate::program::WINDOW;
use crate::row_store::{instruction_at, register};
use crate::scene::Scene;
use second::op;

/// What is done, in the order in which it may stop.
#[derive(Clone, Copy, Debug, PartialEq, Eq)]
pub enum Way {
    LoadMisaligned,
    LoadNarrow,
    Load,
    StoreMisaligned,
    StoreNarrow,
    StoreZero,
    StoreOther,
}

/// An access to a word, by whose it is and by what stands there.
#[derive(Clone, Copy, Debug, PartialEq, Eq)]
pub struct RowAccess {
    pub way: Way,
    pub owner: Owner,
    pub is_burnt: bool,
}

impl Way {
    const ALL: [Way; 7] = [
        Way::LoadMisaligned,
        Way::LoadNarrow,
        Way::Load,
        Way::StoreMisaligned,
        Way::StoreNarrow,
        Way::StoreZero,
        Way::StoreOther,
    ];

    fn words(self) -> &'static str {
        match self {
            Way::LoadMisaligned => "a misaligned load",
            Way::LoadNarrow => "a load of a byte or half",
            Way::Load => "a load",
            Way::StoreMisaligned => "a misaligned store",
            Way::StoreNarrow => "a store of a byte or half",
            Way::StoreZero => "a store of 0",
            Way::StoreOther => "a store of another value",
        }
    }
}

impl RowAccess {
    /// The kinds of one owner's words.
    pub const OF_OWNER: usize = 2 * Way::ALL.len();

    /// All kinds, owner after owner, each at its place.
    pub fn all() -> impl Iterator<Item = RowAccess> {
        let owned = |owner| Way::ALL.into_iter().map(move |way| (owner, way));
        let held = |(owner, way)| {
            [false, true].map(|is_burnt| RowAccess {
                way,
                owner,
                is_burnt,
            })
        };
        Owner::ALL.into_iter().flat_map(owned).flat_map(held)
    }

    /// Its place among the kinds of its owner.
    pub fn place(self) -> usize {
        2 * self.way as usize + usize::from(self.is_burnt)
    }

    pub fn words(self) -> String {
        let (way, owner) = (self.way.words(), self.owner.words());
        let holds = ["blank", "burnt"][usize::from(self.is_burnt)];
        format!("{way} at a {holds} word, {owner}")
    }

    /// What the next step of a paused scene would do in the row, if it loads or stores there.
    pub fn next(scene: &Scene) -> Option<RowAccess> {
        let state = &scene.state;
        let inst = instruction_at(&scene.mem, state.pc)?;
        let size = match inst.operation {
            op::LB | op::LBU | op::SB => 1,
            op::LH | op::LHU | op::SH => 2,
            op::LW | op::SW => 4,
            _ => return None,
        };
        let address = register(state, inst.rs1).wrapping_add(inst.imm);
        let offset = address.wrapping_sub(WINDOW) as usize;
        if offset >= 256 || state.count == u64::MAX {
            return None;
        }
        let is_load = inst.operation <= op::LHU;
        let way = match (is_load, offset.is_multiple_of(size), size) {
            (true, false, _) => Way::LoadMisaligned,
            (true, true, 1 | 2) => Way::LoadNarrow,
            (true, true, _) => Way::Load,
            (false, false, _) => Way::StoreMisaligned,
            (false, true, 1 | 2) => Way::StoreNarrow,
            (false, true, _) if register(state, inst.rs2) == 0 => Way::StoreZero,
            (false, true, _) => Way::StoreOther,
        };
        Some(RowAccess {
            way,
            owner: Owner::of(scene.masks, offset / 4),
            is_burnt: masks::burnt(&scene.row) >> (offset / 4) & 1 == 1,
        })
    }
}

#[cfg(test)]
mod tests {
    use super::*;
    use crate::scene;
    use second::{Masks, State};
    use testing::Random;

    /// A scene at 0 with these bits, on a row of which word 3 is burnt, words 2 and 3 its own and word
    /// 63 the other's.
    fn with(bits: u32, x1: u32, x2: u32) -> Option<RowAccess> {
        let mut scene = scene::sound(&mut Random::new(1));
        scene.mem = bits.to_le_bytes().to_vec();
        scene.state = State::fresh();
        (scene.state.x[0], scene.state.x[1]) = (x1, x2);
        scene.row.fill(0);
        (scene.row[27], scene.row[28]) = (1, 1);
        scene.masks = Masks {
            own: 0b1100,
            other: 1 << 63,
        };
        RowAccess::next(&scene)
    }

    #[test]
    fn every_kind_has_its_place() {
        let places = RowAccess::all().map(|kind| (kind.owner as usize, kind.place()));
        let of = |owner| (0..RowAccess::OF_OWNER).map(move |place| (owner, place));
        assert!(places.eq((0..3).flat_map(of)));
    }

    #[test]
    fn ways_are_told_apart() {
        let way = |bits, x1, x2| with(bits, x1, x2).map(|access| access.way);
        for (bits, x1, x2, is) in [
            (0x0000_a183, 2, 0, Way::LoadMisaligned), // lw x3,0(x1)
            (0x0000_a183, 4, 0, Way::Load),
            (0x0000_9183, 1, 0, Way::LoadMisaligned), // lh x3,0(x1)
            (0x0000_9183, 2, 0, Way::LoadNarrow),
            (0x0000_c183, 3, 0, Way::LoadNarrow), // lbu x3,0(x1)
            (0x0020_a023, 2, 0, Way::StoreMisaligned), // sw x2,0(x1)
            (0x0020_a023, 252, 0, Way::StoreZero),
            (0x0020_a023, 252, 1 << 31, Way::StoreOther),
            (0x0020_9023, 254, 0, Way::StoreNarrow), // sh x2,0(x1)
            (0x0020_8023, 255, 0, Way::StoreNarrow), // sb x2,0(x1)
        ] {
            assert_eq!(way(bits, WINDOW + x1, x2), Some(is), "{bits:08x} at {x1}");
        }
        for x1 in [0, WINDOW - 4, WINDOW + 256] {
            assert_eq!(way(0x0000_a183, x1, 0), None);
        }
        assert_eq!(way(0x0000_0073, WINDOW, 0), None);
    }

    #[test]
    fn owners_and_what_stands_there_are_told_apart() {
        let of = |word: u32| {
            let access = with(0x0000_a183, WINDOW + 4 * word, 0).expect("it loads there");
            (access.owner, access.is_burnt)
        };
        assert_eq!(of(2), (Owner::Own, false));
        assert_eq!(of(3), (Owner::Own, true));
        assert_eq!(of(63), (Owner::Other, false));
        assert_eq!(of(4), (Owner::Nobody, false));
    }
}
