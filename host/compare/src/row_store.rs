//! Stores of words into the row: which kinds the comparison has come to.

use crate::program::WINDOW;
use crate::scene::Scene;
use second::{op, Inst, State};

/// A store of a word into the row, by its value and by the word that stands there.
#[derive(Clone, Copy, Debug, PartialEq, Eq)]
pub enum RowStore {
    ZeroToBlank,
    OtherToBlank,
    ZeroToBurnt,
    OtherToBurnt,
}

impl RowStore {
    pub const ALL: [RowStore; 4] = [
        RowStore::ZeroToBlank,
        RowStore::OtherToBlank,
        RowStore::ZeroToBurnt,
        RowStore::OtherToBurnt,
    ];

    pub fn words(self) -> &'static str {
        match self {
            RowStore::ZeroToBlank => "0 to a blank word",
            RowStore::OtherToBlank => "another to a blank word",
            RowStore::ZeroToBurnt => "0 to a burnt word",
            RowStore::OtherToBurnt => "another to a burnt word",
        }
    }

    /// What the next step of a paused scene would store into the row, if it is a store there.
    pub fn next(scene: &Scene) -> Option<RowStore> {
        let state = &scene.state;
        let inst = instruction_at(&scene.mem, state.pc)?;
        let address = register(state, inst.rs1).wrapping_add(inst.imm);
        let offset = address.wrapping_sub(WINDOW) as usize;
        let is_in_row = offset < 256 && offset.is_multiple_of(4);
        if inst.operation != op::SW || !is_in_row || state.count == u64::MAX {
            return None;
        }
        let is_burnt = scene.row[2 * offset + 4] == 1;
        Some(match (register(state, inst.rs2), is_burnt) {
            (0, false) => RowStore::ZeroToBlank,
            (_, false) => RowStore::OtherToBlank,
            (0, true) => RowStore::ZeroToBurnt,
            (_, true) => RowStore::OtherToBurnt,
        })
    }
}

pub fn instruction_at(mem: &[u8], pc: u32) -> Option<Inst> {
    let code = mem.get(pc as usize..)?;
    let half = u16::from_le_bytes(*code.first_chunk()?);
    if half & 3 != 3 {
        return second::expand(half).ok();
    }
    second::decode(u32::from_le_bytes(*code.first_chunk()?)).ok()
}

pub fn register(state: &State, number: u32) -> u32 {
    number
        .checked_sub(1)
        .map_or(0, |place| state.x[place as usize])
}

#[cfg(test)]
mod tests {
    use super::*;
    use crate::scene;
    use testing::Random;

    /// A scene at 0 with `sw x2,4(x1)`, on a row of which word 3 is burnt.
    fn storing(x1: u32, x2: u32) -> Scene {
        let mut scene = scene::sound(&mut Random::new(1));
        scene.mem = 0x0020_a223_u32.to_le_bytes().to_vec();
        scene.state = State::fresh();
        (scene.state.x[0], scene.state.x[1]) = (x1, x2);
        scene.row.fill(0);
        (scene.row[27], scene.row[28]) = (1, 1);
        scene
    }

    #[test]
    fn stores_are_told_apart() {
        let (blank, burnt) = (0x8000_0004, 0x8000_0008);
        for (x1, x2, kind) in [
            (blank, 0, RowStore::ZeroToBlank),
            (blank, 1 << 31, RowStore::OtherToBlank),
            (burnt, 0, RowStore::ZeroToBurnt),
            (burnt, 1 << 31, RowStore::OtherToBurnt),
        ] {
            assert_eq!(RowStore::next(&storing(x1, x2)), Some(kind));
        }
        assert!(RowStore::next(&storing(0x8000_00f8, 0)).is_some());
        for x1 in [0x7fff_fff8, 0x8000_0001, 0x8000_00fc, 0] {
            assert_eq!(RowStore::next(&storing(x1, 0)), None);
        }
    }

    #[test]
    fn short_stores_are_stores_and_other_instructions_none() {
        let mut scene = storing(0, 0x8000_0000);
        for (half, kind) in [
            (0xc202_u16, Some(RowStore::ZeroToBlank)), // c.swsp x0,4(x2)
            (0xc60a, Some(RowStore::OtherToBurnt)),    // c.swsp x2,12(x2)
            (0x4212, None),                            // c.lwsp x4,4(x2)
            (0x0000, None),
        ] {
            scene.mem = half.to_le_bytes().to_vec();
            assert_eq!(RowStore::next(&scene), kind);
        }
        scene.mem.clear();
        assert_eq!(RowStore::next(&scene), None);
        let mut full = storing(0x8000_0004, 0);
        full.state.count = u64::MAX;
        assert_eq!(RowStore::next(&full), None);
    }
}
