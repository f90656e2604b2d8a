//! What two recipes on one row, or one recipe on two rows, came to.

#[derive(Clone, Copy, Debug, PartialEq, Eq)]
pub enum Shared {
    BothBurnt,
    WentOn,
    StoppedAtBurn,
    RefusedForMasks,
    RefusedForPc,
    GuestBurnt,
    GuestBurntOthers,
    PairDiffersInOthers,
    PairDiffersInNobodys,
    PairBurnt,
    PairStoppedWhereItDiffers,
}

impl Shared {
    pub const ALL: [Shared; 11] = [
        Shared::BothBurnt,
        Shared::WentOn,
        Shared::StoppedAtBurn,
        Shared::RefusedForMasks,
        Shared::RefusedForPc,
        Shared::GuestBurnt,
        Shared::GuestBurntOthers,
        Shared::PairDiffersInOthers,
        Shared::PairDiffersInNobodys,
        Shared::PairBurnt,
        Shared::PairStoppedWhereItDiffers,
    ];

    pub fn words(self) -> &'static str {
        match self {
            Shared::BothBurnt => "turns in which both burnt a word",
            Shared::WentOn => "a turn after the other burnt",
            Shared::StoppedAtBurn => "stop 11 at a word that the other burnt",
            Shared::RefusedForMasks => "refusal 16 between turns",
            Shared::RefusedForPc => "refusal 5 between turns",
            Shared::GuestBurnt => "a burn between turns with masks that are not swapped",
            Shared::GuestBurntOthers => "such a burn of the other's word",
            Shared::PairDiffersInOthers => "two rows that differ in the other's words",
            Shared::PairDiffersInNobodys => "two rows that differ in nobody's words",
            Shared::PairBurnt => "a burn in both of two rows",
            Shared::PairStoppedWhereItDiffers => "stop 11 where two rows differ",
        }
    }
}
