//! Masks of two recipes on one row: random ones, whose a word is by them, and which kinds of them the
//! comparison has come to.

use second::Masks;
use testing::Random;

/// Masks that share no bit: some, all or none of the words, and the others the other's or nobody's.
pub fn disjoint(random: &mut Random) -> Masks {
    let own = some_words(random);
    let other = match random.below(4) {
        0 => 0,
        1 => !own,
        _ => some_words(random) & !own,
    };
    Masks { own, other }
}

/// As `disjoint`, with words for either recipe.
pub fn of_two(random: &mut Random) -> Masks {
    loop {
        let masks = disjoint(random);
        if masks.own != 0 && masks.other != 0 {
            return masks;
        }
    }
}

/// Masks that share a bit: one, all of them, or some.
pub fn sharing(random: &mut Random) -> Masks {
    let word = random.below(64);
    let shared = 1 << random.pick(&[0, 63, word, word]);
    let Masks { own, other } = disjoint(random);
    match random.below(4) {
        0 => Masks {
            own: own | shared,
            other: own | shared,
        },
        1 => Masks {
            own: own | shared,
            other: some_words(random) | shared,
        },
        _ => Masks {
            own: own | shared,
            other: other | shared,
        },
    }
}

fn some_words(random: &mut Random) -> u64 {
    let word = random.below(64);
    match random.below(10) {
        0 => 0,
        1 => u64::MAX,
        2 => 1 << word,
        3 => !(1 << word),
        4 => u64::MAX << word,
        5 => u64::MAX >> word,
        6 => random.number() & random.number(),
        _ => random.number(),
    }
}

/// The words of a row that are burnt, as a mask.
pub fn burnt(row: &[u8]) -> u64 {
    let records = row.chunks_exact(8).enumerate();
    records.fold(0, |burnt, (k, record)| burnt | u64::from(record[4]) << k)
}

/// The words of a mask of one row, and the others of another.
pub fn joined(mask: u64, inside: &[u8], outside: &[u8]) -> Vec<u8> {
    let mut row = outside.to_vec();
    for k in (0..64).filter(|k| mask >> k & 1 == 1) {
        row[8 * k..8 * k + 8].copy_from_slice(&inside[8 * k..8 * k + 8]);
    }
    row
}

#[derive(Clone, Copy, Debug, PartialEq, Eq)]
pub enum Owner {
    Own,
    Other,
    Nobody,
}

impl Owner {
    pub const ALL: [Owner; 3] = [Owner::Own, Owner::Other, Owner::Nobody];

    pub fn of(masks: Masks, word: usize) -> Owner {
        match (masks.own >> word & 1, masks.other >> word & 1) {
            (1, _) => Owner::Own,
            (_, 1) => Owner::Other,
            _ => Owner::Nobody,
        }
    }

    pub fn words(self) -> &'static str {
        match self {
            Owner::Own => "its own",
            Owner::Other => "the other's",
            Owner::Nobody => "nobody's",
        }
    }
}

/// A kind of masks.
#[derive(Clone, Copy, Debug, PartialEq, Eq)]
pub enum MaskKind {
    EveryWordOwn,
    NoWordOwn,
    NoWordOther,
    EveryWordSomebodys,
    SomeWordNobodys,
    SharesLowest,
    SharesHighest,
    SharesOne,
    SharesAll,
}

impl MaskKind {
    pub const ALL: [MaskKind; 9] = [
        MaskKind::EveryWordOwn,
        MaskKind::NoWordOwn,
        MaskKind::NoWordOther,
        MaskKind::EveryWordSomebodys,
        MaskKind::SomeWordNobodys,
        MaskKind::SharesLowest,
        MaskKind::SharesHighest,
        MaskKind::SharesOne,
        MaskKind::SharesAll,
    ];

    pub fn words(self) -> &'static str {
        match self {
            MaskKind::EveryWordOwn => "every word its own",
            MaskKind::NoWordOwn => "no word its own",
            MaskKind::NoWordOther => "some its own, none the other's",
            MaskKind::EveryWordSomebodys => "every word one of both's",
            MaskKind::SomeWordNobodys => "words of both and of nobody",
            MaskKind::SharesLowest => "word 0 shared",
            MaskKind::SharesHighest => "word 63 shared",
            MaskKind::SharesOne => "one word shared",
            MaskKind::SharesAll => "equal masks",
        }
    }

    pub fn holds(self, Masks { own, other }: Masks) -> bool {
        let (shared, all) = (own & other, own | other);
        let of_both = shared == 0 && own != 0 && other != 0;
        match self {
            MaskKind::EveryWordOwn => shared == 0 && own == u64::MAX,
            MaskKind::NoWordOwn => own == 0,
            MaskKind::NoWordOther => other == 0 && own != 0 && own != u64::MAX,
            MaskKind::EveryWordSomebodys => of_both && all == u64::MAX,
            MaskKind::SomeWordNobodys => of_both && all != u64::MAX,
            MaskKind::SharesLowest => shared == 1,
            MaskKind::SharesHighest => shared == 1 << 63,
            MaskKind::SharesOne => shared.count_ones() == 1,
            MaskKind::SharesAll => shared != 0 && own == other,
        }
    }
}

#[cfg(test)]
mod tests {
    use super::*;

    fn kinds(own: u64, other: u64) -> Vec<MaskKind> {
        let holds = |kind: &MaskKind| kind.holds(Masks { own, other });
        MaskKind::ALL.into_iter().filter(holds).collect()
    }

    #[test]
    fn kinds_of_masks_are_told_apart() {
        use MaskKind::*;
        assert_eq!(kinds(u64::MAX, 0), [EveryWordOwn]);
        assert_eq!(kinds(0, u64::MAX), [NoWordOwn]);
        assert_eq!(kinds(0, 0), [NoWordOwn]);
        assert_eq!(kinds(6, 0), [NoWordOther]);
        assert_eq!(kinds(6, !6), [EveryWordSomebodys]);
        assert_eq!(kinds(6, 1), [SomeWordNobodys]);
        assert_eq!(kinds(3, 5), [SharesLowest, SharesOne]);
        assert_eq!(
            kinds(1 << 63, 1 << 63),
            [SharesHighest, SharesOne, SharesAll]
        );
        assert_eq!(kinds(7, 14), []);
    }

    #[test]
    fn masks_share_a_bit_or_none() {
        let mut random = Random::new(1);
        for _ in 0..1000 {
            let (masks, of_two, shared) = (
                disjoint(&mut random),
                of_two(&mut random),
                sharing(&mut random),
            );
            assert_eq!((masks.own & masks.other, of_two.own & of_two.other), (0, 0));
            assert!(of_two.own != 0 && of_two.other != 0);
            assert_ne!(shared.own & shared.other, 0);
        }
    }

    #[test]
    fn words_of_rows_are_told_by_their_bits() {
        let (mut left, right) = ([0; 512], [7; 512]);
        (left[8 * 63], left[8 * 63 + 4], left[4]) = (9, 1, 1);
        assert_eq!(burnt(&left), 1 << 63 | 1);
        let row = joined(1 << 63, &left, &right);
        assert_eq!(row[..8 * 63], right[..8 * 63]);
        assert_eq!(row[8 * 63..], left[8 * 63..]);
        let masks = Masks {
            own: 1,
            other: 1 << 63,
        };
        let owners = [0, 1, 63].map(|word| Owner::of(masks, word));
        assert_eq!(owners, [Owner::Own, Owner::Nobody, Owner::Other]);
    }
}
