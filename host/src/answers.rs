//! The paper's refusals and stops: one list of each, from which everything else is made.
use std::fmt;

/// An enum whose cases have a number and words, listed in the order of the numbers.
macro_rules! numbered {
    (
        $(#[$about:meta])*
        $name:ident: $number:ty, a $kind:literal {
            $($case:ident = $value:literal: $words:literal,)*
        }
    ) => {
        $(#[$about])*
        #[non_exhaustive]
        #[derive(Clone, Copy, Debug, PartialEq, Eq, Hash)]
        pub enum $name {
            $(#[doc = $words] $case = $value,)*
        }

        impl $name {
            /// All, in the order of their numbers.
            #[doc = concat!("```\nuse phuyurik::", stringify!($name), ";\n\
                assert!(", stringify!($name), "::ALL.is_sorted_by_key(|one| one.number()));\n```")]
            pub const ALL: &'static [$name] = &[$($name::$case,)*];

            /// The number that the paper and the C interface have for it; `try_from` leads back.
            #[doc = concat!("```\nuse phuyurik::", stringify!($name), ";\n\
                for one in ", stringify!($name), "::ALL {\n    \
                assert_eq!(", stringify!($name), "::try_from(one.number()), Ok(*one));\n}\n```")]
            pub const fn number(self) -> $number {
                self as $number
            }

            /// The paper's words for it.
            #[doc = concat!("```\nuse phuyurik::", stringify!($name), ";\n\
                for one in ", stringify!($name), "::ALL {\n    \
                assert!(one.to_string().ends_with(one.words()));\n}\n```")]
            pub const fn words(self) -> &'static str {
                match self {
                    $($name::$case => $words,)*
                }
            }
        }

        impl TryFrom<u32> for $name {
            type Error = $crate::UnknownNumber;

            fn try_from(number: u32) -> Result<$name, $crate::UnknownNumber> {
                match number {
                    $($value => Ok($name::$case),)*
                    _ => Err($crate::UnknownNumber::new($kind, number)),
                }
            }
        }

        impl TryFrom<u8> for $name {
            type Error = $crate::UnknownNumber;

            fn try_from(number: u8) -> Result<$name, $crate::UnknownNumber> {
                $name::try_from(u32::from(number))
            }
        }
    };
}
pub(crate) use numbered;

numbered! {
    /// Why a call was refused. Nothing that was lent has changed.
    ///
    /// ```
    /// use phuyurik::{decode, Refusal};
    /// let refusal = decode(0).unwrap_err().refusal();
    /// assert_eq!(refusal, Some(Refusal::NoInstruction));
    /// assert_eq!(Refusal::NoInstruction.number(), 7);
    /// let words = "refusal 7: no legal instruction in the given bits";
    /// assert_eq!(Refusal::NoInstruction.to_string(), words);
    /// ```
    Refusal: u32, a "refusal" {
        MemoryTooLong = 1: "memory longer than 65,536",
        RowLength = 2: "row not 512 bytes",
        RowRecord = 3: "a row record breaks its rules",
        Slot = 4: "slot buffer not a multiple of 144, or no such slot",
        OddPc = 5: "odd pc",
        Room = 6: "text room under 24 bytes",
        NoInstruction = 7: "no legal instruction in the given bits",
        Field = 8: "instruction with a field out of range, or an odd branch or jal offset",
        NoShortForm = 9: "no short form",
        Unreadable = 10: "unreadable",
        NumberNotAllowed = 11: "a number or offset not allowed",
        NoShortLine = 12: "`c:` without a short form",
        OutputRoom = 13: "room shorter than the whole output",
        StopNumber = 14: "stop number out of range",
        RecordEnd = 15: "bytes 137 to 143 of a record, or a state's address, break their rules",
        MasksShare = 16: "masks that share a bit",
    }
}

numbered! {
    /// Why a run does not go on; `Paused` where it can. A state with another number is refused with
    /// [`Refusal::StopNumber`].
    ///
    /// ```
    /// use phuyurik::{State, Stop};
    /// assert_eq!(State::fresh().stop(), Ok(Stop::Paused));
    /// assert_eq!(Stop::try_from(9_u8), Ok(Stop::AlreadyBurnt));
    /// assert_eq!(Stop::AlreadyBurnt.to_string(), "word already burnt");
    /// assert!(Stop::try_from(12_u8).is_err());
    /// ```
    Stop: u8, a "stop" {
        Paused = 0: "paused, can go on",
        Ecall = 1: "ecall",
        Ebreak = 2: "ebreak",
        Illegal = 3: "illegal instruction",
        FetchOutside = 4: "fetch outside",
        LoadMisaligned = 5: "load misaligned",
        LoadOutside = 6: "load outside",
        StoreMisaligned = 7: "store misaligned",
        StoreOutside = 8: "store outside",
        AlreadyBurnt = 9: "word already burnt",
        CountFull = 10: "count full",
        NotOwned = 11: "word not its own",
    }
}

/// What of a call's arguments is refused.
///
/// ```
/// use phuyurik::{Argument, Refusal};
/// assert_eq!(Refusal::RowRecord.argument(), Argument::Row);
/// ```
#[non_exhaustive]
#[derive(Clone, Copy, Debug, PartialEq, Eq, Hash)]
pub enum Argument {
    /// Main memory.
    Memory,
    /// The fuse row.
    Row,
    /// The masks of a run: its own words, and the other's.
    Masks,
    /// The buffer of slots, or which of them.
    Slots,
    /// A state, or the record of one.
    State,
    /// The room for a text.
    Room,
    /// The bits of an instruction.
    Bits,
    /// The numbers of an instruction.
    Instruction,
    /// A line of a text that is to be assembled.
    Text,
    /// The room for what is assembled.
    Output,
}

impl Refusal {
    /// The argument that is at fault.
    ///
    /// ```
    /// use phuyurik::{Argument, Refusal};
    /// assert_eq!(Refusal::MemoryTooLong.argument(), Argument::Memory);
    /// ```
    pub const fn argument(self) -> Argument {
        match self {
            Refusal::MemoryTooLong => Argument::Memory,
            Refusal::RowLength | Refusal::RowRecord => Argument::Row,
            Refusal::MasksShare => Argument::Masks,
            Refusal::Slot => Argument::Slots,
            Refusal::OddPc | Refusal::StopNumber | Refusal::RecordEnd => Argument::State,
            Refusal::Room => Argument::Room,
            Refusal::NoInstruction => Argument::Bits,
            Refusal::Field | Refusal::NoShortForm => Argument::Instruction,
            Refusal::Unreadable | Refusal::NumberNotAllowed | Refusal::NoShortLine => {
                Argument::Text
            }
            Refusal::OutputRoom => Argument::Output,
        }
    }

    /// The refusals of any of these arguments.
    ///
    /// ```
    /// use phuyurik::{Argument, Refusal};
    /// assert!(Refusal::of(&[Argument::Row]).eq([Refusal::RowLength, Refusal::RowRecord]));
    /// ```
    pub fn of(arguments: &[Argument]) -> impl Iterator<Item = Refusal> + '_ {
        let all = Refusal::ALL.iter().copied();
        all.filter(|refusal| arguments.contains(&refusal.argument()))
    }
}

impl Stop {
    /// Whether it has an address, which a state carries with it: [`State::address`](crate::State::address).
    ///
    /// ```
    /// use phuyurik::Stop;
    /// assert!(Stop::LoadOutside.has_address());
    /// assert!(!Stop::Paused.has_address() && !Stop::Ecall.has_address());
    /// ```
    pub const fn has_address(self) -> bool {
        match self {
            Stop::Paused | Stop::Ecall | Stop::Ebreak | Stop::CountFull => false,
            Stop::Illegal
            | Stop::FetchOutside
            | Stop::LoadMisaligned
            | Stop::LoadOutside
            | Stop::StoreMisaligned
            | Stop::StoreOutside
            | Stop::AlreadyBurnt
            | Stop::NotOwned => true,
        }
    }
}

impl fmt::Display for Refusal {
    fn fmt(&self, f: &mut fmt::Formatter) -> fmt::Result {
        write!(f, "refusal {}: {}", self.number(), self.words())
    }
}

impl std::error::Error for Refusal {}

impl fmt::Display for Stop {
    fn fmt(&self, f: &mut fmt::Formatter) -> fmt::Result {
        f.pad(self.words())
    }
}

/// A number that no stop, refusal or operation has.
///
/// ```
/// use phuyurik::Stop;
/// let unknown = Stop::try_from(12_u8).unwrap_err();
/// assert_eq!(unknown.number(), 12);
/// assert_eq!(unknown.to_string(), "no stop has the number 12");
/// ```
#[derive(Clone, Copy, Debug, PartialEq, Eq, Hash)]
pub struct UnknownNumber {
    kind: &'static str,
    number: u32,
}

impl UnknownNumber {
    pub(crate) const fn new(kind: &'static str, number: u32) -> UnknownNumber {
        UnknownNumber { kind, number }
    }

    /// The number itself.
    ///
    /// ```
    /// use phuyurik::Operation;
    /// assert_eq!(Operation::try_from(48_u32).unwrap_err().number(), 48);
    /// ```
    pub const fn number(self) -> u32 {
        self.number
    }
}

impl fmt::Display for UnknownNumber {
    fn fmt(&self, f: &mut fmt::Formatter) -> fmt::Result {
        write!(f, "no {} has the number {}", self.kind, self.number)
    }
}

impl std::error::Error for UnknownNumber {}

#[cfg(test)]
mod tests {
    use super::*;
    use crate::Operation;

    #[test]
    fn numbers_leave_none_out() {
        let refusals = Refusal::ALL.iter().map(|refusal| refusal.number());
        assert!(refusals.eq(1..=16));
        let stops = Stop::ALL.iter().map(|stop| stop.number());
        assert!(stops.eq(0..=11));
        let operations = Operation::ALL.iter().map(|operation| operation.number());
        assert!(operations.eq(0..=47));
    }

    #[test]
    fn stops_3_to_9_and_11_have_an_address() {
        let with = Stop::ALL.iter().filter(|stop| stop.has_address());
        assert!(with.map(|stop| stop.number()).eq((3..=9).chain([11])));
    }

    #[test]
    fn numbers_lead_back_and_others_lead_nowhere() {
        for number in 0..=u8::MAX {
            let stop = Stop::try_from(number).ok();
            assert_eq!(stop, Stop::ALL.get(usize::from(number)).copied());
            let operation = Operation::try_from(number).ok();
            assert_eq!(operation, Operation::ALL.get(usize::from(number)).copied());
            let refusal = Refusal::try_from(u32::from(number)).ok();
            let place = usize::from(number).checked_sub(1);
            assert_eq!(refusal, place.and_then(|at| Refusal::ALL.get(at).copied()));
        }
        assert!(Stop::try_from(256_u32).is_err() && Operation::try_from(1_u32 << 31).is_err());
    }
}
