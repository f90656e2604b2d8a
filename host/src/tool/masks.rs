//! Whose words are whose, where two recipes take turns on a row.
use super::error::Error;
use phuyurik::{Board, Masks, Refusal, Row, State, Words};

/// As they are typed: `--own 0-31 --other 32-63`.
pub fn typed(masks: Masks) -> String {
    match masks.other {
        Words::NONE => format!("--own {}", masks.own),
        other => format!("--own {} --other {other}", masks.own),
    }
}

/// What starts a run with these masks over: where it has some, a start names them, too.
pub fn restart(masks: Masks) -> String {
    match masks == Masks::default() {
        true => "--restart".to_string(),
        false => format!("--restart {}", typed(masks)),
    }
}

/// That the library accepts them: a run of budget 0.
pub fn are_accepted(masks: Masks) -> Result<(), Error> {
    Board::shared(&mut [], &mut Row::default(), masks)
        .run(&mut State::fresh(), 0)
        .map(drop)
        .map_err(|_| refused(masks))
}

/// Why the library refused them, with the words for which it did.
pub fn refused(masks: Masks) -> Error {
    let why = format!("both have {}", named(masks.shared()));
    Error::RefusedFor(typed(masks).into(), Refusal::MasksShare, why)
}

/// Such as `word 3` or `words 3,5-7`.
pub fn named(words: Words) -> String {
    match words.iter().count() {
        1 => format!("word {words}"),
        _ => format!("words {words}"),
    }
}

/// Whether runs with these own words can do each other no harm: none has a word of the other. A run and
/// a copy of it are never apart, also where they have no words at all.
pub fn are_apart(one: Words, other: Words) -> bool {
    one != other && (one & other).is_empty()
}

/// Whether two runs that take turns say the same of whose words are whose, as far as they say it: the own
/// words of each are the other's for the other. Where they do not, a mask was mistyped, perhaps.
pub fn agree(one: Masks, two: Masks) -> bool {
    let is_within = |own: Words, other: Words| other.is_empty() || own & other == own;
    is_within(one.own, two.other) && is_within(two.own, one.other)
}

#[cfg(test)]
mod tests {
    use super::*;

    fn masks(own: &str, other: &str) -> Masks {
        let words = |text: &str| text.parse().expect("words");
        let (own, other) = (words(own), words(other));
        Masks { own, other }
    }

    #[test]
    fn they_are_typed_as_they_are_read() {
        assert_eq!(typed(masks("0-31", "none")), "--own 0-31");
        let both = typed(masks("0xff", "8,12-63"));
        assert_eq!(both, "--own 0-7 --other 8,12-63");
        assert_eq!(typed(Masks::default()), "--own all");
        assert_eq!(restart(masks("0-31", "none")), "--restart --own 0-31");
        assert_eq!(restart(Masks::default()), "--restart");
    }

    #[test]
    fn shared_words_are_told() {
        for (own, other, words) in [
            ("0-31", "31-63", "word 31"),
            ("0-31", "5,20-63", "words 5,20-31"),
            ("all", "all", "words all"),
        ] {
            let error = refused(masks(own, other));
            assert_eq!(error.exit_code(), 46);
            let told = format!(
                "--own {own} --other {other}: refusal 16: masks that share a bit (both have {words})"
            );
            assert_eq!(error.to_string(), told);
        }
    }

    #[test]
    fn runs_agree_on_words_that_both_speak_of() {
        let low = masks("0-31", "32-63");
        for other in [
            low.swapped(),
            masks("40-63", "0-31"),
            masks("32-63", "none"),
            masks("32-63", "0-35"),
        ] {
            assert!(agree(low, other) && agree(other, low), "{other:?}");
        }
        for other in [masks("32-63", "0-30"), masks("32-63", "1")] {
            assert!(!agree(low, other) && !agree(other, low), "{other:?}");
        }
        assert!(!agree(masks("0-15", "32-63"), masks("16-63", "none")));
        assert!(agree(masks("0-15", "none"), masks("16-63", "none")));
    }

    #[test]
    fn a_run_is_not_apart_from_its_copy() {
        let words = |text: &str| -> Words { text.parse().expect("words") };
        for own in ["0-31", "all", "none"] {
            assert!(!are_apart(words(own), words(own)), "{own}");
        }
        assert!(are_apart(words("0-31"), words("32-63")));
        assert!(are_apart(words("0-31"), words("none")));
        assert!(!are_apart(words("0-31"), words("31-63")));
        assert!(!are_apart(words("0-31"), Words::ALL));
    }
}
