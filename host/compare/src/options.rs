//! The command line.

pub const HELP: &str = "\
compare: both emulators on random and hostile inputs

usage: compare [--seed N] [--seconds N] [--rounds N]

  --seed N     the first round's seed, from which those of the others come (20191213)
  --seconds N  begins rounds for so long (30); 0: until a difference, with a seed from the clock
  --rounds N   so many rounds, whatever the time: replays a difference
  --help       this text

Before the rounds come every halfword, lines of every operation, and of the 2^32 words a
sixteenth that the seed chooses; with --seconds 0 all of them.

Exit: 0 no difference; 1 a difference, or a stop, an address of one, a store into the row (of zero or
not, to a blank word or a burnt one), with masks an access to the row (its own word or not, blank or
burnt), a kind of masks or of turns or of two rows, a refusal, its word or a kind of its place that
was never reached; 2 usage.
";

pub struct Options {
    pub seed: Option<u64>,
    pub seconds: u64,
    pub rounds: Option<u64>,
}

impl Options {
    /// None if the help is asked for.
    pub fn read(mut words: impl Iterator<Item = String>) -> Result<Option<Options>, String> {
        let mut options = Options {
            seed: None,
            seconds: 30,
            rounds: None,
        };
        while let Some(word) = words.next() {
            if word == "--help" {
                return Ok(None);
            }
            let number = words.next().and_then(|n| n.parse().ok());
            let number = number.ok_or_else(|| format!("a number should follow {word}"));
            match word.as_str() {
                "--seed" => options.seed = Some(number?),
                "--seconds" => options.seconds = number?,
                "--rounds" => options.rounds = Some(number?),
                _ => return Err(format!("no such option: {word}")),
            }
        }
        Ok(Some(options))
    }
}

#[cfg(test)]
mod tests {
    use super::*;

    fn read(line: &str) -> Result<Option<Options>, String> {
        Options::read(line.split_whitespace().map(str::to_string))
    }

    #[test]
    fn options_are_read() {
        let Ok(Some(plain)) = read("") else {
            panic!("no words are allowed")
        };
        assert_eq!((plain.seed, plain.seconds, plain.rounds), (None, 30, None));
        let Ok(Some(given)) = read("--seed 7 --seconds 0 --rounds 1") else {
            panic!("all options are allowed")
        };
        assert_eq!(
            (given.seed, given.seconds, given.rounds),
            (Some(7), 0, Some(1))
        );
        assert!(matches!(read("--help"), Ok(None)));
        assert!(read("--seed").is_err() && read("--seed x").is_err() && read("-q 1").is_err());
    }
}
