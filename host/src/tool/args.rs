//! The command line.
use super::error::Error;
use super::help;
use phuyurik::{Masks, Words};
use std::collections::{BTreeMap, VecDeque};
use std::ffi::OsString;
use std::path::PathBuf;

/// Steps between two saves, where `--piece` says nothing else.
pub const PIECE: u64 = 5_000_000;

#[derive(Debug, PartialEq)]
pub enum Command {
    Help(String),
    Version,
    Run(Order),
    List {
        image: PathBuf,
        until: Option<usize>,
    },
    /// The listing's texts alone, which `Assemble` reads.
    Text {
        image: PathBuf,
        until: Option<usize>,
    },
    Assemble(Assembly),
    Row(PathBuf, Option<Masks>),
    Slot(PathBuf, usize),
    Status(PathBuf),
    Forget {
        slots: PathBuf,
        k: usize,
        yes: bool,
    },
    Adopt {
        slots: PathBuf,
        k: usize,
        row: PathBuf,
        yes: bool,
    },
    Settle {
        row: PathBuf,
        discard: bool,
        yes: bool,
    },
    Mend {
        slots: PathBuf,
        yes: bool,
    },
    Demo,
}

/// What `run` is to do with a run of its row that it finds in its slot.
#[derive(Clone, Copy, Debug, PartialEq, Eq)]
pub enum Mode {
    /// Carry it on, or tell an end of it that was not told; start the recipe if there is none, here
    /// or elsewhere. What is typed without thinking loses nothing.
    Either,
    /// Carry it on, or tell its end, and never start.
    Resume,
    /// Give it up, and start, also beside one that is paused elsewhere.
    Restart,
}

/// What `phuyurik run` is to do.
#[derive(Clone, Debug, PartialEq)]
pub struct Order {
    pub image: PathBuf,
    pub row: PathBuf,
    pub slots: PathBuf,
    pub slot: usize,
    pub budget: u64,
    pub piece: u64,
    /// The memory's length, where it is not the image's.
    pub memory: Option<usize>,
    pub mode: Mode,
    /// The part is new: its row is not there yet.
    pub new: bool,
    /// The part was exchanged: what was known of the row no longer holds.
    pub accept_row: bool,
    /// On copies: no file is changed.
    pub dry_run: bool,
    /// Whose the words of the row are, if that was said.
    pub masks: Option<Masks>,
}

/// What `phuyurik assemble` is to do.
#[derive(Clone, Debug, PartialEq)]
pub struct Assembly {
    /// A file, or `STANDARD_INPUT`.
    pub text: PathBuf,
    pub image: PathBuf,
    pub onto: Option<Onto>,
}

/// The image whose first instructions are replaced: those before an address.
#[derive(Clone, Debug, PartialEq)]
pub struct Onto {
    pub old: PathBuf,
    pub until: usize,
}

/// The name that stands for no file, where a text is read.
pub const STANDARD_INPUT: &str = "-";

fn wrong<T>(why: impl ToString) -> Result<T, Error> {
    Err(Error::Usage(why.to_string()))
}

/// A number of digits alone: a sign would be read too.
fn number_of(digits: &str, radix: u32) -> Option<u64> {
    let is_plain = digits.chars().all(|c| c.is_digit(radix));
    let number = u64::from_str_radix(digits, radix).ok();
    number.filter(|_| is_plain)
}

fn is(word: &OsString, names: &[&str]) -> bool {
    names.iter().any(|name| word == name)
}

pub fn parse(words: Vec<OsString>) -> Result<Command, Error> {
    let mut words = VecDeque::from(words);
    let Some(command) = words.pop_front() else {
        return wrong("no command");
    };
    if is(&command, &["--help", "-h", "help"]) {
        return Ok(Command::Help(help::program()));
    }
    if is(&command, &["--version", "-V"]) {
        return Ok(Command::Version);
    }
    let name = command.to_string_lossy();
    let Some(help) = help::COMMANDS.iter().find(|help| help.command == name) else {
        return wrong(format!("no command {name:?}"));
    };
    if words.iter().any(|word| is(word, &["--help", "-h"])) {
        return Ok(Command::Help(help.text()));
    }
    let Some(takes) = TAKEN.iter().find(|takes| takes.command == name) else {
        return wrong(format!("no command {name:?}"));
    };
    command_of(Given::read(words, takes)?)
}

/// What a command takes: words of its own, options with a value, and options without.
struct Takes {
    command: &'static str,
    words: &'static [&'static str],
    values: &'static [&'static str],
    flags: &'static [&'static str],
}

impl Takes {
    /// Whether a word is meant as an option, and not as the text on standard input.
    fn is_option(&self, word: &str) -> bool {
        word.starts_with('-') && (word != STANDARD_INPUT || self.words != ["TEXT"])
    }
}

const fn takes(
    command: &'static str,
    words: &'static [&'static str],
    values: &'static [&'static str],
    flags: &'static [&'static str],
) -> Takes {
    Takes {
        command,
        words,
        values,
        flags,
    }
}

const RUN_VALUES: &[&str] = &[
    "--row", "--slots", "--slot", "--budget", "--piece", "--memory", "--own", "--other",
];
const RUN_FLAGS: &[&str] = &[
    "--resume",
    "--restart",
    "--new",
    "--accept-row",
    "--dry-run",
];

const TAKEN: &[Takes] = &[
    takes("run", &["IMAGE"], RUN_VALUES, RUN_FLAGS),
    takes("list", &["IMAGE"], &["--until"], &["--text"]),
    takes("assemble", &["TEXT"], &["-o", "--onto", "--until"], &[]),
    takes("row", &["FILE"], &["--own", "--other"], &[]),
    takes("slot", &["FILE", "K"], &[], &[]),
    takes("status", &["FOLDER"], &[], &[]),
    takes("forget", &["SLOTS", "K"], &[], &["--yes"]),
    takes("adopt", &["SLOTS", "K"], &["--row"], &["--yes"]),
    takes("settle", &["ROW"], &[], &["--discard", "--yes"]),
    takes("mend", &["SLOTS"], &[], &["--yes"]),
    takes("demo", &[], &[], &[]),
];

/// What was given, by name, each at most once.
struct Given {
    command: &'static str,
    values: BTreeMap<&'static str, OsString>,
    flags: Vec<&'static str>,
}

impl Given {
    fn read(mut words: VecDeque<OsString>, takes: &Takes) -> Result<Given, Error> {
        let mut given = Given {
            command: takes.command,
            values: BTreeMap::new(),
            flags: Vec::new(),
        };
        let mut own = takes.words.iter();
        while let Some(word) = words.pop_front() {
            let name = word.to_string_lossy();
            if let Some(flag) = takes.flags.iter().find(|flag| **flag == name) {
                given.flags.push(flag);
            } else if let Some(option) = takes.values.iter().find(|option| **option == name) {
                let Some(value) = words.pop_front() else {
                    return wrong(format!("{name} needs a value"));
                };
                if let Some(first) = given.values.insert(option, value) {
                    return wrong(format!("{name} comes after {first:?}: one too many"));
                }
            } else if takes.is_option(&name) {
                return wrong(format!("no option {name:?}"));
            } else if let Some(place) = own.next() {
                given.values.insert(place, word);
            } else {
                return wrong(format!("{word:?} is one word too many"));
            }
        }
        Ok(given)
    }

    fn has(&self, flag: &str) -> bool {
        self.flags.contains(&flag)
    }

    fn value(&self, name: &str) -> Result<&OsString, Error> {
        match self.values.get(name) {
            Some(value) => Ok(value),
            None => wrong(format!("{name} is missing")),
        }
    }

    fn path(&self, name: &str) -> Result<PathBuf, Error> {
        self.value(name).map(PathBuf::from)
    }

    fn number(&self, name: &str) -> Result<u64, Error> {
        let word = self.value(name)?;
        match number_of(&word.to_string_lossy(), 10) {
            Some(number) => Ok(number),
            None => wrong(format!("{name}: {word:?} is not a number from 0 to 2^64-1")),
        }
    }

    fn number_if_given(&self, name: &str) -> Result<Option<u64>, Error> {
        match self.values.contains_key(name) {
            true => self.number(name).map(Some),
            false => Ok(None),
        }
    }

    fn path_if_given(&self, name: &str) -> Option<PathBuf> {
        self.values.get(name).map(PathBuf::from)
    }

    /// An address, also as a listing has it: 0x and hexadecimal digits.
    fn address_if_given(&self, name: &str) -> Result<Option<usize>, Error> {
        let Some(word) = self.values.get(name) else {
            return Ok(None);
        };
        let text = word.to_string_lossy();
        let number = match text.strip_prefix("0x") {
            Some(digits) => number_of(digits, 16),
            None => number_of(&text, 10),
        };
        match number.and_then(|number| usize::try_from(number).ok()) {
            Some(address) => Ok(Some(address)),
            None => wrong(format!(
                "{name}: {word:?} is not an address, such as 112 or 0x70"
            )),
        }
    }

    /// A list of words, or a mask.
    fn words_if_given(&self, name: &str) -> Result<Option<Words>, Error> {
        let Some(word) = self.values.get(name) else {
            return Ok(None);
        };
        match word.to_string_lossy().parse() {
            Ok(words) => Ok(Some(words)),
            Err(why) => wrong(format!(
                "{name}: {why}; words are such as 0-31,40, or 0x00ff for a mask"
            )),
        }
    }

    /// A length or a place, which on a small machine may be too large for any.
    fn size(&self, name: &str) -> Result<usize, Error> {
        let number = self.number(name)?;
        usize::try_from(number).or_else(|_| wrong(format!("{name}: {number} is too large")))
    }
}

fn command_of(given: Given) -> Result<Command, Error> {
    let yes = given.has("--yes");
    Ok(match given.command {
        "run" => Command::Run(order(&given)?),
        "list" => list(&given)?,
        "assemble" => Command::Assemble(assembly(&given)?),
        "row" => Command::Row(given.path("FILE")?, masks(&given)?),
        "slot" => Command::Slot(given.path("FILE")?, given.size("K")?),
        "status" => Command::Status(given.path("FOLDER").unwrap_or_else(|_| ".".into())),
        "forget" => Command::Forget {
            slots: given.path("SLOTS")?,
            k: given.size("K")?,
            yes,
        },
        "adopt" => Command::Adopt {
            slots: given.path("SLOTS")?,
            k: given.size("K")?,
            row: given.path("--row")?,
            yes,
        },
        "settle" => Command::Settle {
            row: given.path("ROW")?,
            discard: given.has("--discard"),
            yes,
        },
        "mend" => Command::Mend {
            slots: given.path("SLOTS")?,
            yes,
        },
        _ => Command::Demo,
    })
}

fn list(given: &Given) -> Result<Command, Error> {
    let (image, until) = (given.path("IMAGE")?, given.address_if_given("--until")?);
    Ok(match given.has("--text") {
        true => Command::Text { image, until },
        false => Command::List { image, until },
    })
}

fn assembly(given: &Given) -> Result<Assembly, Error> {
    let until = given.address_if_given("--until")?;
    let assembly = Assembly {
        text: given.path("TEXT")?,
        image: given.path("-o")?,
        onto: match (given.path_if_given("--onto"), until) {
            (None, None) => None,
            (Some(old), Some(until)) => Some(Onto { old, until }),
            (Some(_), None) => return wrong("--onto needs --until, as list --text had it"),
            (None, Some(_)) => return wrong("--until needs --onto"),
        },
    };
    match assembly.image.as_os_str() == STANDARD_INPUT {
        true => wrong("-o -: an image is written to a file"),
        false => Ok(assembly),
    }
}

/// Whether they share a word is the library's to say.
fn masks(given: &Given) -> Result<Option<Masks>, Error> {
    let own = given.words_if_given("--own")?;
    let other = given.words_if_given("--other")?;
    match (own, other) {
        (None, None) => Ok(None),
        (None, Some(_)) => wrong("--other needs --own"),
        (Some(own), other) => {
            let other = other.unwrap_or(Words::NONE);
            Ok(Some(Masks { own, other }))
        }
    }
}

fn order(given: &Given) -> Result<Order, Error> {
    let mode = match (given.has("--resume"), given.has("--restart")) {
        (true, true) => return wrong("--resume and --restart exclude each other"),
        (true, false) => Mode::Resume,
        (false, true) => Mode::Restart,
        (false, false) => Mode::Either,
    };
    let order = Order {
        image: given.path("IMAGE")?,
        row: given.path("--row")?,
        slots: given.path("--slots")?,
        slot: given.size("--slot")?,
        budget: given.number("--budget")?,
        piece: given.number_if_given("--piece")?.unwrap_or(PIECE),
        memory: match given.values.contains_key("--memory") {
            true => Some(given.size("--memory")?),
            false => None,
        },
        mode,
        new: given.has("--new"),
        accept_row: given.has("--accept-row"),
        dry_run: given.has("--dry-run"),
        masks: masks(given)?,
    };
    match order.piece {
        0 => wrong("--piece must be at least 1"),
        _ => Ok(order),
    }
}

#[cfg(test)]
mod tests {
    use super::*;

    fn parsed(line: &str) -> Result<Command, Error> {
        parse(line.split_whitespace().map(OsString::from).collect())
    }

    #[test]
    fn a_whole_run() {
        let line = "run a --row r --slots s --slot 2 --budget 18446744073709551615";
        let order = Order {
            image: "a".into(),
            row: "r".into(),
            slots: "s".into(),
            slot: 2,
            budget: u64::MAX,
            piece: PIECE,
            memory: None,
            mode: Mode::Either,
            new: false,
            accept_row: false,
            dry_run: false,
            masks: None,
        };
        assert_eq!(parsed(line).expect("right"), Command::Run(order.clone()));
        let more = "--memory 9 --piece 7 --resume --new --accept-row --dry-run --own 0-7";
        let order = Order {
            piece: 7,
            memory: Some(9),
            mode: Mode::Resume,
            new: true,
            accept_row: true,
            dry_run: true,
            masks: Some(masks_of(0xFF, 0)),
            ..order
        };
        let line = format!("{line} {more}");
        assert_eq!(parsed(&line).expect("right"), Command::Run(order.clone()));
        let mode = Mode::Restart;
        let line = line.replace("--resume", "--restart");
        assert_eq!(
            parsed(&line).expect("right"),
            Command::Run(Order { mode, ..order })
        );
    }

    fn masks_of(own: u64, other: u64) -> Masks {
        let (own, other) = (own.into(), other.into());
        Masks { own, other }
    }

    #[test]
    fn words_of_two_recipes() {
        let row = |masks| Command::Row("r".into(), masks);
        let lines = [
            ("row r", None),
            ("row r --own 0-31", Some(masks_of(0xFFFF_FFFF, 0))),
            ("row --other 9,8 r --own 0x3", Some(masks_of(3, 0x300))),
            ("row r --own all --other none", Some(Masks::default())),
            ("row r --own 5 --other 5", Some(masks_of(32, 32))),
        ];
        for (line, masks) in lines {
            assert_eq!(parsed(line).expect(line), row(masks));
        }
    }

    #[test]
    fn listings_and_texts() {
        let (image, old, until) = (PathBuf::from("a"), "c".into(), 112);
        let onto = Some(Onto { old, until });
        let assembly = |text: &str, onto| {
            let (text, image) = (text.into(), "b".into());
            Command::Assemble(Assembly { text, image, onto })
        };
        for (until, words) in [
            (None, ""),
            (Some(112), "--until 112"),
            (Some(112), "--until 0x70"),
        ] {
            let list = Command::List {
                image: image.clone(),
                until,
            };
            assert_eq!(parsed(&format!("list a {words}")).expect(words), list);
            let text = Command::Text {
                image: image.clone(),
                until,
            };
            assert_eq!(
                parsed(&format!("list {words} --text a")).expect(words),
                text
            );
        }
        let parsed = |line: &str| parsed(line).expect(line);
        assert_eq!(parsed("assemble a -o b"), assembly("a", None));
        assert_eq!(
            parsed("assemble -o b - --until 0x70 --onto c"),
            assembly("-", onto)
        );
    }

    #[test]
    fn the_ways_out() {
        let (slots, row): (PathBuf, PathBuf) = ("s".into(), "r".into());
        let commands = [
            ("status", Command::Status(".".into())),
            ("status s", Command::Status("s".into())),
            (
                "forget s 3",
                Command::Forget {
                    slots: slots.clone(),
                    k: 3,
                    yes: false,
                },
            ),
            (
                "adopt --yes s --row r 3",
                Command::Adopt {
                    slots: slots.clone(),
                    k: 3,
                    row: row.clone(),
                    yes: true,
                },
            ),
            (
                "settle --discard r",
                Command::Settle {
                    row,
                    discard: true,
                    yes: false,
                },
            ),
            ("mend s --yes", Command::Mend { slots, yes: true }),
        ];
        for (line, command) in commands {
            assert_eq!(parsed(line).expect(line), command);
        }
    }

    #[test]
    fn help_is_there_for_the_program_and_every_command() {
        let help = |line: &str| match parsed(line) {
            Ok(Command::Help(text)) => text,
            other => panic!("{line}: {other:?}"),
        };
        let program = help("--help");
        assert_eq!(help::COMMANDS.len(), TAKEN.len());
        for (known, takes) in help::COMMANDS.iter().zip(TAKEN) {
            let (name, text) = (known.command, known.text());
            assert_eq!(help(&format!("{name} --help")), text);
            assert!(text.starts_with(&format!("Usage: phuyurik {name}")));
            assert!(text.contains("\nExample") && text.contains("\nExit codes"));
            assert!(program.contains(&format!("\n  {name} ")));
            assert_eq!(name, takes.command);
            for option in takes.values.iter().chain(takes.flags).chain(takes.words) {
                assert!(text.contains(option), "{name}: {option}");
            }
        }
        assert!(program.contains("\nExample") && program.contains("\nExit codes"));
    }

    fn is_wrong(line: &str) {
        match parsed(line) {
            Err(Error::Usage(_)) => {}
            other => panic!("{line}: {other:?}"),
        }
    }

    #[test]
    fn wrong_lines_are_usage_errors() {
        let lines = "|walk|list|list a b|list -|list a --until|list a --until -1|list a --until 0x|\
                     list a --until +6|list a --until 0x+6|list a --until 0x-6|list a --until 6a|\
                     list a --until 0x6g|list a --until 18446744073709551616|\
                     list a --onto b|assemble a|assemble -o b|assemble a b -o c|assemble a -o|\
                     assemble a -o -|assemble a -o b --onto|assemble a -o b --text|\
                     assemble a -o b --onto c|assemble a -o b --until 112|slot a|slot a +1|\
                     slot a -1|slot a x|demo now|status a b|forget s|forget s x|forget s 0 --no|adopt s 0|adopt s|settle|settle r s|\
                     settle r --row r|mend|mend s 0|row r --other 3|row r --own|row r --own 64|\
                     row r --own 5-3|row r --own 1,,2|row r --own 0x|row r --own 3,3|\
                     row r --own -1|row r --own 1 --own 2|row r --own 1 --other 0-64|slot s 0 --own 1";
        lines.split('|').for_each(is_wrong);
    }

    #[test]
    fn wrong_runs_are_usage_errors() {
        let whole = "run a --row r --slots s --slot 0 --budget 1";
        let more = "--piece 0|--piece|--row q|b|--fast|--budget|--resume --restart|--memory|\
                    --memory x|--yes|--other 0|--own|--own x|--own 0 --other|--own 0 --other 64";
        for more in more.split('|') {
            is_wrong(&format!("{whole} {more}"));
        }
        for part in ["a ", " --row r", " --slots s", " --slot 0", " --budget 1"] {
            is_wrong(&whole.replacen(part, "", 1));
        }
    }
}
