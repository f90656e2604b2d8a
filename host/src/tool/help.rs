//! The help texts. The exit codes at the end of each come from the lists of what can go wrong.
use super::error::{refusal_code, Kind};
use super::show::{stop_code, stop_text};
use phuyurik::Argument::{self, Bits, Masks, Memory, Row, Slots, State, Text};
use phuyurik::{Refusal, Stop};

const COLUMNS: usize = 80;

/// What a command does, as far as its exit codes tell.
#[derive(Clone, Copy, PartialEq)]
enum Does {
    /// It runs a recipe, which comes to a stop.
    Runs,
    /// It looks at files, and changes none.
    Looks,
    /// It writes a file that is of no row and no run.
    Writes,
    /// It changes files, if the flag that says yes is there.
    Mends,
    /// It compares what it sees with the paper.
    Compares,
}

impl Does {
    /// What can be wrong with a file. One who only looks shows whatever else is.
    fn kinds(self) -> &'static [Kind] {
        match self {
            Does::Runs | Does::Mends => &Kind::ALL,
            Does::Looks | Does::Compares => &[Kind::File, Kind::Missing, Kind::Output],
            Does::Writes => &[Kind::File, Kind::Missing, Kind::OtherRun, Kind::Output],
        }
    }
}

/// A text, and what there is for the exit code to tell.
pub struct Help {
    pub command: &'static str,
    about: &'static str,
    does: Does,
    /// What it lends to the library, which may refuse it.
    lends: &'static [Argument],
}

impl Help {
    pub fn text(&self) -> String {
        format!("{}\n{}", self.about, codes(&[self]))
    }
}

/// The help of the program itself, with the exit codes of all its commands.
pub fn program() -> String {
    format!("{PROGRAM}\n{}", codes(&COMMANDS.iter().collect::<Vec<_>>()))
}

/// The exit codes that these commands have among them.
fn codes(commands: &[&Help]) -> String {
    let any = |does: Does| commands.iter().any(|command| command.does == does);
    let lends: Vec<Argument> = commands
        .iter()
        .flat_map(|command| command.lends)
        .copied()
        .collect();
    let mut text = match any(Does::Runs) {
        true => line(
            0,
            "done: the recipe came to its ecall, or the command to its end",
        ),
        false => line(0, "done"),
    };
    if any(Does::Compares) {
        text += &line(1, "demo: a fact was not as the paper has it");
    }
    text += &match any(Does::Mends) {
        true => line(2, "wrong usage, or without --yes: nothing was changed"),
        false => line(2, "wrong usage"),
    };
    let can_be = |kind: &Kind| commands.iter().any(|one| one.does.kinds().contains(kind));
    for kind in Kind::ALL.iter().filter(|kind| can_be(kind)) {
        text += &line(kind.code(), kind.words());
    }
    if any(Does::Runs) {
        for stop in Stop::ALL.iter().filter(|stop| stop_code(**stop) > 0) {
            text += &line(stop_code(*stop), &stop_text(*stop));
        }
    }
    for refusal in Refusal::of(&lends) {
        text += &line(refusal_code(refusal), &refusal.to_string());
    }
    let rule = rule(any(Does::Runs), !lends.is_empty());
    format!("Exit codes{rule}:\n{text}")
}

/// How a stop or a refusal becomes an exit code, where there can be one.
fn rule(stops: bool, refusals: bool) -> &'static str {
    match (stops, refusals) {
        (true, _) => " (10 + the stop number but for ecall, 30 + the refusal number)",
        (false, true) => " (30 + the refusal number)",
        (false, false) => "",
    }
}

/// A code and its meaning; what would pass the last column goes on in a new line.
fn line(code: u8, meaning: &str) -> String {
    let mut text = format!("  {code:<3}");
    let mut column = text.len();
    for word in meaning.split(' ') {
        if column + 1 + word.len() > COLUMNS {
            text += "\n     ";
            column = 5;
        }
        text += &format!(" {word}");
        column += 1 + word.len();
    }
    text + "\n"
}

const PROGRAM: &str = "\
Usage: phuyurik COMMAND ...

Runs trim recipes (RV32IMC programs) on a part's row of 64 one-time words.
A run that was cut off, by its budget, a kill or a power cut, is carried on
from what was saved; a burnt word is never burnt again.

Commands:
  run       carries the run in a slot on, or starts the recipe
  list      lists the instructions of a recipe
  assemble  writes a recipe from the lines of its listing
  row       shows the words of a part's row
  slot      shows a saved state
  status    shows the runs and rows of a folder, and what to do next
  forget    gives the run in a slot up
  adopt     tells a run where its row and slots are now
  settle    carries out a save that was cut short, or sets it aside
  mend      makes a slots file again from the memory files
  demo      shows all of it on the paper's recipe, in a temporary folder

  phuyurik COMMAND --help says more; phuyurik --version says which this is.

Example:
  phuyurik run trim.bin --row part.row --slots line.slots --slot 0 --budget 1000
";

const RUN: Help = Help {
    command: "run",
    about: "\
Usage: phuyurik run IMAGE --row FILE --slots FILE --slot K --budget N
                    [--resume | --restart] [--new] [--accept-row]
                    [--own WORDS [--other WORDS]]
                    [--memory N] [--piece N] [--dry-run]

Runs the recipe IMAGE for at most N steps on the part whose row is in FILE,
with its state in slot K, and tells what was retired, the count, the stop, the
pc and the words burnt since the recipe's start. A paused run of this recipe
and this row in slot K is carried on. One that has ended is told of, if standard
output has not taken its end yet. Otherwise the recipe starts, unless a run on
this row is paused elsewhere that shares a word with it. So the same command,
repeated while it exits with 10, comes to the recipe's end.

  --row FILE    the part's row, 512 bytes
  --slots FILE  saved states, 144 bytes each; made and lengthened as needed
  --slot K      the slot of this run, from 0
  --budget N    at most N steps
  --resume      carries the run in slot K on or tells its end, and never starts
  --restart     starts anew, on the row as it is, although a run on this row is
                paused: in slot K, which gives that run up, or elsewhere
  --new         the part is new: its row is not there yet, and is made blank;
                the same command may be given again until its run has ended
  --accept-row  the part was exchanged: the row is taken as it is, although
                words of it are known to be burnt that are blank or other
                there; a run that burnt any of them is not carried on over the
                new part, but started over with --restart
  --own WORDS   the recipe's own words, where two recipes take turns on one
                row, each in a slot of its own: a load or store at any other
                word stops it. WORDS is a list such as 0-31,40, or all, or none,
                or a mask such as 0x00ff, whose bit k stands for word k
                (default all). A start that names none is refused, also with
                --restart, where the last run in slot K has masks, or one on
                this row that is paused or in the same slots file: --own all
                says that all words are meant
  --other WORDS the other recipe's words, of which none may be an own one
                (default none). A run keeps its masks to its end: carried on
                it needs neither option, and is refused with other masks. Try
                them with --dry-run first: words left out of --own by a slip
                stop the recipe for good, perhaps with half of its words burnt
  --memory N    memory of N bytes: the image, and zeros after it
  --piece N     saves after every N steps (default 5000000)
  --dry-run     runs on copies and tells which words would be burnt; no file is
                made or changed

State, memory and row are saved as one moment, at the start and after every
piece. After a kill or a power cut, the next run carries on from the last one.

Files beside the row and the slots:
  ROW.journal       a save under way; the next run carries it out. Never
                    remove it: it may be all that knows of a burnt word.
  ROW.seen          the words that are known to be burnt in this row, and where
                    runs on it were last paused
  SLOTS.K.memory    the run in slot K, with its memory and its masks
  ROW.lock, SLOTS.K.lock, SLOTS.lock
                    held by a run while it works; they stay, also between runs
  *.tmp             left by a run that was killed; harmless
A run knows its row by the path: where a folder was moved, see adopt.

Example:
  phuyurik run trim.bin --row part.row --slots line.slots --slot 0 \\
      --budget 1000 --new
  while phuyurik run trim.bin --row part.row --slots line.slots --slot 0 \\
      --budget 1000; [ $? -eq 10 ]; do :; done
  phuyurik run reference_trim.bin --row part.row --slots line.slots --slot 0 \\
      --budget 1000 --own 0-31 --other 32-63
",
    does: Does::Runs,
    lends: &[Memory, Row, Masks, Slots, State],
};

const LIST: Help = Help {
    command: "list",
    about: "\
Usage: phuyurik list IMAGE [--text] [--until ADDRESS]

Lists the instructions of IMAGE: address, bits, text. Bits that are no
instruction have a question mark. An image over 65,536 bytes gives `too long`.

  --text           the text alone, as phuyurik assemble reads it. Bits that are
                   no instruction have none, and are refused. Of all halfwords
                   with the same meaning the text gives the smallest: if that
                   is not the one that is there, a note says so.
  --until ADDRESS  only what lies before ADDRESS (112 or 0x70), where the data
                   begins; no instruction may go on beyond it

Example:
  phuyurik list trim.bin
  phuyurik list --text --until 0x70 voltage_trim.bin > night.s
",
    does: Does::Looks,
    lends: &[Memory, Bits],
};

const ASSEMBLE: Help = Help {
    command: "assemble",
    about: "\
Usage: phuyurik assemble TEXT -o IMAGE [--onto OLD --until ADDRESS]

Writes the instructions of TEXT, a file or - for standard input, to IMAGE, one
after another. TEXT has one instruction in each line, exactly as phuyurik list
--text writes it, and a newline at the end of each; comments, directives and
labels are not read. Numbers are decimal. A line with `c:` gives 2 bytes, any
other 4. Offsets of branches and jumps are numbers of bytes: a line that gets
another length moves what follows it.

The first line at fault is told with its place, line and column from 1, and
nothing is written. IMAGE may be neither TEXT, nor an ELF file, nor a row, nor a
file of a run, nor the image of a run that is paused in its folder. An empty
TEXT is taken only from a file, without --onto, where nothing is replaced.

  -o IMAGE         the file to write. One that is there with other bytes is kept
                   as IMAGE.old, or IMAGE.old2 and so on where that is there.
  --onto OLD       the instructions replace those of the image OLD before
                   ADDRESS, and what follows there stays: data, for example.
                   IMAGE may be OLD itself.
  --until ADDRESS  as phuyurik list --text had it for OLD. TEXT has to give as
                   many bytes: a line that has become shorter is made up for by
                   c:addi x0,x0,0 after it, which does nothing and has 2.

Example:
  phuyurik list --text trim.bin > night.s
  phuyurik assemble night.s -o night.bin
  phuyurik list --text --until 0x70 voltage_trim.bin > night.s
  phuyurik assemble night.s --onto voltage_trim.bin --until 0x70 -o night.bin
",
    does: Does::Writes,
    lends: &[Memory, Bits, Text],
};

const ROW: Help = Help {
    command: "row",
    about: "\
Usage: phuyurik row FILE [--own WORDS [--other WORDS]]

Shows the burnt words of a row: index, address, value in decimal and in
hexadecimal; then how many words are burnt and how many blank. A save that was
cut short is shown as the next run will carry it out.

  --own WORDS    also shows whose each word is, where WORDS are a recipe's own:
                 a list such as 0-31,40, or a mask such as 0x00ff
  --other WORDS  the other recipe's words, of which none may be an own one; the
                 rest are then no one's

Example:
  phuyurik row part.row
  phuyurik row part.row --own 0-31 --other 32-63
",
    does: Does::Looks,
    lends: &[Row, Masks],
};

const SLOT: Help = Help {
    command: "slot",
    about: "\
Usage: phuyurik slot FILE K

Shows the state in slot K: pc, the registers that are not 0, the count of
retired steps, and the stop. A save that was cut short is shown as the next run
will carry it out.

Example:
  phuyurik slot line.slots 0
",
    does: Does::Looks,
    lends: &[Slots, State],
};

const STATUS: Help = Help {
    command: "status",
    about: "\
Usage: phuyurik status [FOLDER]

Shows the runs, with their masks, and the rows of a folder (this one, if none is
given), saves that were cut short, whatever is damaged or missing, and what to
do next.

Example:
  phuyurik status
",
    does: Does::Looks,
    lends: &[],
};

const FORGET: Help = Help {
    command: "forget",
    about: "\
Usage: phuyurik forget SLOTS K --yes

Gives the run in slot K up, where its row is gone or its memory file damaged:
its record becomes zeros, and its memory file is set aside as
SLOTS.K.memory.old. The words that it knew to be burnt go into ROW.seen.
Without --yes it only says what it would do.

Example:
  phuyurik forget line.slots 0 --yes
",
    does: Does::Mends,
    lends: &[Slots, State],
};

const ADOPT: Help = Help {
    command: "adopt",
    about: "\
Usage: phuyurik adopt SLOTS K --row FILE --yes

Tells the run in slot K, and a save of it that was cut short, that its row is
FILE and its slots are SLOTS: the folder was moved. The row must have the words
that the run knows to be burnt. Without --yes it only says what it would do.

Example:
  phuyurik adopt line.slots 0 --row part.row --yes
",
    does: Does::Mends,
    lends: &[Row, Slots, State],
};

const SETTLE: Help = Help {
    command: "settle",
    about: "\
Usage: phuyurik settle ROW [--discard] --yes

Carries out a save of ROW that was cut short; a slots file that is missing is
made again. With --discard the save is set aside as ROW.journal.old, and the
words that it knows to be burnt go into ROW.seen. Without --yes it only says
what it would do.

Example:
  phuyurik settle part.row --yes
",
    does: Does::Mends,
    lends: &[Row, Slots, State],
};

const MEND: Help = Help {
    command: "mend",
    about: "\
Usage: phuyurik mend SLOTS --yes

Writes the record of each memory file SLOTS.K.memory into its slot, after the
slots file was lost or an old copy was brought back; makes it if it is missing.
Without --yes it only says what it would do.

Example:
  phuyurik mend line.slots --yes
",
    does: Does::Mends,
    lends: &[Slots, State],
};

const DEMO: Help = Help {
    command: "demo",
    about: "\
Usage: phuyurik demo

Lists the paper's recipe, runs it on a blank row, shows the row, and starts it
anew on that row: it stops, for its word is burnt already, and no word is burnt
twice. Works in a new folder under the system's temporary folder, and removes
it.

Example:
  phuyurik demo
",
    does: Does::Compares,
    // what it lends is its own, and is accepted
    lends: &[],
};

pub const COMMANDS: &[Help] = &[
    RUN, LIST, ASSEMBLE, ROW, SLOT, STATUS, FORGET, ADOPT, SETTLE, MEND, DEMO,
];
