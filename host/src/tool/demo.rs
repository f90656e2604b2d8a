//! `phuyurik demo`: the paper's recipe, run twice on one row, each fact compared with the paper.
use super::args::{Mode, Order, PIECE};
use super::error::Error;
use super::going::Burnt;
use super::run::{self, Outcome};
use super::watch::Watch;
use super::{files, listing, show};
use phuyurik::Stop;
use std::path::{Path, PathBuf};

const RECIPE: [u8; 14] = [
    0x9D, 0x42, 0x37, 0x03, 0x00, 0x80, 0x23, 0x20, 0x53, 0x00, 0x73, 0x00, 0x00, 0x00,
];

const LISTING: &str = "\
00000000 429d c:addi x5,x0,7
00000002 80000337 lui x6,524288
00000006 00532023 sw x5,0(x6)
0000000a 00000073 ecall
";

/// The demo says all of it at its end.
struct Silent;

impl Watch for Silent {
    fn note(&mut self, _: &str) {}
    fn progress(&mut self, _: u64, _: u64, _: usize) {}
    fn end(&mut self) {}
}

/// A new folder under the system's temporary folder, removed at the end.
struct Folder(PathBuf);

impl Folder {
    fn new() -> Result<Folder, Error> {
        let path = std::env::temp_dir().join(format!("phuyurik-demo-{}", std::process::id()));
        std::fs::create_dir(&path).map_err(|why| Error::file(&path, why))?;
        Ok(Folder(path))
    }

    fn remove(self) -> Result<(), Error> {
        std::fs::remove_dir_all(&self.0).map_err(|why| Error::file(&self.0, why))
    }
}

pub fn demo() -> Result<String, Error> {
    let folder = Folder::new()?;
    let text = shown_in(&folder.0);
    folder.remove()?;
    text
}

fn shown_in(folder: &Path) -> Result<String, Error> {
    let order = Order {
        image: folder.join("recipe.bin"),
        row: folder.join("part.row"),
        slots: folder.join("line.slots"),
        slot: 0,
        budget: 100,
        piece: PIECE,
        memory: None,
        mode: Mode::Either,
        new: true,
        accept_row: false,
        dry_run: false,
        masks: None,
    };
    std::fs::write(&order.image, RECIPE).map_err(|why| Error::file(&order.image, why))?;
    let listing = listing::list(&order.image, None)?;
    fact(listing == LISTING, "the listing is not the paper's")?;
    let mut text = format!("The recipe:\n{listing}");
    let first = run::run(&order, &mut Silent)?;
    is_as_on_card(&first, 3, Stop::Ecall, 10, &[(0, 7)])?;
    text += &format!("\nIts run on a blank row:\n{}", show::facts(&first));
    let row = files::read(&order.row, usize::MAX)?;
    text += &format!("\nThe row:\n{}", show::row(&order.row, None)?);
    let again = Order {
        new: false,
        mode: Mode::Restart,
        ..order.clone()
    };
    let second = run::run(&again, &mut Silent)?;
    is_as_on_card(&second, 2, Stop::AlreadyBurnt, 6, &[])?;
    text += &format!("\nA new start on that row:\n{}", show::facts(&second));
    let same = files::read(&order.row, usize::MAX)? == row;
    fact(same, "the new start changed the row")?;
    Ok(text + "\nThe row is unchanged: no word is burnt twice.\n")
}

fn fact(holds: bool, otherwise: &str) -> Result<(), Error> {
    match holds {
        true => Ok(()),
        false => Err(Error::Fact(otherwise.to_string())),
    }
}

/// Cards 11 and 12 of the paper.
fn is_as_on_card(
    done: &Outcome,
    retired: u64,
    stop: Stop,
    pc: u32,
    burnt: &[(usize, u32)],
) -> Result<(), Error> {
    let state = &done.state;
    fact(done.retired == retired, "the retired count is wrong")?;
    fact(state.stop() == Ok(stop), "the stop is wrong")?;
    fact(state.pc == pc, "the pc is wrong")?;
    let in_this_run = |(index, value): &(usize, u32)| Burnt {
        index: *index,
        value: *value,
        in_this_run: true,
    };
    let is_burnt = burnt.iter().map(in_this_run).eq(done.burnt.iter().copied());
    fact(is_burnt, "the burnt words are wrong")
}
