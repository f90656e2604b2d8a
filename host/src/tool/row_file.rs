//! The row's file. It stands for the part, so what is burnt in it stays: whoever writes it.
use super::error::Error;
use super::files;
use super::known::{self, Known};
use phuyurik::{Board, Refusal, Row, State, ROW};
use std::path::Path;

/// What the file holds, one byte more than a row at most, or nothing if it is missing.
pub fn read(path: &Path) -> Result<Option<Vec<u8>>, Error> {
    files::read_if_there(path, ROW + 1)
}

/// The row in these bytes of a file. Whether they are one is the library's to say: a run of
/// budget 0.
pub fn row_in(path: &Path, bytes: &[u8]) -> Result<Row, Error> {
    let mut copy = bytes.to_vec();
    Board::new(&mut [], &mut copy)
        .run(&mut State::fresh(), 0)
        .and_then(|_| Ok(Row::try_from(bytes)?))
        .map_err(|error| refused(path, bytes, error))
}

/// Why the library refused these bytes of a row's file; of a record also what stands there.
pub fn refused(path: &Path, bytes: &[u8], error: phuyurik::Error) -> Error {
    match error {
        phuyurik::Error::RowRecord { word } => {
            let told = format!("{error}: {}", fault(&bytes[8 * word..][..8]));
            Error::Record(path.to_path_buf(), Refusal::RowRecord, told)
        }
        other => Error::of_library(path, other),
    }
}

/// What stands in a refused record that breaks its rules.
fn fault(record: &[u8]) -> String {
    let value = u32::from_le_bytes([record[0], record[1], record[2], record[3]]);
    match record[4] {
        _ if record[5..] != [0; 3] => "bytes 5 to 7 are not zero".to_string(),
        mark @ 0..=1 => format!("mark {mark} with value {value}"),
        mark => format!("mark {mark}"),
    }
}

/// The words burnt in these bytes of a file, as far as they are a row. A word of which only a part
/// was written, as a power cut leaves it, is not burnt yet: its mark is written after its value.
pub fn burnt_in(path: &Path, bytes: &[u8]) -> Result<Known, Error> {
    match Row::try_from(bytes) {
        Ok(row) => Ok(Known::of(&row)),
        Err(_) => Err(Error::Refused(path.to_path_buf(), Refusal::RowLength)),
    }
}

/// That this row, written over these bytes of its file, takes no burnt word back.
pub fn takes_nothing_back(path: &Path, bytes: &[u8], row: &Row) -> Result<(), Error> {
    let lost = burnt_in(path, bytes)?.lost_in(row);
    match lost.is_empty() {
        true => Ok(()),
        false => {
            let why = format!("burnt words would be taken back: {}", known::text(&lost));
            Err(Error::forgotten(path, why))
        }
    }
}

/// Writes the row into its file, in place so that the file stays the same one, or makes the file.
/// Here is the last place where a burnt word could be lost, so here it is looked at once more.
pub fn burn(path: &Path, row: &Row) -> Result<(), Error> {
    let Some(old) = read(path)? else {
        return files::replace(path, row.as_ref().to_vec());
    };
    takes_nothing_back(path, &old, row)?;
    let file = files::open_in_place(path)?;
    let done = match old == row.as_ref() {
        // Written by a run that was killed before it was on the disk, perhaps.
        true => file.sync_all(),
        false => files::write_at(&file, 0, row.as_ref()),
    };
    done.map_err(|why| files::failed(path, why))
}
