//! Ways out of dead ends. Each says what it will do, and does it only with the flag that says yes.
mod adopt;
mod forget;
mod mend;
mod plan;
pub mod record;
mod settle;
pub mod typed;
mod words;

use super::error::Error;
use super::files;
use super::Answer;
use plan::told_or_done;
use std::path::Path;

pub fn forget(slots: &Path, k: usize, yes: bool) -> Result<Answer, Error> {
    let slots = files::canonical(slots)?;
    told_or_done(&typed::forget(&slots, k), yes, |held| {
        forget::plan(&slots, k, held)
    })
}

pub fn adopt(slots: &Path, k: usize, row: &Path, yes: bool) -> Result<Answer, Error> {
    let (slots, row) = (files::canonical(slots)?, files::canonical(row)?);
    told_or_done(&typed::adopt(&slots, k, &row), yes, |held| {
        adopt::plan(&slots, k, &row, held)
    })
}

pub fn settle(row: &Path, discard: bool, yes: bool) -> Result<Answer, Error> {
    let row = files::canonical(row)?;
    match discard {
        true => told_or_done(&typed::discard(&row), yes, |held| {
            settle::discarding(&row, held)
        }),
        false => told_or_done(&typed::settle(&row), yes, |held| settle::plan(&row, held)),
    }
}

pub fn mend(slots: &Path, yes: bool) -> Result<Answer, Error> {
    let slots = files::canonical(slots)?;
    told_or_done(&typed::mend(&slots), yes, |held| mend::plan(&slots, held))
}
