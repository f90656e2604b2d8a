//! What a command will do: told first, and done only with the flag that says yes.
use super::super::error::Error;
use super::super::files::{self, Action, Lock};
use super::super::journal::{self, Moment};
use super::super::Answer;
use super::typed;
use std::collections::BTreeSet;
use std::path::{Path, PathBuf};

/// A step of a plan. A kill leaves a front part of the steps done; the same command does the rest.
pub enum Step {
    Act(Action),
    Grow(PathBuf, u64),
    Settle(Box<Moment>),
    /// The slot's lock file remembers this row.
    Remember(PathBuf),
}

#[derive(Default)]
pub struct Plan {
    says: Vec<String>,
    steps: Vec<Step>,
}

/// The locks that a plan needs. One who only looks takes none: he sees whether they are held.
#[derive(Default)]
pub struct Held {
    takes: bool,
    slot: Option<Lock>,
    others: Vec<Lock>,
    /// What is held, by name: no lock can be taken twice.
    names: BTreeSet<PathBuf>,
}

impl Held {
    fn lock(&mut self, of: &Path) -> Result<Option<Lock>, Error> {
        if !self.names.insert(of.to_path_buf()) {
            return Ok(None);
        }
        match self.takes {
            true => Lock::take(of).map(Some),
            false => Lock::look(of),
        }
    }

    /// The lock beside a file. Where its folder is gone there is nothing to hold.
    pub fn hold(&mut self, of: &Path) -> Result<(), Error> {
        if has_folder(of) {
            let lock = self.lock(of)?;
            self.others.extend(lock);
        }
        Ok(())
    }

    /// The lock of the slot that the command was given.
    pub fn hold_slot(&mut self, slots_path: &Path, k: usize) -> Result<(), Error> {
        self.slot = self.lock(&journal::slot_name(slots_path, k))?;
        Ok(())
    }

    /// The row that last used the slot, as its lock file has it.
    pub fn remembered(&mut self) -> Result<Vec<u8>, Error> {
        self.slot.as_mut().map_or(Ok(Vec::new()), Lock::remark)
    }
}

pub fn has_folder(path: &Path) -> bool {
    path.parent().is_some_and(Path::is_dir)
}

impl Plan {
    pub fn say(&mut self, text: impl ToString) {
        self.says.push(text.to_string());
    }

    pub fn step(&mut self, step: Step) {
        self.steps.push(step);
    }

    /// A step before all others.
    pub fn first(&mut self, step: Step) {
        self.steps.insert(0, step);
    }

    pub fn act(&mut self, actions: impl IntoIterator<Item = Action>) {
        self.steps.extend(actions.into_iter().map(Step::Act));
    }

    pub fn set_aside(&mut self, from: &Path) {
        let to = files::aside(from);
        self.say(format!(
            "{} is set aside as {}",
            typed::name(from),
            typed::name(&to)
        ));
        self.act([Action::SetAside(from.to_path_buf(), to)]);
    }

    /// Whether nothing is to be done.
    pub fn is_empty(&self) -> bool {
        self.steps.is_empty()
    }

    fn text(&self, first: &str, last: &str) -> String {
        let mut text = format!("{first}\n");
        for line in &self.says {
            text += &format!("  {line}\n");
        }
        text + last
    }

    fn carry_out(self, held: &mut Held) -> Result<(), Error> {
        for step in self.steps {
            match step {
                Step::Act(action) => files::carry_out(&[action])?,
                Step::Grow(path, length) => files::grow(&path, length)?,
                Step::Settle(save) => save.settle()?,
                Step::Remember(row) => {
                    if let Some(lock) = &mut held.slot {
                        lock.leave_remark(journal::path_bytes(&row))?;
                    }
                }
            }
        }
        Ok(())
    }
}

/// Tells what a plan will do, or does it. It is made again once the locks are held: what it was
/// made from may have changed. A mistyped name leaves no lock file behind.
pub fn told_or_done(
    command: &str,
    yes: bool,
    plan: impl Fn(&mut Held) -> Result<Plan, Error>,
) -> Result<Answer, Error> {
    let planned = |takes| {
        let mut held = Held {
            takes,
            ..Held::default()
        };
        plan(&mut held).map(|plan| (plan, held))
    };
    let (told, held) = planned(false)?;
    drop(held);
    if told.is_empty() {
        return Ok(Answer::good(told.text("nothing to do:", "")));
    }
    if !yes {
        let last = format!("nothing was changed; to do it: {command} --yes\n");
        let text = told.text("this would be done:", &last);
        return Ok(Answer::of(text, 2));
    }
    let (plan, mut held) = planned(true)?;
    let text = plan.text("this was done:", "");
    plan.carry_out(&mut held)?;
    Ok(Answer::good(text))
}
