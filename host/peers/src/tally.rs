//! What a comparison found.
use std::collections::BTreeMap;

/// Only so many differences are written out.
const SHOWN: usize = 10;

pub struct Tally {
    name: String,
    same: BTreeMap<&'static str, usize>,
    settled: BTreeMap<&'static str, usize>,
    bytes: usize,
    differences: Vec<String>,
}

impl Tally {
    pub fn new(name: impl Into<String>) -> Tally {
        Tally {
            name: name.into(),
            same: BTreeMap::new(),
            settled: BTreeMap::new(),
            bytes: 0,
            differences: Vec::new(),
        }
    }

    /// Both say the same; `kind` says what about.
    pub fn same(&mut self, kind: &'static str) {
        *self.same.entry(kind).or_default() += 1;
    }

    /// They differ on a documented ground.
    pub fn settled(&mut self, ground: &'static str) {
        *self.settled.entry(ground).or_default() += 1;
    }

    /// So many bytes were equal.
    pub fn bytes(&mut self, count: usize) {
        self.bytes += count;
    }

    pub fn differs(&mut self, what: String) {
        self.differences.push(what);
    }

    pub fn compared(&self) -> usize {
        let counts = self.same.values().chain(self.settled.values());
        counts.sum::<usize>() + self.differences.len()
    }

    pub fn differences(&self) -> usize {
        self.differences.len()
    }

    pub fn print(&self) {
        for difference in self.differences.iter().take(SHOWN) {
            println!("  {}: {difference}", self.name);
        }
        let mut line = format!("{}: {} compared", self.name, self.compared());
        for (kind, count) in &self.same {
            line += &format!(", {count} {kind}");
        }
        if self.bytes > 0 {
            line += &format!(" ({} bytes)", self.bytes);
        }
        for (ground, count) in &self.settled {
            line += &format!(", {count} settled ({ground})");
        }
        println!("{line}, {} differences", self.differences.len());
    }
}
