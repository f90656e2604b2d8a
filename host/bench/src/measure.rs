//! Runs a workload on every engine, in turn, and keeps each engine's best time.
use crate::engines::{self, End, ENGINES};
use crate::workloads::Workload;
use std::time::Duration;

pub struct Measured {
    pub name: &'static str,
    pub steps: u64,
    /// One for each of `ENGINES`.
    pub best: [Duration; 3],
}

/// The error says which engine ended differently, or that the recipe did not stop with ecall.
pub fn measure(workload: &Workload, repeats: u32) -> Result<Measured, String> {
    let mut best = [Duration::MAX; 3];
    let mut agreed: Option<End> = None;
    for _ in 0..repeats {
        for (engine, best) in ENGINES.into_iter().zip(&mut best) {
            let (end, time) = engines::run(engine, workload.image);
            let first = agreed.get_or_insert_with(|| end.clone());
            if let Some(what) = difference(first, &end) {
                return Err(format!(
                    "{}: {} ends with another {what} than {}",
                    workload.name,
                    engine.name(),
                    ENGINES[0].name()
                ));
            }
            *best = time.min(*best);
        }
    }
    let end = agreed.ok_or("nothing was run")?;
    if end.state.stop() != Ok(phuyurik::Stop::Ecall) {
        let stop = end.state.stop_number();
        return Err(format!("{}: stop {stop}, not ecall", workload.name));
    }
    Ok(Measured {
        name: workload.name,
        steps: end.state.count,
        best,
    })
}

fn difference(a: &End, b: &End) -> Option<&'static str> {
    [
        (a.state.pc != b.state.pc, "pc"),
        (a.state.registers() != b.state.registers(), "register"),
        (a.state.count != b.state.count, "count"),
        (a.state.stop_number() != b.state.stop_number(), "stop"),
        (a.retired != b.retired, "answer"),
        (a.memory != b.memory, "memory"),
        (a.row != b.row, "row"),
    ]
    .into_iter()
    .find_map(|(differs, what)| differs.then_some(what))
}

#[cfg(test)]
mod tests {
    use super::*;
    use crate::engines::Engine;

    type Change = fn(&mut End);

    #[test]
    fn every_part_of_an_end_counts() {
        let (end, _) = engines::run(Engine::PlainC, &[0x73, 0, 0, 0]);
        assert_eq!(difference(&end, &end), None);
        let changes: [(Change, &str); 7] = [
            (|e| e.state.pc += 2, "pc"),
            (|e| e.state.set_reg(31, 1), "register"),
            (|e| e.state.count += 1, "count"),
            (
                |e| e.state.set_stop_number(e.state.stop_number() + 1),
                "stop",
            ),
            (|e| e.retired += 1, "answer"),
            (|e| e.memory[3] += 1, "memory"),
            (|e| e.row[511] += 1, "row"),
        ];
        for (change, what) in changes {
            let mut other = end.clone();
            change(&mut other);
            assert_eq!(difference(&end, &other), Some(what));
        }
    }
}
