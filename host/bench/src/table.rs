//! The tables that the benchmark prints.
use crate::assembling::Assembled;
use crate::measure::Measured;
use std::time::Duration;

pub const RUNNING: [&str; 7] = [
    "workload",
    "steps (M)",
    "phuyurik (M/s)",
    "second (M/s)",
    "plain C (M/s)",
    "phuyurik / plain C",
    "phuyurik / second",
];

pub const ASSEMBLING: [&str; 5] = [
    "text",
    "lines (M)",
    "phuyurik (M/s)",
    "GNU as (M/s)",
    "phuyurik / GNU as",
];

pub fn head(columns: &[&str]) -> String {
    let rule = "---:|".repeat(columns.len() - 1);
    format!("| {} |\n|---|{rule}", columns.join(" | "))
}

pub fn run(measured: &Measured) -> String {
    let [phuyurik, second, plain] = measured.best.map(|time| rate(measured.steps, time));
    format!(
        "| {} | {:.1} | {phuyurik:.1} | {second:.1} | {plain:.1} | {:.2} | {:.2} |",
        measured.name,
        measured.steps as f64 / 1e6,
        phuyurik / plain,
        phuyurik / second
    )
}

pub fn assembled(assembled: &Assembled) -> String {
    let phuyurik = rate(assembled.lines, assembled.phuyurik);
    let beside = match assembled.gnu.map(|time| rate(assembled.lines, time)) {
        Some(gnu) => format!("{gnu:.2} | {:.1}", phuyurik / gnu),
        None => "not in PATH | -".to_string(),
    };
    format!(
        "| {} | {:.2} | {phuyurik:.2} | {beside} |",
        assembled.name,
        assembled.lines as f64 / 1e6
    )
}

/// Million steps or lines a second.
fn rate(number: u64, time: Duration) -> f64 {
    number as f64 / time.as_secs_f64() / 1e6
}

#[cfg(test)]
mod tests {
    use super::*;

    #[test]
    fn rates_and_ratios() {
        let measured = Measured {
            name: "crc",
            steps: 30_000_000,
            best: [1000, 500, 250].map(Duration::from_millis),
        };
        let expected = "| crc | 30.0 | 30.0 | 60.0 | 120.0 | 0.25 | 0.50 |";
        assert_eq!(run(&measured), expected);
    }

    #[test]
    fn rates_with_gnu_as_and_without() {
        let mut measured = Assembled {
            name: "words",
            lines: 280_000,
            phuyurik: Duration::from_millis(70),
            gnu: Some(Duration::from_millis(280)),
        };
        let expected = "| words | 0.28 | 4.00 | 1.00 | 4.0 |";
        assert_eq!(assembled(&measured), expected);
        measured.gnu = None;
        let expected = "| words | 0.28 | 4.00 | not in PATH | - |";
        assert_eq!(assembled(&measured), expected);
    }
}
