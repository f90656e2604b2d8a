//! Measures the proved emulator beside the second emulator and a plain C interpreter, on the recipes
//! of examples/, and checks that all three end alike. Then it measures the proved assembler beside
//! GNU as, on lines of the outside vectors, and checks that ours gives their bytes.
#[cfg(test)]
mod agreement;
mod assembling;
mod engines;
mod measure;
mod plain;
#[cfg(test)]
mod results;
mod stopwatch;
mod table;
mod texts;
mod workloads;

use std::process::ExitCode;

const HELP: &str = "\
usage: bench [--repeats N] [--help]

Runs each workload N times (5 if not said) on each of three engines, in turn, and
prints million steps a second from each engine's best processor time:
  phuyurik   the proved emulator
  second     the second emulator, in Rust
  plain C    a plain C interpreter
Then assembles each text N times and prints million lines a second likewise:
  phuyurik   the proved assembler
  GNU as     riscv64-unknown-elf-as, if there is one: user time of its whole process
Ends with 1 if two engines do not leave the same state, memory and row, or if the
proved assembler does not give the bytes of the outside vectors.";

/// The number of repeats; none if help is asked for.
fn repeats(arguments: &[String]) -> Result<Option<u32>, String> {
    let words: Vec<&str> = arguments.iter().map(String::as_str).collect();
    match words[..] {
        [] => Ok(Some(5)),
        ["--help"] => Ok(None),
        ["--repeats", number] => match number.parse() {
            Ok(repeats) if repeats > 0 => Ok(Some(repeats)),
            _ => Err(format!("--repeats needs a number from 1, not {number}")),
        },
        _ => Err(format!("unknown arguments: {}", words.join(" "))),
    }
}

fn measure_all(repeats: u32) -> Result<(), String> {
    println!("{}", table::head(&table::RUNNING));
    for workload in &workloads::WORKLOADS {
        println!("{}", table::run(&measure::measure(workload, repeats)?));
    }
    println!("\n{}", table::head(&table::ASSEMBLING));
    for text in &texts::texts() {
        println!("{}", table::assembled(&assembling::measure(text, repeats)?));
    }
    Ok(())
}

fn main() -> ExitCode {
    let arguments: Vec<String> = std::env::args().skip(1).collect();
    let repeats = match repeats(&arguments) {
        Ok(Some(repeats)) => repeats,
        Ok(None) => {
            println!("{HELP}");
            return ExitCode::SUCCESS;
        }
        Err(what) => {
            eprintln!("{what}\n{HELP}");
            return ExitCode::from(2);
        }
    };
    match measure_all(repeats) {
        Ok(()) => ExitCode::SUCCESS,
        Err(what) => {
            eprintln!("{what}");
            ExitCode::FAILURE
        }
    }
}
