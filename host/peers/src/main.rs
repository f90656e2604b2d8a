//! Compares the proved library with tools that others wrote: texts, encodings and results.
//! `peers [--seed N]`; exits with 1 on a difference, with 2 if there is nothing to compare with.
mod assemblers;
mod disassemblers;
mod results;
mod scope;
mod sequences;
mod spelling;
mod tally;
mod tools;
mod words;

use assemblers::Maker;
use disassemblers::Reader;
use std::process::ExitCode;
use tally::Tally;
use testing::{Folder, Random};
use tools::{version, AS, GCC, LLVM_MC, OBJCOPY, OBJDUMP, QEMU};
use words::Bits;

fn seed() -> Option<u64> {
    let arguments: Vec<String> = std::env::args().skip(1).collect();
    match arguments.as_slice() {
        [] => Some(1),
        [flag, number] if flag == "--seed" => number.parse().ok(),
        _ => None,
    }
}

/// Whether all these programs are there; says so if not.
fn are_there(comparison: &str, programs: &[&str]) -> bool {
    let missing: Vec<&str> = programs
        .iter()
        .copied()
        .filter(|p| version(p).is_none())
        .collect();
    if !missing.is_empty() {
        println!("{comparison}: not compared, missing {}", missing.join(", "));
    }
    missing.is_empty()
}

fn texts(seed: u64, folder: &Folder) -> Vec<Tally> {
    let mut random = Random::new(seed);
    let samples = [
        ("halfwords", words::all_halves()),
        ("words", words::of_each_operation(&mut random, 4400)),
        ("plain fences", words::plain_fences()),
        ("near words", words::near_each_operation(&mut random, 2000)),
        ("any words", words::of_any_kind(&mut random, 100_000)),
    ];
    let readers: [(&str, &str, Reader); 2] = [
        ("texts, objdump", OBJDUMP, disassemblers::with_objdump),
        ("texts, llvm", LLVM_MC, disassemblers::with_llvm),
    ];
    let mut tallies = Vec::new();
    for (peer, tool, reader) in readers {
        if are_there(peer, &[tool]) {
            for (sample, all) in &samples {
                let name = format!("{peer}, {sample}");
                tallies.push(disassemblers::compare(&name, reader, folder, all));
            }
        }
    }
    tallies
}

fn encodings(seed: u64, folder: &Folder) -> Vec<Tally> {
    let mut words = words::of_each_operation(&mut Random::new(!seed), 1000);
    words.extend(words::plain_fences());
    let is_legal =
        |bits: &Bits| matches!(bits, Bits::Half(half) if phuyurik::expand(*half).is_ok());
    let halves: Vec<Bits> = words::all_halves().into_iter().filter(is_legal).collect();
    let makers: [(&str, &[&str], Maker); 2] = [
        ("encodings, as", &[AS, OBJCOPY], assemblers::with_gnu),
        ("encodings, llvm", &[LLVM_MC], assemblers::with_llvm),
    ];
    let mut tallies = Vec::new();
    let samples = [
        ("words", &words, false),
        ("expanded halfwords", &halves, false),
        ("words shortened", &words, true),
        ("expanded halfwords shortened", &halves, true),
    ];
    for (peer, tools, maker) in makers {
        if are_there(peer, tools) {
            for (sample, all, short) in samples {
                let name = format!("{peer}, {sample}");
                tallies.push(assemblers::compare(&name, maker, folder, all, short));
            }
        }
    }
    tallies
}

fn results(seed: u64, folder: &Folder) -> Vec<Tally> {
    if !are_there("results", &[GCC, OBJCOPY, QEMU]) {
        return Vec::new();
    }
    let programs = results::compare_programs(folder);
    vec![programs, results::compare_sequences(seed, folder)]
}

fn print_sum(tallies: &[Tally]) -> usize {
    let compared: usize = tallies.iter().map(Tally::compared).sum();
    let differences = tallies.iter().map(Tally::differences).sum();
    let tools = [OBJDUMP, GCC, LLVM_MC, QEMU];
    let versions: Vec<String> = tools.into_iter().filter_map(version).collect();
    let versions = versions.join("; ");
    println!("peers: {compared} comparisons, {differences} differences with {versions}");
    differences
}

fn main() -> ExitCode {
    let Some(seed) = seed() else {
        eprintln!("use: peers [--seed N]");
        return ExitCode::from(2);
    };
    let folder = Folder::new();
    let mut tallies = texts(seed, &folder);
    tallies.extend(encodings(seed, &folder));
    tallies.extend(results(seed, &folder));
    if tallies.is_empty() {
        println!("peers: nothing to compare with");
        return ExitCode::from(2);
    }
    tallies.iter().for_each(Tally::print);
    match print_sum(&tallies) {
        0 => ExitCode::SUCCESS,
        _ => ExitCode::from(1),
    }
}
