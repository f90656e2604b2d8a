//! The peers as programs.
use std::fs;
use std::path::Path;
use std::process::{Command, Output};

pub const GCC: &str = "riscv64-unknown-elf-gcc";
pub const OBJDUMP: &str = "riscv64-unknown-elf-objdump";
pub const OBJCOPY: &str = "riscv64-unknown-elf-objcopy";
pub const AS: &str = "riscv64-unknown-elf-as";
pub const LLVM_MC: &str = "llvm-mc";
pub const QEMU: &str = "qemu-riscv32";

/// The line of its version, if the program is there.
pub fn version(program: &str) -> Option<String> {
    let output = Command::new(program).arg("--version").output().ok()?;
    let text = String::from_utf8_lossy(&output.stdout).into_owned();
    let line = text.lines().find(|line| line.contains(char::is_numeric))?;
    Some(line.trim().to_string())
}

/// Runs a command that must start; its output.
pub fn run(command: &mut Command) -> Output {
    match command.output() {
        Ok(output) => output,
        Err(error) => panic!("{command:?} does not start: {error}"),
    }
}

/// Runs a command that must succeed; its standard output.
pub fn succeed(command: &mut Command) -> Vec<u8> {
    let output = run(command);
    let errors = String::from_utf8_lossy(&output.stderr);
    assert!(output.status.success(), "{command:?} fails: {errors}");
    output.stdout
}

pub fn read(path: &Path) -> Vec<u8> {
    match fs::read(path) {
        Ok(bytes) => bytes,
        Err(error) => panic!("{} cannot be read: {error}", path.display()),
    }
}
