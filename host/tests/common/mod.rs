//! The tool at work in a folder.
use std::process::Command;
use testing::Folder;

/// The tool, with the folder as its current one.
pub fn tool(folder: &Folder, line: &str) -> Command {
    let mut command = Command::new(env!("CARGO_BIN_EXE_phuyurik"));
    command
        .current_dir(folder.path())
        .args(line.split_whitespace());
    command
}
