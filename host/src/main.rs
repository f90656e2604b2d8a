//! The command-line tool: runs trim recipes on parts that stand as files.
mod tool;

fn main() -> std::process::ExitCode {
    tool::main(std::env::args_os().skip(1).collect())
}
