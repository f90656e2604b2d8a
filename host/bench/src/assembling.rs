//! Assembles a text with the proved assembler and with GNU as, in turn, and keeps each one's best time.
use crate::stopwatch::{of_ended_children, of_this_program, timed};
use crate::texts::Text;
use std::io::ErrorKind;
use std::path::Path;
use std::process::Command;
use std::time::Duration;
use testing::Folder;

const GNU_AS: &str = "riscv64-unknown-elf-as";

pub struct Assembled {
    pub name: &'static str,
    pub lines: u64,
    pub phuyurik: Duration,
    /// None if there is no GNU as.
    pub gnu: Option<Duration>,
}

/// The error says that ours gave other bytes than the vectors', or that a line was not taken.
pub fn measure(text: &Text, repeats: u32) -> Result<Assembled, String> {
    let folder = Folder::new();
    let source = folder.write("lines.s", text.gnu.as_bytes());
    let (mut phuyurik, mut gnu) = (Vec::new(), Vec::new());
    for _ in 0..repeats {
        phuyurik.push(with_phuyurik(text)?);
        gnu.extend(with_gnu(GNU_AS, &source)?);
    }
    Ok(Assembled {
        name: text.name,
        lines: text.lines,
        phuyurik: phuyurik.into_iter().min().ok_or("nothing was run")?,
        gnu: gnu.into_iter().min(),
    })
}

/// The time of the call alone: the room is filled before, so that its pages are there.
fn with_phuyurik(text: &Text) -> Result<Duration, String> {
    let mut room = vec![0xEE; text.bytes.len()];
    let assemble = || phuyurik::assemble_into(text.ours.as_bytes(), &mut room);
    let (answer, time) = timed(of_this_program, assemble);
    match answer {
        Ok(length) if room[..length] == text.bytes => Ok(time),
        Ok(_) => Err(format!("{}: other bytes than the vectors'", text.name)),
        Err(error) => Err(format!("{}: {error}", text.name)),
    }
}

/// The time of the whole process, as nothing of it can be measured apart; none if it is not there.
fn with_gnu(program: &str, source: &Path) -> Result<Option<Duration>, String> {
    let mut command = Command::new(program);
    command.args(["-march=rv32imc", "-mabi=ilp32", "-o", "/dev/null"]);
    command.arg(source);
    let (status, time) = timed(of_ended_children, || command.status());
    match status {
        Ok(status) if status.success() => Ok(Some(time)),
        Ok(status) => Err(format!("{program}: {status}")),
        Err(error) if error.kind() == ErrorKind::NotFound => Ok(None),
        Err(error) => Err(format!("{program}: {error}")),
    }
}

#[cfg(test)]
mod tests {
    use super::*;

    fn text(line: &str, bytes: &[u8]) -> Text {
        Text {
            name: "a line",
            lines: 1,
            ours: line.to_string(),
            gnu: String::new(),
            bytes: bytes.to_vec(),
        }
    }

    #[test]
    fn only_the_right_bytes_count() {
        let ecall = [0x73, 0, 0, 0];
        assert!(with_phuyurik(&text("ecall\n", &ecall)).is_ok());
        let others = [
            ("ebreak\n", "a line: other bytes than the vectors'"),
            ("c:ebreak\n", "a line: other bytes than the vectors'"),
            ("ecal\n", "a line: line 0, byte 4: refusal 10: unreadable"),
        ];
        for (line, error) in others {
            assert_eq!(with_phuyurik(&text(line, &ecall)), Err(error.to_string()));
        }
    }

    #[test]
    fn no_gnu_as_is_no_fault_but_a_failing_one_is() {
        let folder = Folder::new();
        let source = folder.write("lines.s", b"");
        assert_eq!(with_gnu("no-such-assembler", &source), Ok(None));
        assert!(with_gnu("true", &source).is_ok_and(|time| time.is_some()));
        let failed = Err("false: exit status: 1".to_string());
        assert_eq!(with_gnu("false", &source), failed);
    }
}
