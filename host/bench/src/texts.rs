//! The texts to assemble: lines of the outside vectors, over and over, ours and as GNU as takes them.

/// In each text.
const LINES: usize = 280_000;

pub struct Text {
    pub name: &'static str,
    pub lines: u64,
    pub ours: String,
    pub gnu: String,
    /// What the vectors say that ours is assembled to.
    pub bytes: Vec<u8>,
}

pub fn texts() -> [Text; 2] {
    [
        text("words", "norvc", &words()),
        text("halfwords, `c:`", "rvc", &halfwords()),
    ]
}

/// The legal words, each with its own bits. A fence's `rd,rs1,field` is nothing that GNU as takes.
fn words() -> Vec<(String, Vec<u8>)> {
    let mut all = testing::vectors();
    all.retain(|v| v.half.is_none() && v.meant.is_some() && !v.text.starts_with("fence"));
    all.into_iter()
        .map(|v| (v.text + "\n", v.word.to_le_bytes().to_vec()))
        .collect()
}

fn halfwords() -> Vec<(String, Vec<u8>)> {
    let mut all = testing::lines();
    all.retain(|(line, _)| line.starts_with("c:"));
    all
}

fn text(name: &'static str, option: &str, list: &[(String, Vec<u8>)]) -> Text {
    let (mut ours, mut gnu, mut bytes) = (String::new(), format!(".option {option}\n"), vec![]);
    for (line, bits) in list.iter().cycle().take(LINES) {
        ours.push_str(line);
        gnu.push_str(&spelled_for_gnu(line));
        bytes.extend(bits);
    }
    Text {
        name,
        lines: LINES as u64,
        ours,
        gnu,
        bytes,
    }
}

/// GNU as has no `c:`, and takes a target where we have the offset of a branch or `jal`.
fn spelled_for_gnu(line: &str) -> String {
    const WITH_TARGETS: [&str; 7] = ["jal", "beq", "bne", "blt", "bge", "bltu", "bgeu"];
    let line = line.strip_prefix("c:").unwrap_or(line);
    let name = line.split(' ').next().unwrap_or(line);
    match line.rsplit_once(',') {
        Some((front, offset)) if WITH_TARGETS.contains(&name) => {
            let sign = if offset.starts_with('-') { "" } else { "+" };
            format!("{front},.{sign}{offset}")
        }
        _ => line.to_string(),
    }
}

#[cfg(test)]
mod tests {
    use super::*;

    #[test]
    fn gnu_spelling() {
        let pairs = [
            ("beq x1,x2,-4\n", "beq x1,x2,.-4\n"),
            ("c:jal x0,2046\n", "jal x0,.+2046\n"),
            ("jalr x1,-4(x5)\n", "jalr x1,-4(x5)\n"),
            ("c:addi x5,x0,7\n", "addi x5,x0,7\n"),
            ("ecall\n", "ecall\n"),
        ];
        for (ours, gnu) in pairs {
            assert_eq!(spelled_for_gnu(ours), gnu);
        }
    }

    #[test]
    fn as_many_lines_and_instructions_as_said() {
        for (text, size) in texts().iter().zip([4, 2]) {
            let lines = text.lines as usize;
            assert_eq!(text.ours.lines().count(), lines);
            assert_eq!(text.gnu.lines().count(), 1 + lines);
            assert_eq!(text.bytes.len(), size * lines);
        }
    }
}
