//! Commands and names as a person types them at a shell.
use std::os::unix::ffi::OsStrExt;
use std::path::Path;

/// A file's name, from the current folder where it is below it, in quotes where a shell needs them.
pub fn name(path: &Path) -> String {
    let here = std::env::current_dir().and_then(|here| here.canonicalize());
    let below = here
        .as_ref()
        .ok()
        .and_then(|here| path.strip_prefix(here).ok())
        .filter(|rest| !rest.as_os_str().is_empty());
    let bytes = below.unwrap_or(path).as_os_str().as_bytes();
    match bytes.starts_with(b"-") {
        true => format!("./{}", quoted(bytes)),
        false => quoted(bytes),
    }
}

fn quoted(bytes: &[u8]) -> String {
    let is_plain = |byte: &u8| byte.is_ascii_alphanumeric() || b"_./,+:@%=-".contains(byte);
    if !bytes.is_empty() && bytes.iter().all(is_plain) {
        return String::from_utf8_lossy(bytes).into_owned();
    }
    match std::str::from_utf8(bytes) {
        Ok(text) if !text.contains(char::is_control) => {
            format!("'{}'", text.replace('\'', "'\\''"))
        }
        _ => escaped(bytes),
    }
}

/// For bytes that cannot be shown as they are.
fn escaped(bytes: &[u8]) -> String {
    let one = |byte: &u8| match byte {
        b'\'' | b'\\' => format!("\\{}", char::from(*byte)),
        b' '..=b'~' => char::from(*byte).to_string(),
        _ => format!("\\{byte:03o}"),
    };
    format!("$'{}'", bytes.iter().map(one).collect::<String>())
}

pub fn forget(slots_path: &Path, k: usize) -> String {
    format!("phuyurik forget {} {k}", name(slots_path))
}

pub fn adopt(slots_path: &Path, k: usize, row_path: &Path) -> String {
    let (slots, row) = (name(slots_path), name(row_path));
    format!("phuyurik adopt {slots} {k} --row {row}")
}

pub fn settle(row_path: &Path) -> String {
    format!("phuyurik settle {}", name(row_path))
}

pub fn discard(row_path: &Path) -> String {
    format!("{} --discard", settle(row_path))
}

pub fn mend(slots_path: &Path) -> String {
    format!("phuyurik mend {}", name(slots_path))
}

/// The files do not tell where the image is, nor how many steps someone wants.
pub fn run(row_path: &Path, slots_path: &Path, k: usize) -> String {
    let (row, slots) = (name(row_path), name(slots_path));
    format!("phuyurik run IMAGE --row {row} --slots {slots} --slot {k} --budget N")
}

#[cfg(test)]
mod tests {
    use super::*;

    #[test]
    fn a_shell_takes_every_name_as_it_is() {
        assert_eq!(quoted(b"a/b-c_1.row"), "a/b-c_1.row");
        assert_eq!(quoted(b"two words"), "'two words'");
        assert_eq!(quoted(b"it's"), "'it'\\''s'");
        assert_eq!(quoted("Stück".as_bytes()), "'Stück'");
        assert_eq!(quoted(b"a\nb\xff'"), "$'a\\012b\\377\\''");
        assert_eq!(name("/no/such/$x".as_ref()), "'/no/such/$x'");
    }

    #[test]
    fn a_name_below_the_current_folder_is_short() {
        let here = std::env::current_dir().and_then(|here| here.canonicalize());
        let here = here.expect("there");
        assert_eq!(name(&here.join("part.row")), "part.row");
        assert_eq!(name(&here.join("-part")), "./-part");
        assert_eq!(name(&here), quoted(here.as_os_str().as_bytes()));
    }
}
