use super::error::{Error, Kind};
use super::files::*;
use super::row_file;
use phuyurik::{Row, ROW};
use std::fs::{self, Permissions};
use std::os::unix::fs::{symlink, MetadataExt, PermissionsExt};
use std::path::Path;
use testing::Folder;

fn kind<T: std::fmt::Debug>(result: Result<T, Error>) -> Kind {
    match result {
        Err(Error::Of(kind, ..)) => kind,
        other => panic!("{other:?}"),
    }
}

fn set_mode(path: &Path, mode: u32) {
    fs::set_permissions(path, Permissions::from_mode(mode)).expect("set");
}

fn mode(path: &Path) -> u32 {
    fs::metadata(path).expect("there").mode() & 0o7777
}

#[test]
fn a_file_is_replaced_whole_and_keeps_its_mode() {
    let folder = Folder::new();
    let path = folder.file("a");
    replace(&path, b"long text".to_vec()).expect("written");
    for bits in [0o600, 0o664, 0o444] {
        set_mode(&path, bits);
        replace(&path, b"short".to_vec()).expect("written");
        assert_eq!(mode(&path), bits);
    }
    assert_eq!(read(&path, 100).expect("there"), b"short");
    assert_eq!(read(&path, 2).expect("there"), b"sh");
    assert!(!tmp(&path).exists());
}

#[test]
fn a_link_where_the_tmp_goes_is_not_followed() {
    let folder = Folder::new();
    let (path, victim) = (folder.file("a"), folder.write("victim", b"kept"));
    symlink(&victim, tmp(&path)).expect("linked");
    replace(&path, b"new".to_vec()).expect("written");
    assert_eq!(read(&victim, 100).expect("there"), b"kept");
    assert_eq!(read(&path, 100).expect("there"), b"new");
    assert!(path.symlink_metadata().expect("there").is_file());
    let nowhere = folder.file("nowhere");
    symlink(&nowhere, tmp(&path)).expect("linked");
    replace(&path, b"newer".to_vec()).expect("written");
    assert!(!nowhere.exists());
}

#[test]
fn a_write_in_place_changes_its_bytes_alone() {
    let folder = Folder::new();
    let path = folder.write("a", b"0123456789");
    let about = fs::metadata(&path).expect("there");
    let action = Action::WriteAt(path.clone(), 3, b"abc".to_vec());
    carry_out(&[action]).expect("written");
    assert_eq!(read(&path, 100).expect("there"), b"012abc6789");
    assert_eq!(fs::metadata(&path).expect("there").ino(), about.ino());
}

#[test]
fn what_may_not_be_written_is_not_opened() {
    let folder = Folder::new();
    let path = folder.write("a", b"");
    open_in_place(&path).expect("writable");
    set_mode(&path, 0o444);
    assert_eq!(kind(open_in_place(&path)), Kind::File);
    set_mode(&path, 0o644);
    fs::hard_link(&path, folder.file("b")).expect("linked");
    assert_eq!(kind(open_in_place(&path)), Kind::File);
    fs::remove_file(folder.file("b")).expect("removed");
    open_in_place(&path).expect("writable again");
    symlink(&path, folder.file("c")).expect("linked");
    assert_eq!(kind(open_in_place(&folder.file("c"))), Kind::File);
    assert_eq!(kind(open_in_place(folder.path())), Kind::File);
    assert_eq!(kind(open_in_place(&folder.file("none"))), Kind::Missing);
}

/// A row with these words burnt with their own number.
fn row(words: &[usize]) -> Row {
    let mut bytes = [0; ROW];
    for word in words {
        bytes[8 * word] = *word as u8;
        bytes[8 * word + 4] = 1;
    }
    Row::from(bytes)
}

#[test]
fn no_caller_can_take_a_burnt_word_back() {
    let folder = Folder::new();
    let path = folder.file("row");
    row_file::burn(&path, &row(&[3])).expect("made");
    row_file::burn(&path, &row(&[3, 5])).expect("written");
    let mut other = row(&[3, 5]);
    other.as_mut()[8 * 5] = 6;
    for wrong in [row(&[]), row(&[3]), row(&[5, 6]), other] {
        assert_eq!(kind(row_file::burn(&path, &wrong)), Kind::Forgotten);
        assert_eq!(fs::read(&path).expect("there"), row(&[3, 5]).as_ref());
    }
    row_file::burn(&path, &row(&[3, 5])).expect("the same");
    fs::write(&path, [0; ROW - 1]).expect("written");
    assert!(row_file::burn(&path, &row(&[3])).is_err());
    assert_eq!(fs::read(&path).expect("there"), [0; ROW - 1]);
}

#[test]
fn a_file_grows_and_never_shrinks() {
    let folder = Folder::new();
    let path = folder.file("a");
    grow(&path, 3).expect("made");
    assert_eq!(read(&path, 100).expect("there"), [0; 3]);
    fs::write(&path, b"abc").expect("written");
    grow(&path, 5).expect("longer");
    grow(&path, 2).expect("left alone");
    assert_eq!(read(&path, 100).expect("there"), b"abc\0\0");
    set_mode(&path, 0o444);
    assert_eq!(kind(grow(&path, 9)), Kind::File);
}

#[test]
fn a_second_lock_is_busy_until_the_first_is_dropped() {
    let folder = Folder::new();
    let path = folder.file("a");
    assert!(Lock::look(&path).expect("free").is_none());
    assert!(!lock_of(&path).exists());
    let mut first = Lock::take(&path).expect("free");
    assert_eq!(kind(Lock::take(&path)), Kind::Busy);
    assert_eq!(kind(Lock::look(&path)), Kind::Busy);
    first.leave_remark(b"a longer remark").expect("written");
    first.leave_remark(b"a remark").expect("written");
    assert_eq!(first.remark().expect("read"), b"a remark");
    drop(first);
    let looks = Lock::look(&path).expect("free").expect("there");
    drop(looks);
    let mut second = Lock::take(&path).expect("free again");
    assert_eq!(second.remark().expect("read"), b"a remark");
}

#[test]
fn a_link_is_no_lock_file() {
    let folder = Folder::new();
    let path = folder.file("a");
    for target in [folder.file("nowhere"), folder.write("victim", b"kept")] {
        symlink(&target, lock_of(&path)).expect("linked");
        assert_eq!(kind(Lock::take(&path)), Kind::File);
        assert_eq!(kind(Lock::look(&path)), Kind::File);
        fs::remove_file(lock_of(&path)).expect("removed");
    }
    assert!(!folder.file("nowhere").exists());
}

#[test]
fn a_file_has_one_name_whether_it_is_there_or_not() {
    let folder = Folder::new();
    let path = folder.file("a");
    let name = folder.path().file_name().expect("it has a name");
    let roundabout = folder.file("../").join(name).join("a");
    assert_eq!(canonical(&roundabout).expect("named"), path);
    fs::write(&path, b"").expect("written");
    assert_eq!(canonical(&roundabout).expect("named"), path);
    symlink(&path, folder.file("b")).expect("linked");
    assert_eq!(canonical(&folder.file("b")).expect("named"), path);
    assert_eq!(kind(canonical(&folder.file("none/a"))), Kind::Missing);
}

#[test]
fn a_link_that_leads_nowhere_is_not_merely_missing() {
    let folder = Folder::new();
    let link = folder.file("link");
    symlink("unmounted/a", &link).expect("linked");
    for error in [
        canonical(&link).expect_err("dangling"),
        read_if_there(&link, 9).expect_err("dangling"),
    ] {
        assert_eq!(error.exit_code(), 6);
        assert!(error.to_string().contains("a link to unmounted/a"));
    }
    assert!(read_if_there(&folder.file("none"), 9)
        .expect("none")
        .is_none());
    assert_eq!(kind(read_if_there(folder.path(), 9)), Kind::File);
}
