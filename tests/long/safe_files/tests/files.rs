//! What a real folder has after replacements, and what is beside a file.

use super::{NEW, OLD};
use safe_files::{
    BytesInMemory, FileLock, LockFault, Place, ReplaceFault, lock, open_file, remove_beside,
    replace, replace_file, settle,
};
use std::fs;
use std::os::unix::fs::{PermissionsExt, symlink};
use std::test::Fail;

// What stands at a name.
fn found(rt: &HostRuntime, name: &str) -> Result<Vec<u8>, Fail> {
    Ok(fs::read(rt, name)?)
}

#[test]
fn a_new_file_is_its_owners_and_an_old_one_keeps_its_mode(rt: HostRuntime) -> Result<(), Fail> {
    fs::create_dir(&rt, "modes")?;
    assert_eq!(rt; replace_file(&rt, "modes/file", &BytesInMemory(OLD)), Ok(()));
    assert_eq!(rt; mode_of(&rt, "modes/file")?, 0o600);
    let mut access = fs::metadata(&rt, "modes/file")?.permissions();
    access.set_mode(0o640);
    fs::set_permissions(&rt, "modes/file", access)?;
    assert_eq!(rt; replace_file(&rt, "modes/file", &BytesInMemory(NEW)), Ok(()));
    assert_eq!(rt; mode_of(&rt, "modes/file")?, 0o640);
    assert_eq!(rt; found(&rt, "modes/file")?.as_slice(), NEW);
    fs::remove_dir_all(&rt, "modes")?;
    Ok(())
}

// The bits that say who may do what with a file.
fn mode_of(rt: &HostRuntime, name: &str) -> Result<u32, Fail> {
    Ok(fs::metadata(rt, name)?.permissions().mode() & 0o777)
}

#[test]
fn what_stands_beside_is_left_alone(rt: HostRuntime) -> Result<(), Fail> {
    fs::create_dir(&rt, "beside")?;
    fs::write(&rt, "beside/file", "old")?;
    fs::write(&rt, "beside/other", "other")?;
    symlink(&rt, "other", "beside/file.new")?;
    assert_eq!(rt; replace_file(&rt, "beside/file", &BytesInMemory(NEW)), Ok(()));
    assert_eq!(rt; found(&rt, "beside/file")?.as_slice(), NEW);
    assert_eq!(rt; found(&rt, "beside/other")?.as_slice(), b"other".as_slice());
    assert_eq!(rt;
        found(&rt, "beside/file.new")?.as_slice(),
        b"other".as_slice()
    );
    assert_eq!(rt;
        replace_file(&rt, "beside/none/file", &BytesInMemory(NEW)),
        Err(ReplaceFault::Make)
    );
    fs::remove_dir_all(&rt, "beside")?;
    Ok(())
}

#[test]
fn a_link_to_a_file_stays_and_the_file_is_replaced(rt: HostRuntime) -> Result<(), Fail> {
    fs::create_dir(&rt, "links")?;
    fs::write(&rt, "links/file", "old")?;
    symlink(&rt, "file", "links/link")?;
    assert_eq!(rt; replace_file(&rt, "links/link", &BytesInMemory(NEW)), Ok(()));
    assert_eq!(rt; found(&rt, "links/file")?.as_slice(), NEW);
    assert!(rt; fs::symlink_metadata(&rt, "links/link")?.is_symlink());
    assert!(rt; Place::of(&rt, "links")?.is_no_file());
    assert!(rt; !Place::of(&rt, "links/file")?.is_no_file());
    fs::remove_dir_all(&rt, "links")?;
    Ok(())
}

// The lock of a file, by its name.
fn locked(rt: &HostRuntime, name: &str) -> Result<FileLock, LockFault> {
    Place::of(rt, name)?.lock()
}

#[test]
fn what_killed_processes_left_is_removed_under_the_lock(rt: HostRuntime) -> Result<(), Fail> {
    fs::create_dir(&rt, "left")?;
    for name in [
        "left/file",
        "left/file.new",
        "left/file.new-0123456789abcdef",
        "left/file.new-0123456789abcdeF",
        "left/file.new-0123456789abcde",
        "left/other.new-0123456789abcdef",
    ] {
        fs::write(&rt, name, "left")?;
    }
    symlink(&rt, "file", "left/file.new-0000000000000000")?;
    let mut place = Place::of(&rt, "left/file")?;
    assert!(rt; fs::exists(&rt, "left/file.new-0123456789abcdef")?);
    let lock = place.lock();
    assert!(rt; lock.is_ok());
    assert!(rt; !fs::exists(&rt, "left/file.new-0123456789abcdef")?);
    for name in [
        "left/file.new",
        "left/file.new-0123456789abcdeF",
        "left/file.new-0123456789abcde",
        "left/other.new-0123456789abcdef",
        "left/file.new-0000000000000000",
    ] {
        assert!(rt; fs::exists(&rt, name)?);
    }
    assert_eq!(rt; replace(rt.alloc(), &mut place, &BytesInMemory(NEW)), Ok(()));
    assert_eq!(rt; found(&rt, "left/file")?.as_slice(), NEW);
    let file = place.open()?;
    assert_eq!(rt; settle(&mut place, &file), Ok(()));
    assert!(rt; open_file(&rt, "left").is_err());
    fs::remove_dir_all(&rt, "left")?;
    Ok(())
}

#[test]
fn a_lock_is_had_once(rt: HostRuntime) -> Result<(), Fail> {
    fs::create_dir(&rt, "locks")?;
    fs::write(&rt, "locks/file", "old")?;
    symlink(&rt, "file", "locks/link")?;
    let first = locked(&rt, "locks/file");
    assert!(rt; first.is_ok());
    assert!(rt; matches!(locked(&rt, "locks/link"), Err(LockFault::Held)));
    // The lock outlives the file.
    assert_eq!(rt; replace_file(&rt, "locks/file", &BytesInMemory(NEW)), Ok(()));
    assert!(rt; matches!(locked(&rt, "locks/file"), Err(LockFault::Held)));
    drop(first);
    assert!(rt; locked(&rt, "locks/file").is_ok());
    // A file that is not there yet has its lock, too.
    let first = locked(&rt, "locks/later");
    assert!(rt; first.is_ok());
    assert!(rt; matches!(locked(&rt, "locks/later"), Err(LockFault::Held)));
    symlink(&rt, "file", "locks/other.lock")?;
    assert!(rt; matches!(lock(&rt, "locks/other.lock"), Err(LockFault::File)));
    assert!(rt; matches!(lock(&rt, "locks"), Err(LockFault::File)));
    assert!(rt; matches!(lock(&rt, "locks/none/lock"), Err(LockFault::File)));
    fs::remove_dir_all(&rt, "locks")?;
    Ok(())
}

#[test]
fn marked_files_are_removed_but_one(rt: HostRuntime) -> Result<(), Fail> {
    fs::create_dir(&rt, "marked")?;
    let stays = [
        "marked/file",
        "marked/file.log-00000000000000aa",
        "marked/file.log-00000000000000AA",
        "marked/file.log-00000000000000a",
        "marked/file.log-00000000000000aa.new-0",
        "marked/file.log-00000000000000aa.newer",
        "marked/other.log-00000000000000ab",
        "marked/file.new-00000000000000ab",
    ];
    let goes = [
        "marked/file.log-00000000000000ab",
        "marked/file.log-ffffffffffffffff",
        "marked/file.log-00000000000000aa.new",
        "marked/file.log-00000000000000aa.new-00000000000000ab",
    ];
    for name in stays.iter().chain(goes.iter()) {
        fs::write(&rt, name, "marked")?;
    }
    symlink(&rt, "file", "marked/file.log-0000000000000000")?;
    fs::create_dir(&rt, "marked/file.log-1111111111111111")?;
    remove_beside(
        &rt,
        "marked/file",
        ".log-",
        "marked/file.log-00000000000000aa",
    );
    for name in stays {
        assert!(rt; fs::exists(&rt, name)?);
    }
    for name in goes {
        assert!(rt; !fs::exists(&rt, name)?);
    }
    assert!(rt; fs::symlink_metadata(&rt, "marked/file.log-0000000000000000")?.is_symlink());
    assert!(rt; fs::exists(&rt, "marked/file.log-1111111111111111")?);
    remove_beside(&rt, "marked/file", ".log-", "");
    assert!(rt; !fs::exists(&rt, "marked/file.log-00000000000000aa")?);
    fs::remove_dir_all(&rt, "marked")?;
    Ok(())
}
