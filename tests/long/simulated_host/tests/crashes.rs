//! What a disk has of files that were synced, named or written before a crash, and who has a lock.
//!
//! Proved by `tests/long/run --prove`.

use super::{SEEDS, crash, one_machine, write_synced};
use safe_files::FileSystem;
use simulated_host::SimulatedFiles;
use std::fs;
use std::fs::{File, OpenFile, OpenOptions};
use std::io;
use std::io::{Read, Write};
use std::test::Fail;

#[test]
fn a_synced_file_stays(rt: HostRuntime) -> Result<(), Fail> {
    let alloc = rt.alloc();
    for seed in 0..SEEDS {
        let disk = one_machine(alloc, seed)?;
        let files = SimulatedFiles::new(&disk, alloc, 0);
        write_synced(files, b"bytes", true)?;
        crash(&disk)?;
        assert_eq!(rt; fs::read(&files, "m/a")?.as_slice(), b"bytes".as_slice());
    }
    Ok(())
}

#[test]
fn a_name_that_is_not_synced_may_go(rt: HostRuntime) -> Result<(), Fail> {
    let alloc = rt.alloc();
    let mut gone = 0u64;
    for seed in 0..SEEDS {
        let disk = one_machine(alloc, seed)?;
        let files = SimulatedFiles::new(&disk, alloc, 0);
        write_synced(files, b"bytes", false)?;
        crash(&disk)?;
        match fs::read(&files, "m/a") {
            Ok(bytes) => assert_eq!(rt; bytes.as_slice(), b"bytes".as_slice()),
            Err(_) => gone = gone.saturating_add(1),
        }
    }
    assert!(rt; gone > 40 && gone < 160);
    Ok(())
}

// Whether these are some of the first bytes of others, with zeros or anything after them.
fn is_torn(found: &[u8], synced: &[u8], all: &[u8]) -> bool {
    found.starts_with(synced) && found.len() <= all.len()
}

#[test]
fn an_append_that_is_not_synced_is_lost_torn_or_kept(rt: HostRuntime) -> Result<(), Fail> {
    let alloc = rt.alloc();
    let mut kept = 0u64;
    let mut lost = 0u64;
    for seed in 0..SEEDS {
        let disk = one_machine(alloc, seed)?;
        let files = SimulatedFiles::new(&disk, alloc, 0);
        write_synced(files, b"synced,", true)?;
        let mut file = OpenOptions::new().append(true).open(&files, "m/a")?;
        file.write_all(b"and more")?;
        crash(&disk)?;
        assert!(rt; file.write_all(b"dead").is_err());
        let found = fs::read(&files, "m/a")?;
        assert!(rt; is_torn(found.as_slice(), b"synced,", b"synced,and more"));
        if found.as_slice() == b"synced,and more".as_slice() {
            kept = kept.saturating_add(1);
        }
        if found.len() == 7 {
            lost = lost.saturating_add(1);
        }
    }
    assert!(rt; kept > 20 && lost > 20 && kept.saturating_add(lost) < SEEDS);
    Ok(())
}

#[test]
fn a_lock_is_held_until_its_handle_is_dropped(rt: HostRuntime) -> Result<(), Fail> {
    let alloc = rt.alloc();
    let disk = one_machine(alloc, 1)?;
    let files = SimulatedFiles::new(&disk, alloc, 0);
    let held = File::create(&files, "m/lock")?;
    let other = File::open(&files, "m/lock")?;
    assert!(rt; files.try_lock(&held).is_ok());
    assert!(rt; files.try_lock(&other).is_err());
    drop(held);
    assert!(rt; files.try_lock(&other).is_ok());
    Ok(())
}

// The paths that reading a folder gives, one after another.
fn paths_in<R: FileSystem>(rt: &R, folder: &str) -> io::Result<Vec<u8>> {
    let mut paths = Vec::new(rt.alloc());
    for entry in fs::read_dir(rt, folder)? {
        let entry = entry?;
        paths.extend_from_slice(entry.path().as_str().as_bytes())?;
    }
    Ok(paths)
}

#[test]
fn the_names_of_a_folder_are_read(rt: HostRuntime) -> Result<(), Fail> {
    let alloc = rt.alloc();
    let disk = one_machine(alloc, 1)?;
    let files = SimulatedFiles::new(&disk, alloc, 0);
    fs::create_dir(&files, "m/c")?;
    File::create(&files, "m/b")?;
    File::create(&files, "m/c/d")?;
    File::create(&files, "e")?;
    let paths = paths_in(&files, "m")?;
    assert_eq!(rt; paths.as_slice(), b"m/bm/c".as_slice());
    fs::remove_file(&files, "./e")?;
    assert!(rt; fs::metadata(&files, "e").is_err());
    Ok(())
}
