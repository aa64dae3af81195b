//! What a disk has after a crash.
//! Proved by `tests/long/run --prove`.

use safe_files::{BytesInMemory, replace_file};
use simulated_host::{SimulatedDisk, SimulatedFiles};
use std::alloc::Global;
use std::cell::RefCell;
use std::fs::{File, OpenFile};
use std::io::Write;
use std::test::Fail;
use std::{fs, io};

const SEEDS: u64 = 200;

// A machine with a folder `m`.
fn one_machine(alloc: Global, seed: u64) -> Result<RefCell<SimulatedDisk>, Fail> {
    let mut disk = SimulatedDisk::new(alloc, seed, 1)?;
    disk.make_folder(0, "m")?;
    Ok(RefCell::new(disk))
}

fn crash(disk: &RefCell<SimulatedDisk>) -> Result<(), Fail> {
    disk.try_borrow_mut()?.cut_power(0)?;
    Ok(())
}

// Writes a file and syncs it, and its folder if that is asked for.
fn write_synced(files: SimulatedFiles<'_>, bytes: &[u8], with_folder: bool) -> io::Result<()> {
    let mut file = File::create(&files, "m/a")?;
    file.write_all(bytes)?;
    file.sync_all()?;
    if with_folder {
        File::open(&files, "m")?.sync_all()?;
    }
    Ok(())
}

// Whether a replacement that is cut at some call leaves the old file or the new one.
fn is_whole_after(alloc: Global, seed: u64, calls: u32) -> Result<bool, Fail> {
    let disk = one_machine(alloc, seed)?;
    let files = SimulatedFiles::new(&disk, alloc, 0);
    write_synced(files, b"old", true)?;
    disk.try_borrow_mut()?.cut_after(0, Some(calls));
    let is_done = replace_file(&files, "m/a", &BytesInMemory(b"new")).is_ok();
    crash(&disk)?;
    let found = fs::read(&files, "m/a")?;
    let is_new = found.as_slice() == b"new".as_slice();
    Ok(is_new || (!is_done && found.as_slice() == b"old".as_slice()))
}

#[test]
fn a_replacement_leaves_old_or_new(rt: HostRuntime) -> Result<(), Fail> {
    for calls in 0..12 {
        for seed in 0..SEEDS {
            assert!(rt; is_whole_after(rt.alloc(), seed, calls)?);
        }
    }
    Ok(())
}
