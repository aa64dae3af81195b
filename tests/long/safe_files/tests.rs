//! The steps of a replacement on a disk in memory. Those of which one fails, and what a real folder
//! has after each, are in `tests`. Proved by `tests/long/run --prove`.

use safe_files::{BytesInMemory, Disk, DiskFailed, ReplaceFault, replace};
use std::alloc::Global;
use std::io;
use std::io::{ErrorKind, Write};
use std::test::Fail;

const OLD: &[u8] = b"old";

const NEW: &[u8] = b"something new";

/// A step of a disk.
#[derive(Clone, Copy, Debug, PartialEq, Eq)]
enum Name {
    Make,
    Write,
    Sync,
    Rename,
    SyncFolder,
    Remove,
}

// A file in memory, whose writes fail if the disk has no room.
#[derive(Drop)]
struct MemoryFile {
    bytes: Vec<u8>,
    room: usize,
}

impl Write for MemoryFile {
    fn write(&mut self, bytes: &[u8]) -> io::Result<usize> {
        if self.bytes.len() == self.room {
            return Err(ErrorKind::StorageFull.into());
        }
        let free = self.room.saturating_sub(self.bytes.len());
        let taken = bytes.len().min(free);
        self.bytes.extend_from_slice(&bytes[..taken])?;
        Ok(taken)
    }

    fn flush(&mut self) -> io::Result<()> {
        Ok(())
    }
}

// A disk in memory, of which one step fails.
#[derive(Drop)]
struct MemoryDisk {
    alloc: Global,
    fails: Option<Name>,
    // The steps that were asked for, but the writes.
    steps: Vec<Name>,
    at_name: Vec<u8>,
    // The bytes of the new file that were sent to the device.
    synced: Vec<u8>,
    has_beside: bool,
}

impl MemoryDisk {
    // A disk with the old file.
    fn new(alloc: Global, fails: Option<Name>) -> Result<MemoryDisk, Fail> {
        Ok(MemoryDisk {
            alloc,
            fails,
            steps: Vec::new(alloc),
            at_name: OLD.to_vec(alloc)?,
            synced: Vec::new(alloc),
            has_beside: false,
        })
    }

    // Notes a step, and fails if it is the one that does.
    fn step(&mut self, name: Name) -> Result<(), DiskFailed> {
        if self.steps.push(name).is_err() || self.fails == Some(name) {
            return Err(DiskFailed);
        }
        Ok(())
    }
}

impl Disk for MemoryDisk {
    type File = MemoryFile;

    fn make(&mut self) -> Result<MemoryFile, DiskFailed> {
        self.step(Name::Make)?;
        self.has_beside = true;
        let room = if self.fails == Some(Name::Write) {
            5
        } else {
            1_000
        };
        Ok(MemoryFile {
            bytes: Vec::new(self.alloc),
            room,
        })
    }

    fn sync(&mut self, file: &MemoryFile) -> Result<(), DiskFailed> {
        self.step(Name::Sync)?;
        match file.bytes.clone() {
            Ok(bytes) => {
                self.synced = bytes;
                Ok(())
            }
            Err(_) => Err(DiskFailed),
        }
    }

    fn rename(&mut self, file: MemoryFile) -> Result<(), DiskFailed> {
        self.step(Name::Rename)?;
        self.at_name = file.bytes;
        self.has_beside = false;
        Ok(())
    }

    fn sync_folder(&mut self) -> Result<(), DiskFailed> {
        self.step(Name::SyncFolder)
    }

    fn remove(&mut self) {
        let _ = self.step(Name::Remove);
        self.has_beside = false;
    }
}

// Replaces the old file by the new one on a disk of which this step fails, and answers what came of
// it and the disk.
fn replaced(
    alloc: Global,
    fails: Option<Name>,
) -> Result<(Result<(), ReplaceFault>, MemoryDisk), Fail> {
    let mut disk = MemoryDisk::new(alloc, fails)?;
    let result = replace(alloc, &mut disk, &BytesInMemory(NEW));
    Ok((result, disk))
}

#[test]
fn all_steps_in_their_order(rt: HostRuntime) -> Result<(), Fail> {
    let (result, disk) = replaced(rt.alloc(), None)?;
    assert_eq!(rt; result, Ok(()));
    let steps = [Name::Make, Name::Sync, Name::Rename, Name::SyncFolder];
    assert_eq!(rt; disk.steps.as_slice(), steps.as_slice());
    assert_eq!(rt; disk.at_name.as_slice(), NEW);
    assert_eq!(rt; disk.synced.as_slice(), NEW);
    assert!(rt; !disk.has_beside);
    Ok(())
}
