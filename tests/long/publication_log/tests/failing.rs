//! A disk in memory, of which one step fails.

ghost use Rattle.std.specs.Prelude.{◌≡◌, ◌+◌, IfOk};

use super::worked::example;
use super::{FIRST_LEN, HEADER_LEN, first, header};
use publication_log::{
    AppendDisk, AppendFault, BadLog, CutFault, Log, LogDiskFailed, LogReadFault, PublicationBuilder,
    read_log,
};
use std::alloc::Global;
use std::test::Fail;

/// A step of a disk.
#[derive(Clone, Copy, Debug, PartialEq, Eq)]
enum Name {
    Write,
    Sync,
    Truncate,
}

// A file in memory, of which one step fails.
#[derive(Drop)]
struct MemoryDisk {
    bytes: Vec<u8>,
    steps: Vec<Name>,
    fails: Option<Name>,
}

impl MemoryDisk {
    // Notes a step, and fails if it is the one that does.
    fn step(&mut self, name: Name) -> Result<(), LogDiskFailed> {
        if self.steps.push(name).is_err() || self.fails == Some(name) {
            return Err(LogDiskFailed);
        }
        Ok(())
    }
}

impl AppendDisk for MemoryDisk {
    fn write(&mut self, bytes: &[u8]) -> Result<(), LogDiskFailed> {
        let written = self.step(Name::Write);
        // A write that fails leaves a part.
        let taken = if written.is_ok() {
            bytes.len()
        } else {
            bytes.len() / 2
        };
        match self.bytes.extend_from_slice(&bytes[..taken]) {
            Ok(()) => written,
            Err(_) => Err(LogDiskFailed),
        }
    }

    fn sync(&mut self) -> Result<(), LogDiskFailed> {
        self.step(Name::Sync)
    }

    fn truncate(&mut self, len: u64) -> Result<(), LogDiskFailed> {
        self.step(Name::Truncate)?;
        self.bytes.truncate(len as usize);
        Ok(())
    }
}

// A log in memory after a version, without entries.
fn empty_log(alloc: Global, version: u64, fails: Option<Name>) -> Result<Log<MemoryDisk>, Fail>
    ensures { IfOk result (λ log. log.version ≡ version) }
{
    let bytes = header().to_bytes(alloc)?;
    let found = read_log(alloc, &header(), &bytes)?;
    let link = found.link;
    let steps = Vec::new(alloc);
    Ok(Log {
        disk: MemoryDisk {
            bytes,
            steps,
            fails,
        },
        link,
        version,
        len: found.len as u64,
        is_torn: false,
    })
}

#[test]
fn an_append_writes_and_then_syncs(rt: HostRuntime) -> Result<(), Fail> {
    let mut log = empty_log(rt.alloc(), 1, None)?;
    assert_eq!(rt; log.append(rt.alloc(), &first(rt.alloc())?), Ok(()));
    assert_eq!(rt;
        log.disk.steps.as_slice(),
        [Name::Write, Name::Sync].as_slice()
    );
    assert_eq!(rt; log.disk.bytes.len(), FIRST_LEN);
    assert_eq!(rt; log.len, FIRST_LEN as u64);
    assert_eq!(rt; log.version, 2);
    Ok(())
}

// The steps of a recovery of the example's first bytes, and how many bytes are left.
fn recovered(alloc: Global, len: usize) -> Result<(Vec<Name>, usize), Fail> {
    let mut bytes = example(alloc)?;
    bytes.truncate(len);
    let found = read_log(alloc, &header(), &bytes)?;
    let disk = MemoryDisk {
        bytes,
        steps: Vec::new(alloc),
        fails: None,
    };
    let log = Log::recover(disk, &found, len)?;
    let left = log.disk.bytes.len();
    Ok((log.disk.steps, left))
}

#[test]
fn a_torn_end_is_cut_off_and_nothing_else(rt: HostRuntime) -> Result<(), Fail> {
    let cut = [Name::Truncate, Name::Sync];
    for (len, steps, wanted) in [
        (HEADER_LEN, 0, HEADER_LEN),
        (HEADER_LEN + 1, 2, HEADER_LEN),
        (FIRST_LEN - 1, 2, HEADER_LEN),
        (FIRST_LEN, 0, FIRST_LEN),
        (FIRST_LEN + 47, 2, FIRST_LEN),
    ] {
        let (taken, left) = recovered(rt.alloc(), len)?;
        assert_eq!(rt;
            taken.as_slice(),
            if steps == 2 { cut.as_slice() } else { &[] }
        );
        assert_eq!(rt; left, wanted);
    }
    Ok(())
}

// What the calls of a log returned, and how many bytes were there after each.
#[derive(Clone, Copy, Debug, PartialEq, Eq)]
struct Course {
    failed: AppendFault,
    again: AppendFault,
    not_cut: Result<(), CutFault>,
    not_synced: Result<(), CutFault>,
    cut: Result<(), CutFault>,
    cut_len: usize,
    next: Result<(), AppendFault>,
    len: usize,
}

// An append of which a step fails, the next one, two cuts that fail, a cut, and an append.
fn course_after(alloc: Global, fails: Name) -> Result<Course, Fail> {
    let mut log = empty_log(alloc, 1, Some(fails))?;
    let publication = first(alloc)?;
    let Err(failed) = log.append(alloc, &publication) else {
        return Err(Fail::new("no step failed"));
    };
    let Err(again) = log.append(alloc, &publication) else {
        return Err(Fail::new("nothing was cut off"));
    };
    log.disk.fails = Some(Name::Truncate);
    let not_cut = log.cut();
    log.disk.fails = Some(Name::Sync);
    let not_synced = log.cut();
    log.disk.fails = None;
    let cut = log.cut();
    let cut_len = log.disk.bytes.len();
    let next = log.append(alloc, &publication);
    Ok(Course {
        failed,
        again,
        not_cut,
        not_synced,
        cut,
        cut_len,
        next,
        len: log.disk.bytes.len(),
    })
}

#[test]
fn a_failed_append_is_cut_off_before_the_next(rt: HostRuntime) -> Result<(), Fail> {
    for (fails, fault) in [
        (Name::Write, AppendFault::Write),
        (Name::Sync, AppendFault::Sync),
    ] {
        let wanted = Course {
            failed: fault,
            again: AppendFault::Torn,
            not_cut: Err(CutFault::Truncate),
            not_synced: Err(CutFault::Sync),
            cut: Ok(()),
            cut_len: HEADER_LEN,
            next: Ok(()),
            len: FIRST_LEN,
        };
        assert_eq!(rt; course_after(rt.alloc(), fails)?, wanted);
    }
    Ok(())
}

// What is read of a log of one entry.
fn verdict_on(
    alloc: Global,
    version: u64,
    publication: &PublicationBuilder,
) -> Result<Result<usize, LogReadFault>, Fail>
    requires { publication.now.version ≡ version + 1 }
{
    let mut log = empty_log(alloc, version, None)?;
    log.append(alloc, publication)?;
    match read_log(alloc, &header(), &log.disk.bytes) {
        Ok(found) => Ok(Ok(found.len)),
        Err(fault) => Ok(Err(fault)),
    }
}

#[test]
fn an_entry_with_its_digest_is_still_judged(rt: HostRuntime) -> Result<(), Fail> {
    let mut publication = first(rt.alloc())?;
    assert_eq!(rt; verdict_on(rt.alloc(), 1, &publication)?, Ok(FIRST_LEN));
    // The first place is now above the second.
    if let Some(place) = publication.body.get_mut(8) {
        *place = 3;
    }
    assert_eq!(rt;
        verdict_on(rt.alloc(), 1, &publication)?,
        Err(LogReadFault::Bad(BadLog::BadBody))
    );
    let later = PublicationBuilder::new(rt.alloc(), 3)?;
    assert_eq!(rt;
        verdict_on(rt.alloc(), 2, &later)?,
        Err(LogReadFault::Bad(BadLog::BadVersion))
    );
    Ok(())
}
