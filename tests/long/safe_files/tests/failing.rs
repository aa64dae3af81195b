//! Steps of a replacement that fail, on a disk in memory.

ghost use Rattle.std.specs.Prelude.{[]};

use super::{MemoryDisk, NEW, Name, OLD, replaced};
use safe_files::{Content, ContentFault, ReplaceFault, replace};
use std::alloc::Global;
use std::io::Write;
use std::test::Fail;

// A content whose memory is refused.
#[derive(Drop)]
struct NoMemory;

impl Content for NoMemory {
    ghost bytes = { λ _. [] };

    fn write_to<W: Write>(&self, _alloc: Global, _writer: &mut W) -> Result<(), ContentFault> {
        Err(ContentFault::Memory)
    }
}

#[test]
fn each_failing_step_has_its_fault(rt: HostRuntime) -> Result<(), Fail> {
    for (fails, fault) in [
        (Name::Make, ReplaceFault::Make),
        (Name::Write, ReplaceFault::Write),
        (Name::Sync, ReplaceFault::Sync),
        (Name::Rename, ReplaceFault::Rename),
        (Name::SyncFolder, ReplaceFault::SyncFolder),
    ] {
        let (result, disk) = replaced(rt.alloc(), Some(fails))?;
        assert_eq!(rt; result, Err(fault));
        let whole = if fails == Name::SyncFolder { NEW } else { OLD };
        assert_eq!(rt; disk.at_name.as_slice(), whole);
        assert!(rt; !disk.has_beside);
    }
    Ok(())
}

#[test]
fn refused_memory_leaves_the_old_file(rt: HostRuntime) -> Result<(), Fail> {
    let mut disk = MemoryDisk::new(rt.alloc(), None)?;
    let result = replace(rt.alloc(), &mut disk, &NoMemory);
    assert_eq!(rt; result, Err(ReplaceFault::Memory));
    assert_eq!(rt;
        disk.steps.as_slice(),
        [Name::Make, Name::Remove].as_slice()
    );
    assert_eq!(rt; disk.at_name.as_slice(), OLD);
    Ok(())
}
