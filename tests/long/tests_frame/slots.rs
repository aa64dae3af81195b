//! Snapshots whose records have lengths of their own: the file of two, damaged, and records of one
//! length moved into slots.
//!
//! Proved by `tests/long/run --prove`.

use super::snapshots::fault;
use snapshot_file::{
    Header, MigrateError, Snapshot, SnapshotFault, migrate, read_snapshot, write_snapshot_bytes,
};
use std::alloc::Global;
use std::process::Abort;
use std::test::Fail;
use test_support::{RECORDS, TWO_RECORDS};

/// Records 0a and c8 in slots of three bytes, and else the store of two records. Made with Python's
/// hashlib.
const STORE: [u8; 129] = [
    0x50, 0x49, 0x52, 0x53, 0x4e, 0x41, 0x50, 0x32, 0x08, 0x03, 0x00, 0x01, 0x00, 0x02, 0x00, 0x00,
    0x00, 0x01, 0x00, 0x01, 0x00, 0x00, 0x00, 0x00, 0x00, 0x00, 0x00, 0x00, 0x00, 0x00, 0x00, 0x00,
    0x00, 0x00, 0x00, 0x00, 0x00, 0x00, 0x00, 0x00, 0x00, 0x00, 0x00, 0x00, 0x00, 0x00, 0x00, 0x00,
    0x00, 0x00, 0x00, 0x00, 0x00, 0x00, 0x00, 0x00, 0x00, 0x00, 0x00, 0x72, 0xcd, 0x6e, 0x84, 0x22,
    0xc4, 0x07, 0xfb, 0x6d, 0x09, 0x86, 0x90, 0xf1, 0x13, 0x0b, 0x7d, 0xed, 0x7e, 0xc2, 0xf7, 0xf5,
    0xe1, 0xd3, 0x0b, 0xd9, 0xd5, 0x21, 0xf0, 0x15, 0x36, 0x37, 0x93, 0x01, 0x00, 0x0a, 0x01, 0x00,
    0xc8, 0xf1, 0x22, 0x4d, 0xc1, 0x2b, 0x0f, 0xb1, 0x63, 0x86, 0xeb, 0x4f, 0x8d, 0x96, 0x74, 0x51,
    0xd9, 0x20, 0xca, 0x60, 0x16, 0x6e, 0x1f, 0x42, 0x91, 0x31, 0xe6, 0x3c, 0xcd, 0xec, 0x22, 0xd7,
    0x90,
];

const SLOTS: [u8; 6] = [0x01, 0x00, 0x0a, 0x01, 0x00, 0xc8];

// The calls below have no clause, so that a test doesn't carry theirs.

fn read(alloc: Global, mut file: &[u8]) -> Result<Snapshot, Fail> {
    let snapshot = read_snapshot(alloc, &mut file)?;
    Ok(snapshot)
}

// The snapshot of a file, with its records moved into slots.
pub(crate) fn moved(
    alloc: Global,
    mut file: &[u8],
) -> Result<Result<Snapshot, MigrateError>, Fail> {
    let snapshot = read_snapshot(alloc, &mut file)?;
    Ok(migrate(alloc, &snapshot))
}

// A file of these records, be they slots or not.
pub(crate) fn file_of(alloc: Global, header: &Header, records: &[u8]) -> Result<Vec<u8>, Fail> {
    let mut bytes = Vec::new(alloc);
    write_snapshot_bytes(alloc, header, records, &mut bytes)?;
    Ok(bytes)
}

// The fields of the two records in slots.
fn in_slots() -> Header {
    Header {
        form: 2,
        record_len: 3,
        ..TWO_RECORDS
    }
}

// Compares the fields and the records.
fn is_in_slots(rt: &impl Abort, snapshot: &Snapshot) {
    assert_eq!(rt; snapshot.header(), in_slots());
    assert_eq!(rt; snapshot.records.as_slice(), SLOTS.as_slice());
}

#[test]
fn a_file_of_slots(rt: HostRuntime) -> Result<(), Fail> {
    let file = file_of(rt.alloc(), &in_slots(), &SLOTS)?;
    assert_eq!(rt; file.as_slice(), STORE.as_slice());
    is_in_slots(&rt, &read(rt.alloc(), &file)?);
    Ok(())
}

#[test]
fn each_cut_and_each_change(rt: HostRuntime) -> Result<(), Fail> {
    for at in 0..STORE.len() {
        let cut = fault(rt.alloc(), &STORE[..at]);
        assert_eq!(rt; cut, Some(SnapshotFault::Short), "{at}");
        if at < 91 {
            continue;
        }
        let mut file = Vec::from_slice(rt.alloc(), &STORE)?;
        if let Some(byte) = file.get_mut(at) {
            *byte ^= 1;
        }
        let changed = fault(rt.alloc(), &file);
        assert_eq!(rt; changed, Some(SnapshotFault::BadDigest), "{at}");
    }
    Ok(())
}

// A length that is more than the bytes after it, and a byte after a record of none: both are found
// at the end alone, after a byte too many and a wrong digest.
#[test]
fn a_bad_slot_is_found_last(rt: HostRuntime) -> Result<(), Fail> {
    for first in [0x02, 0x00] {
        let records = [first, 0x00, 0x0a, 0x01, 0x00, 0xc8];
        let mut file = file_of(rt.alloc(), &in_slots(), &records)?;
        assert_eq!(rt; fault(rt.alloc(), &file), Some(SnapshotFault::BadSlot));
        file.push(0)?;
        assert_eq!(rt;
            fault(rt.alloc(), &file),
            Some(SnapshotFault::TrailingBytes)
        );
        if let Some(last) = file.get_mut(128) {
            *last ^= 1;
        }
        assert_eq!(rt; fault(rt.alloc(), &file), Some(SnapshotFault::BadDigest));
    }
    Ok(())
}

#[test]
fn the_shortest_slots(rt: HostRuntime) -> Result<(), Fail> {
    for (record_len, records, wanted) in [
        (2u16, &[0u8; 4][..], None),
        (1, &[0; 2][..], Some(SnapshotFault::BadLayout)),
    ] {
        let header = Header {
            record_len,
            ..in_slots()
        };
        let file = file_of(rt.alloc(), &header, records)?;
        assert_eq!(rt; fault(rt.alloc(), &file), wanted);
    }
    Ok(())
}

#[test]
fn records_are_moved_into_slots(rt: HostRuntime) -> Result<(), Fail> {
    let file = file_of(rt.alloc(), &TWO_RECORDS, &RECORDS)?;
    is_in_slots(&rt, &moved(rt.alloc(), &file)??);
    let refused = moved(rt.alloc(), &STORE)?.err();
    assert_eq!(rt; refused, Some(MigrateError::NotFormOne));
    Ok(())
}

// 257 bytes are no record, and 64 records of 66 digits have more rows than there may be; 16 of 256
// have as many.
#[test]
fn records_too_wide_for_slots(rt: HostRuntime) -> Result<(), Fail> {
    for (record_len, groups, wanted) in [
        (255u16, 1u16, Some(MigrateError::TooWide)),
        (64, 64, Some(MigrateError::TooWide)),
        (254, 16, None),
    ] {
        let header = Header {
            record_len,
            groups,
            count: 1,
            ..TWO_RECORDS
        };
        let file = file_of(rt.alloc(), &header, &[7; 255][..record_len as usize])?;
        assert_eq!(rt; moved(rt.alloc(), &file)?.err(), wanted);
    }
    Ok(())
}

#[test]
fn each_error_has_its_text_and_its_name(rt: HostRuntime) -> Result<(), Fail> {
    for (fault, text, name) in [
        (
            MigrateError::NotFormOne,
            "the records are not of form 1 or 129",
            "NotFormOne",
        ),
        (
            MigrateError::TooWide,
            "with their lengths the records are beyond the limits",
            "TooWide",
        ),
        (MigrateError::Memory, "out of memory", "Memory"),
    ] {
        assert_eq!(rt; format!(in rt.alloc(); "{fault}")?.as_str(), text);
        assert_eq!(rt; fault.name(), name);
    }
    Ok(())
}
