//! The snapshot of two records of one byte, written, read and damaged; readers and writers over
//! memory that take their time or fail.
//!
//! Proved by `tests/long/run --prove`.

use snapshot_file::{
    Header, Snapshot, SnapshotFault, WriteFault, read_snapshot, write_snapshot_bytes,
};
use std::alloc::Global;
use std::process::Abort;
use std::test::Fail;
use test_support::{Input, Output, RECORDS, TWO_RECORDS};

/// Records 0a and c8 of one byte each, digits of eight bits, one record to a column, secrets of one
/// word, version 1, a seed of zeros, and a publisher whose key is 32 bytes 01. Made with Python's
/// hashlib.
const STORE: [u8; 125] = [
    0x50, 0x49, 0x52, 0x53, 0x4e, 0x41, 0x50, 0x31, 0x08, 0x01, 0x00, 0x01, 0x00, 0x02, 0x00, 0x00,
    0x00, 0x01, 0x00, 0x01, 0x00, 0x00, 0x00, 0x00, 0x00, 0x00, 0x00, 0x00, 0x00, 0x00, 0x00, 0x00,
    0x00, 0x00, 0x00, 0x00, 0x00, 0x00, 0x00, 0x00, 0x00, 0x00, 0x00, 0x00, 0x00, 0x00, 0x00, 0x00,
    0x00, 0x00, 0x00, 0x00, 0x00, 0x00, 0x00, 0x00, 0x00, 0x00, 0x00, 0x72, 0xcd, 0x6e, 0x84, 0x22,
    0xc4, 0x07, 0xfb, 0x6d, 0x09, 0x86, 0x90, 0xf1, 0x13, 0x0b, 0x7d, 0xed, 0x7e, 0xc2, 0xf7, 0xf5,
    0xe1, 0xd3, 0x0b, 0xd9, 0xd5, 0x21, 0xf0, 0x15, 0x36, 0x37, 0x93, 0x0a, 0xc8, 0x2a, 0xb8, 0xbf,
    0x5d, 0x34, 0x12, 0x4c, 0x9e, 0x7e, 0xaf, 0x2d, 0xd4, 0xcb, 0x4f, 0x65, 0x45, 0xc2, 0xbf, 0x0f,
    0x5c, 0x90, 0xe0, 0xae, 0xcf, 0x91, 0xa3, 0xf1, 0x46, 0xac, 0x72, 0xd2, 0xcd,
];

/// The digest of the store's header with count 0. This one and the next were made with Python's
/// hashlib.
const EMPTY_DIGEST: [u8; 32] = [
    0x29, 0xcb, 0x5e, 0xea, 0xab, 0x69, 0x00, 0x6d, 0xb2, 0x09, 0x94, 0x55, 0xca, 0xc5, 0x42, 0x87,
    0x33, 0xd9, 0x28, 0x76, 0x5d, 0xd8, 0x7f, 0x01, 0xbf, 0x77, 0x4e, 0xf4, 0x95, 0xd1, 0xd5, 0x5c,
];

/// The digest of 300 records of 256 bytes, whose byte i is i modulo 251, and their header.
const LONG_DIGEST: [u8; 32] = [
    0x32, 0x22, 0x7c, 0xb0, 0x1e, 0x82, 0x1b, 0xc3, 0xc9, 0xa9, 0x22, 0x39, 0xec, 0xcf, 0x0b, 0x33,
    0xb0, 0xdf, 0x50, 0x8e, 0x87, 0xc7, 0xc8, 0xd1, 0xb0, 0x82, 0xcf, 0x92, 0x17, 0x84, 0xfe, 0xd0,
];

// Without room every write fails.
fn make_output(alloc: Global, most: usize, room: usize) -> Output {
    Output {
        bytes: Vec::new(alloc),
        most,
        room,
        fails: true,
    }
}

// The fault of an input that is all there at once.
pub(crate) fn fault(alloc: Global, bytes: &[u8]) -> Option<SnapshotFault> {
    read_snapshot(
        alloc,
        &mut Input {
            bytes,
            most: usize::MAX,
            fails: false,
        },
    )
    .err()
}

// The fault of an input that fails after its bytes.
pub(crate) fn fault_failing(alloc: Global, bytes: &[u8]) -> Option<SnapshotFault> {
    read_snapshot(
        alloc,
        &mut Input {
            bytes,
            most: usize::MAX,
            fails: true,
        },
    )
    .err()
}

// The store's bytes with other bytes from a place on.
fn with_bytes(alloc: Global, at: usize, others: &[u8]) -> Result<Vec<u8>, Fail> {
    let mut bytes = Vec::from_slice(alloc, &STORE)?;
    for (i, other) in others.iter().enumerate() {
        if let Some(place) = i.checked_add(at) {
            if let Some(byte) = bytes.get_mut(place) {
                *byte = *other;
            }
        }
    }
    Ok(bytes)
}

// The store's bytes with one bit of a byte changed.
fn with_flip(alloc: Global, at: usize) -> Result<Vec<u8>, Fail> {
    let mut bytes = Vec::from_slice(alloc, &STORE)?;
    if let Some(byte) = bytes.get_mut(at) {
        *byte ^= 1;
    }
    Ok(bytes)
}

#[test]
fn the_bytes_of_a_store(rt: HostRuntime) -> Result<(), Fail> {
    for most in [1, 7, usize::MAX] {
        let mut writer = make_output(rt.alloc(), most, usize::MAX);
        let written = write_snapshot_bytes(rt.alloc(), &TWO_RECORDS, &RECORDS, &mut writer);
        assert_eq!(rt; written, Ok(()), "{most}");
        assert_eq!(rt; writer.bytes.as_slice(), STORE.as_slice(), "{most}");
    }
    Ok(())
}

#[test]
fn a_store_is_read_back(rt: HostRuntime) -> Result<(), Fail> {
    for most in [1, 7, usize::MAX] {
        let mut reader = Input {
            bytes: &STORE,
            most,
            fails: false,
        };
        let snapshot = read_snapshot(rt.alloc(), &mut reader)?;
        assert_eq!(rt; snapshot.header(), TWO_RECORDS, "{most}");
        assert_eq!(rt; snapshot.records.as_slice(), RECORDS.as_slice(), "{most}");
    }
    Ok(())
}

#[test]
fn a_slice_and_a_vector_will_do(rt: HostRuntime) -> Result<(), Fail> {
    let header = Header {
        version: u64::MAX,
        count: 3,
        ..TWO_RECORDS
    };
    let mut bytes = Vec::new(rt.alloc());
    let written = write_snapshot_bytes(rt.alloc(), &header, &[1, 2, 3], &mut bytes);
    assert_eq!(rt; written, Ok(()));
    assert_eq!(rt; bytes.len(), 126);
    let mut left = bytes.as_slice();
    let snapshot = read_snapshot(rt.alloc(), &mut left)?;
    assert_eq!(rt; snapshot.header(), header);
    assert_eq!(rt; snapshot.records.as_slice(), [1, 2, 3].as_slice());
    Ok(())
}

#[test]
fn records_longer_than_a_piece(rt: HostRuntime) -> Result<(), Fail> {
    let header = Header {
        record_len: 256,
        groups: 16,
        count: 300,
        dimension: 1024,
        ..TWO_RECORDS
    };
    let mut records = Vec::new(rt.alloc());
    for i in 0..76800u32 {
        records.push((i % 251) as u8)?;
    }
    let mut writer = make_output(rt.alloc(), 4096, usize::MAX);
    let written = write_snapshot_bytes(rt.alloc(), &header, &records, &mut writer);
    assert_eq!(rt; written, Ok(()));
    assert_eq!(rt; writer.bytes.len(), 123 + 76_800);
    assert_eq!(rt;
        writer.bytes.get(91 + 76_800..),
        Some(LONG_DIGEST.as_slice())
    );
    for most in [4097, usize::MAX] {
        let mut reader = Input {
            bytes: &writer.bytes,
            most,
            fails: false,
        };
        let snapshot = read_snapshot(rt.alloc(), &mut reader)?;
        assert_eq!(rt; snapshot.header(), header, "{most}");
        assert!(rt; snapshot.records.as_slice() == records.as_slice(), "{most}");
    }
    Ok(())
}

#[test]
fn every_cut_is_short(rt: HostRuntime) {
    for len in 0..STORE.len() {
        assert_eq!(rt;
            fault(rt.alloc(), &STORE[..len]),
            Some(SnapshotFault::Short),
            "{len}"
        );
    }
    assert_eq!(rt; fault(rt.alloc(), &STORE), None);
}

#[test]
fn every_change_is_found(rt: HostRuntime) -> Result<(), Fail> {
    for at in 0..STORE.len() {
        let wanted = match at {
            0..8 => Some(SnapshotFault::NotSnapshot),
            27..125 => Some(SnapshotFault::BadDigest),
            _ => continue,
        };
        let bytes = with_flip(rt.alloc(), at)?;
        assert_eq!(rt; fault(rt.alloc(), &bytes), wanted, "{at}");
    }
    let mut longer = Vec::from_slice(rt.alloc(), &STORE)?;
    longer.push(0)?;
    assert_eq!(rt;
        fault(rt.alloc(), &longer),
        Some(SnapshotFault::TrailingBytes)
    );
    Ok(())
}

#[test]
fn headers_outside_the_limits(rt: HostRuntime) -> Result<(), Fail> {
    let changes: [(usize, &[u8]); 9] = [
        (8, &[5]),
        (8, &[11]),
        (9, &[0, 0]),
        (9, &[1, 1]),
        (11, &[0, 0]),
        (13, &[0, 0, 0, 0]),
        (17, &[0, 0]),
        (17, &[1, 4]),
        (19, &[0, 0, 0, 0, 0, 0, 0, 0]),
    ];
    for (at, others) in changes {
        let bytes = with_bytes(rt.alloc(), at, others)?;
        let bad = Some(SnapshotFault::BadLayout);
        let short = Some(SnapshotFault::Short);
        assert_eq!(rt; fault(rt.alloc(), &bytes), bad, "{at}");
        assert_eq!(rt;
            fault(rt.alloc(), bytes.get(..91).unwrap_or(&[])),
            bad,
            "{at}"
        );
        assert_eq!(rt;
            fault(rt.alloc(), bytes.get(..90).unwrap_or(&[])),
            short,
            "{at}"
        );
    }
    Ok(())
}

#[test]
fn the_greatest_count_of_records_that_never_come(rt: HostRuntime) -> Result<(), Fail> {
    // 4096 records to a column, 4096 columns
    let bytes = with_bytes(rt.alloc(), 11, &[0, 16, 0, 0, 0, 1])?;
    assert_eq!(rt; fault(rt.alloc(), &bytes), Some(SnapshotFault::Short));
    Ok(())
}

#[test]
fn a_reader_that_fails_at_each_byte(rt: HostRuntime) -> Result<(), Fail> {
    for len in 0..126 {
        let part = STORE.get(..len).unwrap_or(&[]);
        assert_eq!(rt;
            fault_failing(rt.alloc(), part),
            Some(SnapshotFault::Read),
            "{len}"
        );
    }
    // what is judged before the read that fails
    assert_eq!(rt;
        fault_failing(rt.alloc(), b"PIRSNAP3"),
        Some(SnapshotFault::NotSnapshot)
    );
    let layout = with_bytes(rt.alloc(), 8, &[5])?;
    assert_eq!(rt;
        fault_failing(rt.alloc(), layout.get(..91).unwrap_or(&[])),
        Some(SnapshotFault::BadLayout)
    );
    let damaged = with_flip(rt.alloc(), 91)?;
    assert_eq!(rt;
        fault_failing(rt.alloc(), &damaged),
        Some(SnapshotFault::BadDigest)
    );
    Ok(())
}

#[test]
fn a_writer_that_fails_at_each_byte(rt: HostRuntime) -> Result<(), Fail> {
    for room in 0..125 {
        let mut writer = make_output(rt.alloc(), usize::MAX, room);
        let written = write_snapshot_bytes(rt.alloc(), &TWO_RECORDS, &RECORDS, &mut writer);
        assert_eq!(rt; written, Err(WriteFault::Write), "{room}");
        assert_eq!(rt; Some(writer.bytes.as_slice()), STORE.get(..room), "{room}");
    }
    let mut lazy = make_output(rt.alloc(), 0, usize::MAX);
    let written = write_snapshot_bytes(rt.alloc(), &TWO_RECORDS, &RECORDS, &mut lazy);
    assert_eq!(rt; written, Err(WriteFault::Write));
    assert_eq!(rt; lazy.bytes.len(), 0);
    Ok(())
}

#[test]
fn a_header_and_its_records(rt: HostRuntime) -> Result<(), Fail> {
    let header = TWO_RECORDS;
    assert!(rt; header.is_accepted());
    assert_eq!(rt; header.records_len(), 2);
    let refused = Header {
        version: 0,
        ..header
    };
    assert!(rt; !refused.is_accepted());
    let snapshot = header.with_records(Vec::from_slice(rt.alloc(), &RECORDS)?);
    assert_eq!(rt; snapshot.header(), header);
    assert_eq!(rt; snapshot.records.as_slice(), RECORDS.as_slice());
    Ok(())
}

#[test]
fn no_records_at_all(rt: HostRuntime) -> Result<(), Fail> {
    let header = Header {
        count: 0,
        ..TWO_RECORDS
    };
    let mut writer = make_output(rt.alloc(), usize::MAX, usize::MAX);
    let written = write_snapshot_bytes(rt.alloc(), &header, &[], &mut writer);
    assert_eq!(rt; written, Ok(()));
    let bytes = writer.bytes.as_slice();
    assert_eq!(rt; bytes.len(), 123);
    assert_eq!(rt; &bytes[13..17], [0, 0, 0, 0].as_slice());
    assert_eq!(rt; &bytes[91..], EMPTY_DIGEST.as_slice());
    let refused = fault(rt.alloc(), bytes);
    assert_eq!(rt; refused, Some(SnapshotFault::BadLayout));
    Ok(())
}

#[test]
fn faults_are_printed(rt: HostRuntime) -> Result<(), Fail> {
    for (fault, text) in [
        (SnapshotFault::NotSnapshot, "not a snapshot"),
        (
            SnapshotFault::BadLayout,
            "the snapshot's layout, dimension or version is outside the limits",
        ),
        (SnapshotFault::Short, "the snapshot is cut short"),
        (SnapshotFault::BadDigest, "the snapshot's digest is wrong"),
        (
            SnapshotFault::TrailingBytes,
            "there are bytes after the snapshot",
        ),
        (
            SnapshotFault::BadSlot,
            "a record of the snapshot is no slot",
        ),
        (SnapshotFault::Read, "the snapshot could not be read"),
        (SnapshotFault::Memory, "out of memory"),
    ] {
        assert_eq!(rt; format!(in rt.alloc(); "{fault}")?.as_str(), text);
    }
    for (fault, text) in [
        (WriteFault::Write, "the snapshot could not be written"),
        (WriteFault::Memory, "out of memory"),
    ] {
        assert_eq!(rt; format!(in rt.alloc(); "{fault}")?.as_str(), text);
    }
    Ok(())
}
