//! Snapshots of wide stores: the files of two records in both forms, damaged; records moved into
//! slots; and ordinary snapshots made wide.

use super::slots::{file_of, moved};
use super::snapshots::{fault, fault_failing};
use snapshot_file::{
    Header, MigrateError, Snapshot, SnapshotFault, WidenError, read_snapshot, widen,
};
use std::alloc::Global;
use std::process::Abort;
use std::test::Fail;
use test_support::{RECORDS, TWO_RECORDS};

/// The store of two records in form 129. Both files were made with Python's hashlib.
const WIDE: [u8; 126] = [
    0x50, 0x49, 0x52, 0x57, 0x49, 0x44, 0x45, 0x31, 0x81, 0x08, 0x01, 0x00, 0x01, 0x00, 0x02, 0x00,
    0x00, 0x00, 0x01, 0x00, 0x01, 0x00, 0x00, 0x00, 0x00, 0x00, 0x00, 0x00, 0x00, 0x00, 0x00, 0x00,
    0x00, 0x00, 0x00, 0x00, 0x00, 0x00, 0x00, 0x00, 0x00, 0x00, 0x00, 0x00, 0x00, 0x00, 0x00, 0x00,
    0x00, 0x00, 0x00, 0x00, 0x00, 0x00, 0x00, 0x00, 0x00, 0x00, 0x00, 0x00, 0x72, 0xcd, 0x6e, 0x84,
    0x22, 0xc4, 0x07, 0xfb, 0x6d, 0x09, 0x86, 0x90, 0xf1, 0x13, 0x0b, 0x7d, 0xed, 0x7e, 0xc2, 0xf7,
    0xf5, 0xe1, 0xd3, 0x0b, 0xd9, 0xd5, 0x21, 0xf0, 0x15, 0x36, 0x37, 0x93, 0x0a, 0xc8, 0xb9, 0x2e,
    0xe2, 0xf2, 0x4e, 0x77, 0xaa, 0x63, 0xcf, 0xa5, 0x3a, 0xfe, 0x57, 0x22, 0x77, 0xa3, 0xe0, 0xcc,
    0x66, 0x18, 0xf2, 0xe2, 0xae, 0xe9, 0xda, 0x36, 0x05, 0x3e, 0xe2, 0xfe, 0x82, 0xa3,
];

/// The same records in slots of three bytes, in form 130.
const WIDE_SLOTS: [u8; 130] = [
    0x50, 0x49, 0x52, 0x57, 0x49, 0x44, 0x45, 0x31, 0x82, 0x08, 0x03, 0x00, 0x01, 0x00, 0x02, 0x00,
    0x00, 0x00, 0x01, 0x00, 0x01, 0x00, 0x00, 0x00, 0x00, 0x00, 0x00, 0x00, 0x00, 0x00, 0x00, 0x00,
    0x00, 0x00, 0x00, 0x00, 0x00, 0x00, 0x00, 0x00, 0x00, 0x00, 0x00, 0x00, 0x00, 0x00, 0x00, 0x00,
    0x00, 0x00, 0x00, 0x00, 0x00, 0x00, 0x00, 0x00, 0x00, 0x00, 0x00, 0x00, 0x72, 0xcd, 0x6e, 0x84,
    0x22, 0xc4, 0x07, 0xfb, 0x6d, 0x09, 0x86, 0x90, 0xf1, 0x13, 0x0b, 0x7d, 0xed, 0x7e, 0xc2, 0xf7,
    0xf5, 0xe1, 0xd3, 0x0b, 0xd9, 0xd5, 0x21, 0xf0, 0x15, 0x36, 0x37, 0x93, 0x01, 0x00, 0x0a, 0x01,
    0x00, 0xc8, 0xa3, 0xe0, 0x74, 0x48, 0x4d, 0x06, 0xc6, 0x76, 0x9f, 0x15, 0xba, 0x76, 0x43, 0xf2,
    0x96, 0x3d, 0x56, 0x65, 0x69, 0xe5, 0xfa, 0xe7, 0x49, 0xa2, 0x77, 0xc1, 0x13, 0x26, 0xc3, 0x65,
    0x25, 0xc8,
];

const SLOTS: [u8; 6] = [0x01, 0x00, 0x0a, 0x01, 0x00, 0xc8];

/// Where the records begin: the header has a byte more than an ordinary one.
const HEADER_LEN: usize = 92;

// The calls below have no clause, so that a test doesn't carry theirs.

fn read(alloc: Global, mut file: &[u8]) -> Result<Snapshot, Fail> {
    let snapshot = read_snapshot(alloc, &mut file)?;
    Ok(snapshot)
}

// The snapshot of a file, made wide.
fn widened(
    alloc: Global,
    mut file: &[u8],
    seed: [u8; 32],
) -> Result<Result<Snapshot, WidenError>, Fail> {
    let snapshot = read_snapshot(alloc, &mut file)?;
    Ok(widen(alloc, &snapshot, seed))
}

// A file with another byte at a place.
fn with_byte(alloc: Global, file: &[u8], at: usize, byte: u8) -> Result<Vec<u8>, Fail> {
    let mut bytes = Vec::from_slice(alloc, file)?;
    if let Some(place) = bytes.get_mut(at) {
        *place = byte;
    }
    Ok(bytes)
}

// The fields of the two records in form 129.
fn of_one_length() -> Header {
    Header {
        form: 129,
        ..TWO_RECORDS
    }
}

// The fields of the two records in form 130.
fn in_slots() -> Header {
    Header {
        form: 130,
        record_len: 3,
        ..TWO_RECORDS
    }
}

// Compares the fields and the records.
fn holds(rt: &impl Abort, snapshot: &Snapshot, header: Header, records: &[u8]) {
    assert_eq!(rt; snapshot.header(), header);
    assert_eq!(rt; snapshot.records.as_slice(), records);
}

// A file is written of these fields and records, and read back.
fn is_the_file_of(
    rt: &impl Abort,
    alloc: Global,
    wanted: &[u8],
    header: Header,
    records: &[u8],
) -> Result<(), Fail> {
    let file = file_of(alloc, &header, records)?;
    assert_eq!(rt; file.as_slice(), wanted);
    holds(rt, &read(alloc, &file)?, header, records);
    Ok(())
}

#[test]
fn the_files_of_both_forms(rt: HostRuntime) -> Result<(), Fail> {
    is_the_file_of(&rt, rt.alloc(), &WIDE, of_one_length(), &RECORDS)?;
    is_the_file_of(&rt, rt.alloc(), &WIDE_SLOTS, in_slots(), &SLOTS)
}

#[test]
fn every_cut_is_short(rt: HostRuntime) {
    for file in [WIDE.as_slice(), WIDE_SLOTS.as_slice()] {
        for len in 0..file.len() {
            let cut = fault(rt.alloc(), &file[..len]);
            assert_eq!(rt; cut, Some(SnapshotFault::Short), "{len}");
        }
        assert_eq!(rt; fault(rt.alloc(), file), None);
    }
}

// Compares the fault of a file with another byte at a place, and those of its first 92 bytes and of
// one fewer: the header is judged with its last byte, and its magic with the eighth.
fn is_refused_with(
    rt: &impl Abort,
    alloc: Global,
    at: usize,
    byte: u8,
    wanted: SnapshotFault,
) -> Result<(), Fail> {
    let bytes = with_byte(alloc, &WIDE, at, byte)?;
    assert_eq!(rt; fault(alloc, &bytes), Some(wanted), "{at} {byte}");
    let (whole, short) = match wanted {
        SnapshotFault::NotSnapshot => (wanted, wanted),
        SnapshotFault::BadLayout => (wanted, SnapshotFault::Short),
        _ => (SnapshotFault::Short, SnapshotFault::Short),
    };
    let header = bytes.get(..HEADER_LEN).unwrap_or(&[]);
    assert_eq!(rt; fault(alloc, header), Some(whole), "{at} {byte}");
    let cut = bytes.get(..HEADER_LEN - 1).unwrap_or(&[]);
    assert_eq!(rt; fault(alloc, cut), Some(short), "{at} {byte}");
    Ok(())
}

/// Places in the header up to the version's first byte, another byte for each, and what the file is
/// then refused for. An accepted header that claims more bytes than there are makes it Short.
const CHANGES: [(usize, u8, SnapshotFault); 39] = [
    (0, 0x51, SnapshotFault::NotSnapshot),
    (1, 0x48, SnapshotFault::NotSnapshot),
    (2, 0x72, SnapshotFault::NotSnapshot),
    (3, 0x53, SnapshotFault::NotSnapshot),
    (4, 0x4e, SnapshotFault::NotSnapshot),
    (5, 0x41, SnapshotFault::NotSnapshot),
    (6, 0x50, SnapshotFault::NotSnapshot),
    (7, 0x32, SnapshotFault::NotSnapshot),
    (8, 0, SnapshotFault::BadLayout),
    (8, 1, SnapshotFault::BadLayout),
    (8, 2, SnapshotFault::BadLayout),
    (8, 128, SnapshotFault::BadLayout),
    // records of one byte are no slots
    (8, 130, SnapshotFault::BadLayout),
    (8, 131, SnapshotFault::BadLayout),
    (8, 255, SnapshotFault::BadLayout),
    (9, 5, SnapshotFault::BadLayout),
    (9, 10, SnapshotFault::BadLayout),
    (9, 11, SnapshotFault::BadLayout),
    (9, 9, SnapshotFault::BadDigest),
    (10, 0, SnapshotFault::BadLayout),
    (10, 2, SnapshotFault::Short),
    (11, 1, SnapshotFault::BadLayout),
    (12, 0, SnapshotFault::BadLayout),
    (12, 2, SnapshotFault::BadDigest),
    // 32,513 rows, and 33,025
    (13, 0x7f, SnapshotFault::BadDigest),
    (13, 0x81, SnapshotFault::BadLayout),
    (14, 0, SnapshotFault::BadLayout),
    (14, 1, SnapshotFault::BadDigest),
    (14, 3, SnapshotFault::Short),
    // 32,514 columns, and 33,026
    (15, 0x7f, SnapshotFault::Short),
    (15, 0x81, SnapshotFault::BadLayout),
    (16, 1, SnapshotFault::BadLayout),
    (17, 1, SnapshotFault::BadLayout),
    (18, 0, SnapshotFault::BadLayout),
    (18, 2, SnapshotFault::BadDigest),
    (19, 4, SnapshotFault::BadLayout),
    (20, 0, SnapshotFault::BadLayout),
    (20, 2, SnapshotFault::BadDigest),
    (21, 1, SnapshotFault::BadDigest),
];

#[test]
fn each_byte_of_the_header(rt: HostRuntime) -> Result<(), Fail> {
    for (at, byte, wanted) in CHANGES {
        is_refused_with(&rt, rt.alloc(), at, byte, wanted)?;
    }
    Ok(())
}

// From the version's second byte on every change leaves an accepted header.
#[test]
fn each_later_byte(rt: HostRuntime) -> Result<(), Fail> {
    for file in [WIDE.as_slice(), WIDE_SLOTS.as_slice()] {
        for at in 21..file.len() {
            let byte = file.get(at).copied().unwrap_or(0);
            let bytes = with_byte(rt.alloc(), file, at, byte ^ 1)?;
            let changed = fault(rt.alloc(), &bytes);
            assert_eq!(rt; changed, Some(SnapshotFault::BadDigest), "{at}");
        }
        let mut longer = Vec::from_slice(rt.alloc(), file)?;
        longer.push(0)?;
        let trailing = fault(rt.alloc(), &longer);
        assert_eq!(rt; trailing, Some(SnapshotFault::TrailingBytes));
    }
    Ok(())
}

// A digest that fits does not help: no wide file has one of these forms, and no ordinary one a wide
// form.
#[test]
fn other_forms_in_a_wide_file(rt: HostRuntime) -> Result<(), Fail> {
    for form in [131, 132, 255] {
        let header = Header {
            form,
            ..of_one_length()
        };
        assert!(rt; !header.is_accepted());
        let file = file_of(rt.alloc(), &header, &RECORDS)?;
        let refused = fault(rt.alloc(), &file);
        assert_eq!(rt; refused, Some(SnapshotFault::BadLayout), "{form}");
    }
    let one_byte = Header {
        form: 130,
        ..TWO_RECORDS
    };
    assert!(rt; !one_byte.is_accepted());
    let file = file_of(rt.alloc(), &one_byte, &RECORDS)?;
    let refused = fault(rt.alloc(), &file);
    assert_eq!(rt; refused, Some(SnapshotFault::BadLayout));
    Ok(())
}

// A header that is accepted, or is not, and the fault of a file that ends with it.
fn is_judged(
    rt: &impl Abort,
    alloc: Global,
    header: Header,
    wanted: SnapshotFault,
) -> Result<(), Fail> {
    let file = file_of(alloc, &header, &[])?;
    let part = file.get(..HEADER_LEN).unwrap_or(&[]);
    assert_eq!(rt; fault(alloc, part), Some(wanted), "{header:?}");
    assert_eq!(rt;
        header.is_accepted(),
        wanted == SnapshotFault::Short,
        "{header:?}"
    );
    Ok(())
}

#[test]
fn headers_at_their_limits(rt: HostRuntime) -> Result<(), Fail> {
    let good = of_one_length();
    for (groups, count, wanted) in [
        (32_768, 1, SnapshotFault::Short),
        (32_769, 1, SnapshotFault::BadLayout),
        (1, 32_768, SnapshotFault::Short),
        (1, 32_769, SnapshotFault::BadLayout),
        (32_768, 1 << 30, SnapshotFault::Short),
        (32_768, (1 << 30) + 1, SnapshotFault::BadLayout),
    ] {
        let header = Header {
            groups,
            count,
            ..good
        };
        is_judged(&rt, rt.alloc(), header, wanted)?;
    }
    for (width, wanted) in [(9, SnapshotFault::Short), (10, SnapshotFault::BadLayout)] {
        is_judged(&rt, rt.alloc(), Header { width, ..good }, wanted)?;
    }
    Ok(())
}

// K is 256 here: the parts of a query may have 63 times 65,536 words.
#[test]
fn parts_at_their_limit(rt: HostRuntime) -> Result<(), Fail> {
    let good = Header {
        record_len: 256,
        ..of_one_length()
    };
    for (groups, wanted) in [(63, SnapshotFault::Short), (64, SnapshotFault::BadLayout)] {
        is_judged(&rt, rt.alloc(), Header { groups, ..good }, wanted)?;
    }
    Ok(())
}

#[test]
fn a_bad_slot_is_found_last(rt: HostRuntime) -> Result<(), Fail> {
    for first in [0x02, 0x00] {
        let records = [first, 0x00, 0x0a, 0x01, 0x00, 0xc8];
        let mut file = file_of(rt.alloc(), &in_slots(), &records)?;
        assert_eq!(rt; fault(rt.alloc(), &file), Some(SnapshotFault::BadSlot));
        file.push(0)?;
        let trailing = fault(rt.alloc(), &file);
        assert_eq!(rt; trailing, Some(SnapshotFault::TrailingBytes));
    }
    Ok(())
}

#[test]
fn a_reader_that_fails_at_each_byte(rt: HostRuntime) -> Result<(), Fail> {
    for len in 0..=WIDE.len() {
        let part = WIDE.get(..len).unwrap_or(&[]);
        let failed = fault_failing(rt.alloc(), part);
        assert_eq!(rt; failed, Some(SnapshotFault::Read), "{len}");
    }
    // what is judged before the read that fails
    let other = with_byte(rt.alloc(), &WIDE, 8, 128)?;
    let header = other.get(..HEADER_LEN).unwrap_or(&[]);
    let refused = fault_failing(rt.alloc(), header);
    assert_eq!(rt; refused, Some(SnapshotFault::BadLayout));
    Ok(())
}

#[test]
fn records_are_moved_into_slots(rt: HostRuntime) -> Result<(), Fail> {
    holds(&rt, &moved(rt.alloc(), &WIDE)??, in_slots(), &SLOTS);
    let refused = moved(rt.alloc(), &WIDE_SLOTS)?.err();
    assert_eq!(rt; refused, Some(MigrateError::NotFormOne));
    Ok(())
}

// 257 bytes are no record; the parts of a query for records of 254 bytes have too many words with
// 64 to a column, for records of 252 they have not.
#[test]
fn records_too_wide_for_slots(rt: HostRuntime) -> Result<(), Fail> {
    for (record_len, groups, wanted) in [
        (254u16, 63u16, None),
        (255, 1, Some(MigrateError::TooWide)),
        (252, 63, None),
        (252, 64, Some(MigrateError::TooWide)),
    ] {
        let header = Header {
            record_len,
            groups,
            count: 1,
            ..of_one_length()
        };
        let file = file_of(rt.alloc(), &header, &[7; 255][..record_len as usize])?;
        assert_eq!(rt;
            moved(rt.alloc(), &file)?.err(),
            wanted,
            "{record_len} {groups}"
        );
    }
    Ok(())
}

const SEED: [u8; 32] = [0x33; 32];

// A file made wide has these fields, its records, and the new seed; and a wide one can't be made so
// again.
fn is_made_wide(
    rt: &impl Abort,
    alloc: Global,
    header: Header,
    records: &[u8],
) -> Result<(), Fail> {
    let file = file_of(alloc, &header, records)?;
    let wide = Header {
        form: header.form.wrapping_add(128),
        seed: SEED,
        ..header
    };
    holds(rt, &widened(alloc, &file, SEED)??, wide, records);
    let file = file_of(alloc, &wide, records)?;
    let refused = widened(alloc, &file, SEED)?.err();
    assert_eq!(rt; refused, Some(WidenError::NotOrdinary));
    Ok(())
}

#[test]
fn ordinary_snapshots_are_made_wide(rt: HostRuntime) -> Result<(), Fail> {
    is_made_wide(&rt, rt.alloc(), TWO_RECORDS, &RECORDS)?;
    let slots = Header {
        form: 2,
        record_len: 3,
        ..TWO_RECORDS
    };
    is_made_wide(&rt, rt.alloc(), slots, &SLOTS)
}

// Under the old seed the file is the worked one.
#[test]
fn a_file_made_wide(rt: HostRuntime) -> Result<(), Fail> {
    let file = file_of(rt.alloc(), &TWO_RECORDS, &RECORDS)?;
    let wide = widened(rt.alloc(), &file, [0; 32])??;
    let file = file_of(rt.alloc(), &wide.header(), &wide.records)?;
    assert_eq!(rt; file.as_slice(), WIDE.as_slice());
    Ok(())
}

#[test]
fn digits_of_ten_bits_stay_ordinary(rt: HostRuntime) -> Result<(), Fail> {
    let header = Header {
        width: 10,
        ..TWO_RECORDS
    };
    let file = file_of(rt.alloc(), &header, &RECORDS)?;
    let refused = widened(rt.alloc(), &file, SEED)?.err();
    assert_eq!(rt; refused, Some(WidenError::BadWidth));
    let header = Header { width: 9, ..header };
    is_made_wide(&rt, rt.alloc(), header, &RECORDS)
}

#[test]
fn each_error_has_its_text_and_its_name(rt: HostRuntime) -> Result<(), Fail> {
    for (fault, text, name) in [
        (
            WidenError::NotOrdinary,
            "the snapshot is not of form 1 or 2",
            "NotOrdinary",
        ),
        (
            WidenError::BadWidth,
            "a wide store has digits of at most 9 bits",
            "BadWidth",
        ),
        (WidenError::Memory, "out of memory", "Memory"),
    ] {
        assert_eq!(rt; format!(in rt.alloc(); "{fault}")?.as_str(), text);
        assert_eq!(rt; fault.name(), name);
    }
    Ok(())
}
