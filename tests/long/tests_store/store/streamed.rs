//! Wide snapshots read as a stream: each fault, the store that is opened, and records changed
//! before it is.

use super::refused_memory::holds_the_same;
use super::*;
use snapshot_file::{SnapshotFault, write_snapshot_bytes, write_snapshot_from};
use test_support::Input;
use version_store::{HintWatcher, Opening};

// Record i of three bytes, in a form of slots one of at most one byte.
fn record(form: u8, i: usize) -> [u8; 3] {
    let byte = (i * 7 % 251) as u8;
    match (is_slotted(form), i % 3) {
        (false, _) => [byte, 255 - byte, (i % 256) as u8],
        (true, 0) => [0, 0, 0],
        (true, _) => [1, 0, byte],
    }
}

fn is_slotted(form: u8) -> bool {
    form == 2 || form == 130
}

// The record that has these three bytes in the digits.
fn content(form: u8, bytes: &[u8; 3]) -> &[u8] {
    if is_slotted(form) { &bytes[2..2 + usize::from(bytes[0])] } else { bytes }
}

fn header(form: u8, groups: u16, count: usize) -> Header {
    Header {
        form,
        record_len: 3,
        groups,
        count: count as u32,
        ..TWO_RECORDS
    }
}

fn records(alloc: Global, form: u8, count: usize) -> Result<Vec<u8>, Fail> {
    let mut bytes = Vec::new(alloc);
    for i in 0..count {
        bytes.extend_from_slice(&record(form, i))?;
    }
    Ok(bytes)
}

// The snapshot file of these bytes, whatever they are.
fn file_of(alloc: Global, header: &Header, bytes: &[u8]) -> Result<Vec<u8>, Fail> {
    let mut file = Vec::new(alloc);
    write_snapshot_bytes(alloc, header, bytes, &mut file)?;
    Ok(file)
}

// Reads an input by a store's opening and as a snapshot, and compares the faults and what is left.
fn faults(
    rt: &impl Abort,
    alloc: Global,
    bytes: &[u8],
    most: usize,
    fails: bool,
) -> Option<SnapshotFault> {
    let mut input = Input { bytes, most, fails };
    let fault = Opening::read(alloc, &mut input).err();
    let mut again = Input { bytes, most, fails };
    assert_eq!(rt; read_snapshot(alloc, &mut again).err(), fault);
    if fails || most == 1 {
        assert_eq!(rt; input.bytes.len(), again.bytes.len());
    }
    fault
}

#[test]
fn a_streamed_file_cut_at_each_byte(rt: HostRuntime) -> Result<(), Fail> {
    for form in [129, 130] {
        let bytes = records(rt.alloc(), form, 5)?;
        let file = file_of(rt.alloc(), &header(form, 2, 5), &bytes)?;
        assert_eq!(rt; file.len(), 92 + 15 + 32);
        for len in 0..file.len() {
            for most in [1, 7, usize::MAX] {
                let short = faults(&rt, rt.alloc(), &file[..len], most, false);
                assert_eq!(rt; short, Some(SnapshotFault::Short), "{form} {len}");
                let read = faults(&rt, rt.alloc(), &file[..len], most, true);
                assert_eq!(rt; read, Some(SnapshotFault::Read), "{form} {len}");
            }
        }
        assert_eq!(rt; faults(&rt, rt.alloc(), &file, usize::MAX, false), None);
        // the end of the input is read
        let read = faults(&rt, rt.alloc(), &file, usize::MAX, true);
        assert_eq!(rt; read, Some(SnapshotFault::Read));
    }
    Ok(())
}

#[test]
fn a_streamed_file_with_another_byte_at_each_place(rt: HostRuntime) -> Result<(), Fail> {
    for form in [129, 130] {
        let bytes = records(rt.alloc(), form, 5)?;
        let mut file = file_of(rt.alloc(), &header(form, 2, 5), &bytes)?;
        for i in 0..file.len() {
            for bits in [1, 0x80, 0xff] {
                file[i] ^= bits;
                let fault = faults(&rt, rt.alloc(), &file, 1, false);
                assert!(rt; fault.is_some(), "{form} {i}");
                if i >= 92 {
                    assert_eq!(rt; fault, Some(SnapshotFault::BadDigest), "{form} {i}");
                }
                file[i] ^= bits;
            }
        }
    }
    Ok(())
}

#[test]
fn bytes_after_a_streamed_file(rt: HostRuntime) -> Result<(), Fail> {
    for form in [129, 130] {
        let bytes = records(rt.alloc(), form, 5)?;
        let mut file = file_of(rt.alloc(), &header(form, 2, 5), &bytes)?;
        file.push(0)?;
        let fault = faults(&rt, rt.alloc(), &file, usize::MAX, false);
        assert_eq!(rt; fault, Some(SnapshotFault::TrailingBytes));
    }
    Ok(())
}

// A record that is no slot is a fault of the whole file, whichever it is; a byte after it, or
// another digest, comes first.
#[test]
fn a_streamed_file_with_a_bad_slot(rt: HostRuntime) -> Result<(), Fail> {
    for i in 0..5 {
        for bad in [[2, 0, 0], [0, 0, 1], [0, 1, 0]] {
            let mut bytes = records(rt.alloc(), 130, 5)?;
            bytes[3 * i..3 * i + 3].copy_from_slice(&bad);
            let mut file = file_of(rt.alloc(), &header(130, 2, 5), &bytes)?;
            let fault = faults(&rt, rt.alloc(), &file, usize::MAX, false);
            assert_eq!(rt; fault, Some(SnapshotFault::BadSlot), "{i}");
            file.push(0)?;
            let fault = faults(&rt, rt.alloc(), &file, usize::MAX, false);
            assert_eq!(rt; fault, Some(SnapshotFault::TrailingBytes), "{i}");
            file[92] ^= 0x80;
            let fault = faults(&rt, rt.alloc(), &file, usize::MAX, false);
            assert_eq!(rt; fault, Some(SnapshotFault::BadDigest), "{i}");
            let file = file_of(rt.alloc(), &header(129, 2, 5), &bytes)?;
            assert_eq!(rt; faults(&rt, rt.alloc(), &file, usize::MAX, false), None);
        }
    }
    Ok(())
}

// The file of an opening, which is written record by record.
fn written_again(alloc: Global, opening: &Opening) -> Result<Vec<u8>, Fail> {
    let mut file = Vec::new(alloc);
    write_snapshot_from(alloc, &opening.header(), opening, &mut file)?;
    Ok(file)
}

// In each form, by counts that fill their last column and that don't, that fill the 48 columns
// which are written together, and one more or less; the last has more records than a buffer of 64
// KiB.
#[test]
fn a_streamed_store_is_that_of_its_snapshot(rt: HostRuntime) -> Result<(), Fail> {
    for form in [1, 2, 129, 130] {
        for (groups, count) in [
            (1, 1),
            (1, 7),
            (2, 7),
            (3, 6),
            (7, 3),
            (1, 47),
            (1, 48),
            (1, 49),
            (5, 239),
            (5, 240),
            (5, 241),
            (5, 480),
            (5, 483),
            (300, 30_000),
        ] {
            let header = header(form, groups, count);
            let bytes = records(rt.alloc(), form, count)?;
            let file = file_of(rt.alloc(), &header, &bytes)?;
            let mut input = Input {
                bytes: &file,
                most: 65_521,
                fails: false,
            };
            let (opening, digest) = Opening::read(rt.alloc(), &mut input)?;
            assert_eq!(rt; &digest[..], &file[file.len() - 32..]);
            assert_eq!(rt; (opening.header(), opening.count()), (header, count));
            assert!(rt; written_again(rt.alloc(), &opening)?.as_slice() == file.as_slice());
            let store = opening.open(rt.alloc(), Lanes)?;
            let whole = open(rt.alloc(), Lanes, header.with_records(bytes))?;
            holds_the_same(&rt, &store, &whole);
        }
    }
    Ok(())
}

// The changes of a store before it is opened, and the same changes published by a store.
#[test]
fn records_changed_before_a_store_is_opened(rt: HostRuntime) -> Result<(), Fail> {
    for form in [1, 2, 129, 130] {
        for (groups, count, further) in [(1, 5, 9), (2, 5, 8), (4, 3, 1), (5, 5, 0)] {
            let bytes = records(rt.alloc(), form, count)?;
            let file = file_of(rt.alloc(), &header(form, groups, count), &bytes)?;
            let (mut opening, _digest) = Opening::read(rt.alloc(), &mut file.as_slice())?;
            let mut store = opening_store(rt.alloc(), &file)?;
            for i in [0, count - 1, count / 2, 0] {
                let bytes = record(form, 100 + i);
                opening.replace(i, content(form, &bytes));
                assert_eq!(rt; edit(&mut store, i, content(form, &bytes)), Ok(()));
            }
            for i in count..count + further {
                let bytes = record(form, 200 + i);
                assert!(rt; opening.append(content(form, &bytes)).is_ok());
                assert_eq!(rt; append(&mut store, content(form, &bytes)), Ok(()));
                opening.replace(i, content(form, &record(form, 300 + i)));
                let last = record(form, 300 + i);
                assert_eq!(rt; edit(&mut store, i, content(form, &last)), Ok(()));
            }
            opening.set_version(2);
            assert_eq!(rt; publish(&mut store), Ok(2));
            assert_eq!(rt; (opening.version(), opening.count()), (2, count + further));
            let file = written(rt.alloc(), &store)?;
            assert!(rt; written_again(rt.alloc(), &opening)?.as_slice() == file.as_slice());
            let opened = opening.open(rt.alloc(), Lanes)?;
            assert_eq!(rt; version(&opened), 2);
            holds_the_same(&rt, &opened, &store);
        }
    }
    Ok(())
}

// What was seen of hints while they were made: the rows that were there, of how many.
#[derive(Drop)]
struct Seen {
    counts: Vec<(usize, usize)>,
}

impl HintWatcher for Seen {
    fn see(&mut self, made: usize, rows: usize) {
        let _ = self.counts.push((made, rows));
    }
}

// 300 groups of 3 digits are 900 rows, 64 of which are made at a time; the hint of DoublePIR has
// four.
#[test]
fn hints_are_seen_while_they_are_made(rt: HostRuntime) -> Result<(), Fail> {
    for form in [1, 129] {
        let header = header(form, 300, 300);
        let bytes = records(rt.alloc(), form, 300)?;
        let file = file_of(rt.alloc(), &header, &bytes)?;
        let (opening, _digest) = Opening::read(rt.alloc(), &mut file.as_slice())?;
        let mut seen = Seen {
            counts: Vec::new(rt.alloc()),
        };
        let store = opening.open_watched(rt.alloc(), Lanes, &mut seen)?;
        let mut wanted = Vec::new(rt.alloc());
        for block in 1..15 {
            wanted.push((64 * block, 900))?;
        }
        wanted.extend_from_slice(&[(900, 900), (4, 4)])?;
        assert_eq!(rt; seen.counts.as_slice(), wanted.as_slice());
        let whole = open(rt.alloc(), Lanes, header.with_records(bytes))?;
        holds_the_same(&rt, &store, &whole);
    }
    Ok(())
}

// A store of a file, opened at once.
fn opening_store(alloc: Global, file: &[u8]) -> Result<Store<Lanes>, Fail> {
    let mut bytes = file;
    let (store, _digest) = Store::open_from(alloc, Lanes, &mut bytes)?;
    Ok(store)
}
