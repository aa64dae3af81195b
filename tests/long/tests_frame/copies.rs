//! Snapshots that are written while their records are read, from readers and to writers over memory
//! that take their time or fail.

use snapshot_file::{CopyFault, Header, write_snapshot_bytes, write_snapshot_read};
use std::alloc::Global;
use std::process::Abort;
use std::test::Fail;
use test_support::{FailsOnce, Input, Output, RECORDS, TWO_RECORDS};

// A reader of these bytes, at most so many at a time, after which it ends or fails.
fn make_input(bytes: &[u8], most: usize, fails: bool) -> Input<'_> {
    Input { bytes, most, fails }
}

// A writer that has room for so many bytes, and then fails.
fn make_output(alloc: Global, most: usize, room: usize) -> Output {
    Output {
        bytes: Vec::new(alloc),
        most,
        room,
        fails: true,
    }
}

// The bytes of a snapshot whose records are there.
fn whole(alloc: Global, header: &Header, records: &[u8]) -> Result<Vec<u8>, Fail> {
    let mut bytes = Vec::new(alloc);
    let written = write_snapshot_bytes(alloc, header, records, &mut bytes);
    if written.is_err() {
        bytes.clear();
    }
    Ok(bytes)
}

#[test]
fn records_are_written_as_they_are_read(rt: HostRuntime) -> Result<(), Fail> {
    let wanted = whole(rt.alloc(), &TWO_RECORDS, &RECORDS)?;
    for most in [1, 7, usize::MAX] {
        let mut reader = make_input(&RECORDS, most, false);
        let mut writer = make_output(rt.alloc(), most, usize::MAX);
        let digest = write_snapshot_read(rt.alloc(), &TWO_RECORDS, &mut reader, &mut writer);
        assert_eq!(rt; writer.bytes.as_slice(), wanted.as_slice(), "{most}");
        assert_eq!(rt; digest.ok().as_ref().map(|it| it.as_slice()), wanted.get(93..), "{most}");
    }
    Ok(())
}

#[test]
fn records_longer_than_a_buffer(rt: HostRuntime) -> Result<(), Fail> {
    let header = Header {
        record_len: 256,
        groups: 16,
        count: 900,
        ..TWO_RECORDS
    };
    let mut records = vec![in rt.alloc(); 0u8; 230_400]?;
    for (i, byte) in records.iter_mut().enumerate() {
        *byte = (i % 251) as u8;
    }
    let wanted = whole(rt.alloc(), &header, &records)?;
    for most in [1000, 65_536, usize::MAX] {
        let mut reader = make_input(&records, most, false);
        let mut writer = make_output(rt.alloc(), most, usize::MAX);
        let written = write_snapshot_read(rt.alloc(), &header, &mut reader, &mut writer);
        assert!(rt; written.is_ok(), "{most}");
        assert!(rt; writer.bytes == wanted, "{most}");
    }
    Ok(())
}

#[test]
fn fewer_and_more_records(rt: HostRuntime) -> Result<(), Fail> {
    for (bytes, fault) in [
        (&b""[..], CopyFault::Few),
        (&b"a"[..], CopyFault::Few),
        (&b"abc"[..], CopyFault::Many),
        (&b"abcdefgh"[..], CopyFault::Many),
    ] {
        for most in [1, 2, usize::MAX] {
            let mut reader = make_input(bytes, most, false);
            let mut writer = make_output(rt.alloc(), usize::MAX, usize::MAX);
            let written = write_snapshot_read(rt.alloc(), &TWO_RECORDS, &mut reader, &mut writer);
            assert_eq!(rt; written.err(), Some(fault), "{most}");
            assert!(rt; writer.bytes.len() <= 93, "{most}");
        }
    }
    Ok(())
}

#[test]
fn a_reader_that_fails(rt: HostRuntime) -> Result<(), Fail> {
    for bytes in [&b""[..], &b"a"[..], &b"ab"[..]] {
        let mut reader = make_input(bytes, 1, true);
        let mut writer = make_output(rt.alloc(), usize::MAX, usize::MAX);
        let written = write_snapshot_read(rt.alloc(), &TWO_RECORDS, &mut reader, &mut writer);
        assert_eq!(rt; written.err(), Some(CopyFault::Read));
    }
    for calls in 0..3 {
        let mut reader = FailsOnce::after(calls, make_input(&RECORDS, 1, false));
        let mut writer = make_output(rt.alloc(), usize::MAX, usize::MAX);
        let written = write_snapshot_read(rt.alloc(), &TWO_RECORDS, &mut reader, &mut writer);
        assert_eq!(rt; written.err(), Some(CopyFault::Read), "{calls}");
    }
    Ok(())
}

#[test]
fn a_writer_that_fails_at_each_byte(rt: HostRuntime) -> Result<(), Fail> {
    let wanted = whole(rt.alloc(), &TWO_RECORDS, &RECORDS)?;
    for room in 0..125 {
        let mut reader = make_input(&RECORDS, usize::MAX, false);
        let mut writer = make_output(rt.alloc(), usize::MAX, room);
        let written = write_snapshot_read(rt.alloc(), &TWO_RECORDS, &mut reader, &mut writer);
        let read = if room < 91 { 0 } else { 2 };
        assert_eq!(rt; written.err(), Some(CopyFault::Write(read)), "{room}");
        assert_eq!(rt; Some(writer.bytes.as_slice()), wanted.get(..room), "{room}");
    }
    Ok(())
}
