//! Pieces read and bytes written, by calls over a reader or a writer and over a connection: whole,
//! in short calls, and where a call fails once or from some byte on.
//!
//! Proved by `tests/long/run --prove`.

use connection_io::{
    Connection, PIECE_LEN, Pair, ReadFailed, WriteFailed, piece_buffer, read_piece, receive, send,
    write_out,
};
use std::alloc::Global;
use std::test::Fail;
use test_support::{FailsOnce, Input, Output};

/// A writer that takes `room` bytes, `most` a call.
fn make_output(alloc: Global, most: usize, room: usize, fails: bool) -> Output {
    Output {
        bytes: Vec::new(alloc),
        most,
        room,
        fails,
    }
}

#[test]
fn all_is_written_or_a_prefix(rt: HostRuntime) -> Result<(), Fail> {
    for (most, room) in [(1, 9), (2, 9), (9, 9), (2, 5), (9, 0)] {
        for fails in [false, true] {
            let wanted = if room == 9 { Ok(()) } else { Err(WriteFailed) };
            let mut writer = make_output(rt.alloc(), most, room, fails);
            assert_eq!(rt;
                write_out(&mut writer, b"a message"),
                wanted,
                "{most} {room}"
            );
            assert_eq!(rt;
                Some(writer.bytes.as_slice()),
                b"a message".get(..room),
                "{most} {room}"
            );
            let mut reader = b"".as_slice();
            let mut writer = make_output(rt.alloc(), most, room, fails);
            let mut pair = Pair::new(&mut reader, &mut writer);
            assert_eq!(rt; send(&mut pair, b"a message"), wanted, "{most} {room}");
            assert_eq!(rt;
                Some(writer.bytes.as_slice()),
                b"a message".get(..room),
                "{most} {room}"
            );
        }
    }
    Ok(())
}

#[test]
fn a_piece_is_read(rt: HostRuntime) -> Result<(), Fail> {
    let mut buffer = piece_buffer(rt.alloc())?;
    assert_eq!(rt; buffer.len(), PIECE_LEN);
    let mut reader = b"a message".as_slice();
    assert_eq!(rt; read_piece(&mut reader, &mut buffer), Ok(9));
    assert_eq!(rt; buffer.get(..9), Some(b"a message".as_slice()));
    assert_eq!(rt; read_piece(&mut reader, &mut buffer), Ok(0));
    Ok(())
}

#[test]
fn one_call_takes_all_that_waits(rt: HostRuntime) -> Result<(), Fail> {
    let waiting = vec![in rt.alloc(); 7u8; 65_536]?;
    let mut buffer = piece_buffer(rt.alloc())?;
    let mut reader = waiting.as_slice();
    assert_eq!(rt; read_piece(&mut reader, &mut buffer), Ok(65_536));
    let mut buffer = piece_buffer(rt.alloc())?;
    let mut reader = waiting.as_slice();
    let mut writer = Vec::new(rt.alloc());
    let mut pair = Pair::new(&mut reader, &mut writer);
    assert_eq!(rt; receive(&mut pair, &mut buffer), Ok(65_536));
    assert_eq!(rt; buffer.as_slice(), waiting.as_slice());
    assert_eq!(rt; receive(&mut pair, &mut buffer), Ok(0));
    Ok(())
}

#[test]
fn a_failed_read_is_not_tried_again(rt: HostRuntime) -> Result<(), Fail> {
    let input = Input {
        bytes: b"a request",
        most: 4,
        fails: false,
    };
    let mut reader = FailsOnce::after(1, input);
    let mut writer = Vec::new(rt.alloc());
    let mut buffer = piece_buffer(rt.alloc())?;
    let mut pair = Pair::new(&mut reader, &mut writer);
    assert_eq!(rt; receive(&mut pair, &mut buffer), Ok(4));
    assert_eq!(rt; receive(&mut pair, &mut buffer), Err(ReadFailed));
    assert_eq!(rt; receive(&mut pair, &mut buffer), Ok(4));
    let mut reader = FailsOnce::after(0, b"a request".as_slice());
    assert_eq!(rt; read_piece(&mut reader, &mut buffer), Err(ReadFailed));
    assert_eq!(rt; read_piece(&mut reader, &mut buffer), Ok(9));
    Ok(())
}

#[test]
fn a_failed_write_is_not_tried_again(rt: HostRuntime) -> Result<(), Fail> {
    for calls in [0, 1, 3] {
        let mut writer = FailsOnce::after(calls, make_output(rt.alloc(), 2, 9, true));
        assert_eq!(rt; write_out(&mut writer, b"a message"), Err(WriteFailed));
        assert_eq!(rt; writer.inner.bytes.len(), 2 * calls, "{calls}");

        let mut reader = b"".as_slice();
        let mut writer = FailsOnce::after(calls, make_output(rt.alloc(), 2, 9, true));
        let mut pair = Pair::new(&mut reader, &mut writer);
        assert_eq!(rt; send(&mut pair, b"a message"), Err(WriteFailed));
        assert_eq!(rt; writer.inner.bytes.len(), 2 * calls, "{calls}");
    }
    Ok(())
}

#[test]
fn a_pair_reads_and_writes(rt: HostRuntime) -> Result<(), Fail> {
    let mut reader = b"a request".as_slice();
    let mut writer = Vec::new(rt.alloc());
    let mut pair = Pair::new(&mut reader, &mut writer);
    let mut buffer = [0u8; 7];
    assert_eq!(rt; pair.read(&mut buffer), Ok(7));
    assert_eq!(rt; buffer.as_slice(), b"a reque".as_slice());
    assert_eq!(rt; send(&mut pair, b"a reply"), Ok(()));
    assert_eq!(rt; pair.read(&mut buffer), Ok(2));
    assert_eq!(rt; pair.read(&mut buffer), Ok(0));
    assert_eq!(rt; writer.as_slice(), b"a reply".as_slice());
    Ok(())
}

#[test]
fn each_fault_has_its_text(rt: HostRuntime) -> Result<(), Fail> {
    let read = format!(in rt.alloc(); "{ReadFailed}")?;
    assert_eq!(rt; read.as_str(), "a read failed");
    let write = format!(in rt.alloc(); "{WriteFailed}")?;
    assert_eq!(rt; write.as_str(), "a write failed");
    Ok(())
}
