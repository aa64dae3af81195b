//! The two kinds of frames that streams of a wide store alone have: changed records are asked
//! for, and given.

use frame_codec::{Bytes, Frame, ReadFault, Reader, write_frame};
use std::process::Abort;
use std::test::Fail;

/// What has changed since version 258.
const CHANGES_ASK: [u8; 13] = [8, 0, 0, 0, 0x0a, 2, 1, 0, 0, 0, 0, 0, 0];

/// From version 258 to version 259 of seven records, record 5 of two bytes has changed from 0102 to
/// 0304.
const CHANGES: [u8; 33] = [
    28, 0, 0, 0, 0x8a, 2, 1, 0, 0, 0, 0, 0, 0, 3, 1, 0, 0, 0, 0, 0, 0, 7, 0, 0, 0, 5, 0, 0, 0, 1,
    2, 3, 4,
];

const ENTRY: [u8; 8] = [5, 0, 0, 0, 1, 2, 3, 4];

fn check_frames(rt: &impl Abort, frames: &[Frame]) {
    match frames {
        [
            Frame::ChangesAsk { since },
            Frame::Changes {
                since: from,
                now,
                count,
                entries,
            },
        ] => {
            assert_eq!(rt; *since, 258);
            assert_eq!(rt; *from, 258);
            assert_eq!(rt; *now, 259);
            assert_eq!(rt; *count, 7);
            assert_eq!(rt; entries.as_slice(), ENTRY.as_slice());
        }
        _ => panic!(rt; "other frames were read"),
    }
}

#[test]
fn bytes_of_both_kinds(rt: HostRuntime) -> Result<(), Fail> {
    let mut out = Vec::new(rt.alloc());
    write_frame(&Frame::ChangesAsk { since: 258 }, &mut out)?;
    assert_eq!(rt; out.as_slice(), CHANGES_ASK.as_slice());
    let entries = ENTRY.as_slice().to_vec(rt.alloc())?;
    let reply = Frame::Changes {
        since: 258,
        now: 259,
        count: 7,
        entries: Bytes::new(entries),
    };
    let mut out = Vec::new(rt.alloc());
    write_frame(&reply, &mut out)?;
    assert_eq!(rt; out.as_slice(), CHANGES.as_slice());
    Ok(())
}

#[test]
fn a_wide_stream_has_both(rt: HostRuntime) -> Result<(), Fail> {
    let mut reader = Reader::new(rt.alloc());
    let mut frames = Vec::new(rt.alloc());
    reader.feed(true, &CHANGES_ASK, &mut frames)?;
    for byte in CHANGES.iter() {
        reader.feed(true, &[*byte], &mut frames)?;
    }
    check_frames(&rt, frames.as_slice());
    assert!(rt; reader.is_between_frames());
    Ok(())
}

#[test]
fn to_an_ordinary_stream_they_are_unknown_at_the_fifth_byte(rt: HostRuntime) -> Result<(), Fail> {
    for frame in [CHANGES_ASK.as_slice(), CHANGES.as_slice()] {
        let mut reader = Reader::new(rt.alloc());
        let mut frames = Vec::new(rt.alloc());
        let (length, rest) = frame.split_at(4);
        assert_eq!(rt; reader.feed(false, length, &mut frames), Ok(()));
        assert_eq!(rt;
            reader.feed(false, &rest[..1], &mut frames),
            Err(ReadFault::UnknownKind)
        );
        assert_eq!(rt; frames.len(), 0);
    }
    Ok(())
}

#[test]
fn payloads_of_other_lengths_are_bad(rt: HostRuntime) -> Result<(), Fail> {
    let short_ask = [7, 0, 0, 0, 0x0a, 2, 1, 0, 0, 0, 0, 0];
    let long_ask = [9, 0, 0, 0, 0x0a, 2, 1, 0, 0, 0, 0, 0, 0, 0];
    let short_reply = [
        19, 0, 0, 0, 0x8a, 2, 1, 0, 0, 0, 0, 0, 0, 3, 1, 0, 0, 0, 0, 0, 0, 7, 0, 0,
    ];
    for frame in [
        short_ask.as_slice(),
        long_ask.as_slice(),
        short_reply.as_slice(),
    ] {
        let mut reader = Reader::new(rt.alloc());
        let mut frames = Vec::new(rt.alloc());
        assert_eq!(rt;
            reader.feed(true, frame, &mut frames),
            Err(ReadFault::BadPayload)
        );
    }
    Ok(())
}

#[test]
fn a_reply_may_have_no_entry(rt: HostRuntime) -> Result<(), Fail> {
    let mut reader = Reader::new(rt.alloc());
    let mut frames = Vec::new(rt.alloc());
    let empty = [
        20, 0, 0, 0, 0x8a, 2, 1, 0, 0, 0, 0, 0, 0, 2, 1, 0, 0, 0, 0, 0, 0, 7, 0, 0, 0,
    ];
    reader.feed(true, &empty, &mut frames)?;
    match frames.first() {
        Some(Frame::Changes { entries, .. }) => assert!(rt; entries.as_slice().is_empty()),
        _ => panic!(rt; "no changes were read"),
    }
    Ok(())
}
