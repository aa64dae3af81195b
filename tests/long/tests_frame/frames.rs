//! Each kind's bytes, each fault and its byte, and long streams.
//!
//! Proved by `tests/long/run --prove`.

use frame_codec::{Bytes, Bytes32, Frame, ReadFault, Reader, Rows, Words, write_frame};
use std::alloc::Global;
use std::process::Abort;
use std::test::Fail;

/// Records 0a and c8 of one byte each, in one group, with digits of eight bits.
const LOAD: [u8; 12] = [0x07, 0, 0, 0, 0x01, 0x01, 0, 0x01, 0, 0x08, 0x0a, 0xc8];

/// A reader's greeting in profile 1: 32 zero bytes follow.
const HELLO: [u8; 7] = [0x22, 0, 0, 0, 0x02, 0x01, 0];

/// Part 0 of version 1.
const HINT_ASK: [u8; 18] = [
    0x0d, 0, 0, 0, 0x03, 0, 0x01, 0, 0, 0, 0, 0, 0, 0, 0, 0, 0, 0,
];

/// The rows changed since version 1.
const DELTA_ASK: [u8; 13] = [0x08, 0, 0, 0, 0x04, 0x01, 0, 0, 0, 0, 0, 0, 0];

/// The words 22 and 16777249 to version 1.
const QUERY: [u8; 22] = [
    0x11, 0, 0, 0, 0x05, 0, 0x01, 0, 0, 0, 0, 0, 0, 0, 0x16, 0, 0, 0, 0x21, 0, 0, 0x01,
];

/// The byte 64 for record 0.
const EDIT: [u8; 10] = [0x05, 0, 0, 0, 0x06, 0, 0, 0, 0, 0x64];

const PUBLISH: [u8; 5] = [0, 0, 0, 0, 0x07];

/// Two records of one byte at version 1, in one group, with digits of eight bits and dimension 1:
/// 32 zero bytes follow.
const WELCOME: [u8; 26] = [
    0x35, 0, 0, 0, 0x82, 0x01, 0, 0x08, 0x01, 0, 0x01, 0, 0x02, 0, 0, 0, 0x01, 0, 0, 0, 0, 0, 0, 0,
    0x01, 0,
];

/// The word 2066479516 as part 0 of version 1.
const HINT_PART: [u8; 22] = [
    0x11, 0, 0, 0, 0x83, 0, 0x01, 0, 0, 0, 0, 0, 0, 0, 0, 0, 0, 0, 0x9c, 0xf9, 0x2b, 0x7b,
];

/// From version 1 to version 2 with two records: row 0 has the word 586782492.
const DELTA: [u8; 35] = [
    0x1e, 0, 0, 0, 0x84, 0x01, 0, 0, 0, 0, 0, 0, 0, 0x02, 0, 0, 0, 0, 0, 0, 0, 0x02, 0, 0, 0, 0x01,
    0, 0, 0, 0, 0, 0x1c, 0x97, 0xf9, 0x22,
];

/// The word 3355450020 of version 1.
const ANSWER: [u8; 18] = [
    0x0d, 0, 0, 0, 0x85, 0, 0x01, 0, 0, 0, 0, 0, 0, 0, 0xa4, 0x1a, 0, 0xc8,
];

/// Version 3 with five records.
const STALE: [u8; 17] = [
    0x0c, 0, 0, 0, 0x86, 0x03, 0, 0, 0, 0, 0, 0, 0, 0x05, 0, 0, 0,
];

/// Version 1.
const DONE: [u8; 13] = [0x08, 0, 0, 0, 0x87, 0x01, 0, 0, 0, 0, 0, 0, 0];

/// Version 2 with 2000 records.
const NO_DELTA: [u8; 17] = [
    0x0c, 0, 0, 0, 0x88, 0x02, 0, 0, 0, 0, 0, 0, 0, 0xd0, 0x07, 0, 0,
];

const REFUSED: [u8; 6] = [0x01, 0, 0, 0, 0x8f, 0x01];

const BYE: [u8; 5] = [0, 0, 0, 0, 0x08];

/// A record that is the byte 05.
const APPEND: [u8; 6] = [0x01, 0, 0, 0, 0x09, 0x05];

/// The frames of `each_kind` in bytes, in the order of the kinds.
fn each_kind_encoded(alloc: Global) -> Result<Vec<u8>, Fail> {
    let mut stream = Vec::new(alloc);
    stream.extend_from_slice(&LOAD)?;
    stream.extend_from_slice(&HELLO)?;
    stream.extend_from_slice(&[0; 32])?;
    stream.extend_from_slice(&HINT_ASK)?;
    stream.extend_from_slice(&DELTA_ASK)?;
    stream.extend_from_slice(&QUERY)?;
    stream.extend_from_slice(&EDIT)?;
    stream.extend_from_slice(&PUBLISH)?;
    stream.extend_from_slice(&BYE)?;
    stream.extend_from_slice(&APPEND)?;
    stream.extend_from_slice(&WELCOME)?;
    stream.extend_from_slice(&[0; 32])?;
    stream.extend_from_slice(&HINT_PART)?;
    stream.extend_from_slice(&DELTA)?;
    stream.extend_from_slice(&ANSWER)?;
    stream.extend_from_slice(&STALE)?;
    stream.extend_from_slice(&DONE)?;
    stream.extend_from_slice(&NO_DELTA)?;
    stream.extend_from_slice(&REFUSED)?;
    Ok(stream)
}

/// A frame of each kind that all streams have.
fn each_kind(alloc: Global) -> Result<Vec<Frame>, Fail> {
    let mut frames = Vec::new(alloc);
    push_asked(alloc, &mut frames)?;
    push_replied(alloc, &mut frames)?;
    Ok(frames)
}

/// A frame of each kind that a client sends on any stream.
fn push_asked(alloc: Global, frames: &mut Vec<Frame>) -> Result<(), Fail> {
    frames.push(Frame::Load {
        record_len: 1,
        groups: 1,
        width: 8,
        records: Bytes::new(vec![in alloc; 0x0a, 0xc8]?),
    })?;
    frames.push(Frame::Hello {
        profile: 1,
        key: Bytes32::copied(&[0; 32]),
    })?;
    frames.push(Frame::HintAsk {
        scheme: 0,
        version: 1,
        part: 0,
    })?;
    frames.push(Frame::DeltaAsk { since: 1 })?;
    frames.push(Frame::Query {
        scheme: 0,
        version: 1,
        words: Words::new(vec![in alloc; 22, 16_777_249]?),
    })?;
    frames.push(Frame::Edit {
        index: 0,
        bytes: Bytes::new(vec![in alloc; 0x64]?),
    })?;
    frames.push(Frame::Publish)?;
    frames.push(Frame::Bye)?;
    frames.push(Frame::Append {
        bytes: Bytes::new(vec![in alloc; 0x05]?),
    })?;
    Ok(())
}

/// Row 0 of one word.
fn one_row(alloc: Global) -> Result<Rows, Fail> {
    let words = Words::new(vec![in alloc; 0, 586_782_492]?);
    Ok(Rows::new(1, words))
}

/// A frame of each kind that a server sends on any stream.
fn push_replied(alloc: Global, frames: &mut Vec<Frame>) -> Result<(), Fail> {
    frames.push(Frame::Welcome {
        profile: 1,
        width: 8,
        record_len: 1,
        groups: 1,
        count: 2,
        version: 1,
        dimension: 1,
        seed: Bytes32::copied(&[0; 32]),
    })?;
    frames.push(Frame::HintPart {
        scheme: 0,
        version: 1,
        part: 0,
        words: Words::new(vec![in alloc; 2_066_479_516]?),
    })?;
    frames.push(Frame::Delta {
        since: 1,
        now: 2,
        count: 2,
        rows: one_row(alloc)?,
    })?;
    frames.push(Frame::Answer {
        scheme: 0,
        version: 1,
        words: Words::new(vec![in alloc; 3_355_450_020]?),
    })?;
    frames.push(Frame::Stale {
        version: 3,
        count: 5,
    })?;
    frames.push(Frame::Done { version: 1 })?;
    frames.push(Frame::NoDelta {
        version: 2,
        count: 2000,
    })?;
    frames.push(Frame::Refused { code: 1 })?;
    Ok(())
}

/// The frames as `write_frame` encodes them.
fn encoded(rt: &impl Abort, alloc: Global, frames: &[Frame]) -> Result<Vec<u8>, Fail> {
    let mut out = Vec::new(alloc);
    for frame in frames {
        assert!(rt; frame.payload_len() <= 16_777_216);
        write_frame(frame, &mut out)?;
    }
    Ok(out)
}

#[test]
fn writes_each_kind(rt: HostRuntime) -> Result<(), Fail> {
    let out = encoded(&rt, rt.alloc(), &each_kind(rt.alloc())?)?;
    assert_eq!(rt; out.as_slice(), each_kind_encoded(rt.alloc())?.as_slice());
    Ok(())
}

/// Whether a frame that a client sends has the fields of `push_asked`, or a server's those of
/// `push_replied`.
fn has_its_fields(frame: Frame) -> bool {
    match frame {
        Frame::Load {
            record_len,
            groups,
            width,
            records,
        } => {
            record_len == 1
                && groups == 1
                && width == 8
                && records.into_vec().as_slice() == [0x0a, 0xc8].as_slice()
        }
        Frame::Hello { profile, key } => profile == 1 && key.as_slice() == [0; 32].as_slice(),
        Frame::HintAsk {
            scheme,
            version,
            part,
        } => scheme == 0 && version == 1 && part == 0,
        Frame::DeltaAsk { since } => since == 1,
        Frame::Query {
            scheme,
            version,
            words,
        } => scheme == 0 && version == 1 && words.as_slice() == [22, 16_777_249].as_slice(),
        Frame::Edit { index, bytes } => index == 0 && bytes.as_slice() == [0x64].as_slice(),
        Frame::Publish | Frame::Bye => true,
        Frame::Append { bytes } => bytes.as_slice() == [0x05].as_slice(),
        reply => has_its_reply_fields(reply),
    }
}

fn has_its_reply_fields(frame: Frame) -> bool {
    match frame {
        Frame::Welcome {
            profile,
            width,
            record_len,
            groups,
            count,
            version,
            dimension,
            seed,
        } => {
            (profile, width, record_len, groups) == (1, 8, 1, 1)
                && (count, version, dimension) == (2, 1, 1)
                && seed.as_slice() == [0; 32].as_slice()
        }
        Frame::HintPart {
            scheme,
            version,
            part,
            words,
        } => {
            scheme == 0
                && version == 1
                && part == 0
                && words.as_slice() == [2_066_479_516].as_slice()
        }
        Frame::Delta {
            since,
            now,
            count,
            rows,
        } => {
            (since, now, count, rows.dimension()) == (1, 2, 2, 1)
                && rows.as_slice() == [0, 586_782_492].as_slice()
        }
        Frame::Answer {
            scheme,
            version,
            words,
        } => {
            scheme == 0 && version == 1 && words.into_vec().as_slice() == [3_355_450_020].as_slice()
        }
        Frame::Stale { version, count } => version == 3 && count == 5,
        Frame::Done { version } => version == 1,
        Frame::NoDelta { version, count } => version == 2 && count == 2000,
        Frame::Refused { code } => code == 1,
        _ => false,
    }
}

#[test]
fn reads_the_fields_of_each_kind(rt: HostRuntime) -> Result<(), Fail> {
    let mut reader = Reader::new(rt.alloc());
    let mut frames = Vec::new(rt.alloc());
    reader.feed(false, &each_kind_encoded(rt.alloc())?, &mut frames)?;
    let mut seen = 0;
    for frame in frames {
        assert!(rt; has_its_fields(frame), "frame {seen}");
        seen = u32::wrapping_add(seen, 1);
    }
    assert_eq!(rt; seen, 17);
    Ok(())
}

#[test]
fn reads_the_same_frames_however_cut(rt: HostRuntime) -> Result<(), Fail> {
    let stream = each_kind_encoded(rt.alloc())?;
    let ends = [
        12, 51, 69, 82, 104, 114, 119, 124, 130, 188, 210, 245, 263, 280, 293, 310, 316,
    ];
    for cut in 0..=stream.len() {
        let (piece, later) = stream.split_at(cut);
        let mut reader = Reader::new(rt.alloc());
        let mut frames = Vec::new(rt.alloc());
        reader.feed(false, piece, &mut frames)?;
        assert_eq!(rt;
            frames.len(),
            ends.iter().filter(|end| **end <= cut).count(),
            "cut at {cut}"
        );
        assert_eq!(rt;
            reader.is_between_frames(),
            cut == 0 || ends.contains(&cut),
            "cut at {cut}"
        );
        reader.feed(false, later, &mut frames)?;
        assert_eq!(rt;
            encoded(&rt, rt.alloc(), &frames)?.as_slice(),
            stream.as_slice(),
            "cut at {cut}"
        );
    }
    Ok(())
}

#[test]
fn reads_byte_by_byte(rt: HostRuntime) -> Result<(), Fail> {
    let stream = each_kind_encoded(rt.alloc())?;
    let mut reader = Reader::new(rt.alloc());
    let mut frames = Vec::new(rt.alloc());
    for byte in &stream {
        reader.feed(false, &[*byte], &mut frames)?;
    }
    assert_eq!(rt;
        encoded(&rt, rt.alloc(), &frames)?.as_slice(),
        stream.as_slice()
    );
    Ok(())
}

/// Of frames of five bytes among longer ones, all in one piece, none is held back or answered as
/// refused memory.
#[test]
fn many_small_frames_in_one_piece(rt: HostRuntime) -> Result<(), Fail> {
    let mut stream = Vec::new(rt.alloc());
    for round in 0..200 {
        stream.extend_from_slice(&PUBLISH)?;
        stream.extend_from_slice(&REFUSED)?;
        stream.extend_from_slice(&BYE)?;
        let mut reader = Reader::new(rt.alloc());
        let mut frames = Vec::new(rt.alloc());
        assert_eq!(rt; reader.feed(false, &stream, &mut frames), Ok(()), "{round}");
        assert!(rt; reader.is_between_frames());
        assert_eq!(rt;
            encoded(&rt, rt.alloc(), &frames)?.as_slice(),
            stream.as_slice(),
            "{round}"
        );
    }
    Ok(())
}

/// After one good frame, each byte but the last must be taken, and the last must give the fault, in
/// single bytes and in one piece. Every later feed must answer `Failed`.
fn must_fail_at_last(
    rt: &impl Abort,
    alloc: Global,
    bad: &[u8],
    fault: ReadFault,
) -> Result<(), Fail> {
    let mut single = Reader::new(alloc);
    let mut frames = Vec::new(alloc);
    single.feed(false, &STALE, &mut frames)?;
    assert!(rt; !bad.is_empty());
    let (early, last) = bad.split_at(bad.len() - 1);
    for byte in early {
        single.feed(false, &[*byte], &mut frames)?;
    }
    assert_eq!(rt; single.feed(false, last, &mut frames), Err(fault));
    assert_eq!(rt; single.feed(false, &STALE, &mut frames), Err(ReadFault::Failed));
    assert_eq!(rt; encoded(rt, alloc, &frames)?.as_slice(), STALE.as_slice());

    let mut piece = Vec::from_slice(alloc, &STALE)?;
    piece.extend_from_slice(bad)?;
    piece.extend_from_slice(&STALE)?;
    let mut whole = Reader::new(alloc);
    let mut frames = Vec::new(alloc);
    assert_eq!(rt; whole.feed(false, &piece, &mut frames), Err(fault));
    assert_eq!(rt; whole.feed(false, &[], &mut frames), Err(ReadFault::Failed));
    assert_eq!(rt; encoded(rt, alloc, &frames)?.as_slice(), STALE.as_slice());
    Ok(())
}

#[test]
fn a_long_payload_fails_at_byte_four(rt: HostRuntime) -> Result<(), Fail> {
    must_fail_at_last(&rt, rt.alloc(), &[0x01, 0, 0, 0x01], ReadFault::TooLong)?;
    must_fail_at_last(
        &rt,
        rt.alloc(),
        &[0xff, 0xff, 0xff, 0xff],
        ReadFault::TooLong,
    )?;
    let mut reader = Reader::new(rt.alloc());
    let mut frames = Vec::new(rt.alloc());
    reader.feed(false, &[0, 0, 0, 0x01, 0x05], &mut frames)?;
    assert!(rt; frames.is_empty());
    Ok(())
}

#[test]
fn an_unknown_kind_fails_at_byte_five(rt: HostRuntime) -> Result<(), Fail> {
    let known = [
        0x01, 0x02, 0x03, 0x04, 0x05, 0x06, 0x07, 0x08, 0x09, 0x82, 0x83, 0x84, 0x85, 0x86, 0x87,
        0x88, 0x8f,
    ];
    for kind in 0..=255u8 {
        if !known.contains(&kind) {
            must_fail_at_last(
                &rt,
                rt.alloc(),
                &[0x0c, 0, 0, 0, kind],
                ReadFault::UnknownKind,
            )?;
        }
    }
    Ok(())
}

#[test]
fn a_bad_payload_fails_at_its_last_byte(rt: HostRuntime) -> Result<(), Fail> {
    let bad = [
        (0x01, 0),
        (0x01, 4),
        (0x02, 33),
        (0x02, 35),
        (0x03, 12),
        (0x03, 14),
        (0x04, 7),
        (0x04, 9),
        (0x05, 0),
        (0x05, 8),
        (0x05, 10),
        (0x05, 16),
        (0x06, 0),
        (0x06, 3),
        (0x07, 1),
        (0x08, 1),
        (0x82, 52),
        (0x82, 54),
        (0x83, 12),
        (0x83, 14),
        (0x84, 21),
        (0x84, 23),
        (0x84, 26),
        (0x85, 8),
        (0x85, 12),
        (0x86, 0),
        (0x86, 11),
        (0x86, 13),
        (0x87, 7),
        (0x87, 9),
        (0x88, 11),
        (0x88, 13),
        (0x8f, 0),
        (0x8f, 2),
    ];
    for (kind, len) in bad {
        let mut frame = vec![in rt.alloc(); len, 0, 0, 0, kind]?;
        for _ in 0..len {
            frame.push(0x01)?;
        }
        must_fail_at_last(&rt, rt.alloc(), &frame, ReadFault::BadPayload)?;
    }
    Ok(())
}

#[test]
fn an_append_may_have_no_bytes(rt: HostRuntime) -> Result<(), Fail> {
    let stream = [0, 0, 0, 0, 0x09];
    let mut reader = Reader::new(rt.alloc());
    let mut frames = Vec::new(rt.alloc());
    reader.feed(false, &stream, &mut frames)?;
    assert_eq!(rt;
        encoded(&rt, rt.alloc(), &frames)?.as_slice(),
        stream.as_slice()
    );
    match frames.first() {
        Some(Frame::Append { bytes }) => assert!(rt; bytes.as_slice().is_empty()),
        _ => panic!(rt; "no Append"),
    }
    Ok(())
}

#[test]
fn a_row_may_have_no_words(rt: HostRuntime) -> Result<(), Fail> {
    let mut stream = vec![in rt.alloc(); 30, 0, 0, 0, 0x84]?;
    for _ in 0..30 {
        stream.push(0)?;
    }
    let mut reader = Reader::new(rt.alloc());
    let mut frames = Vec::new(rt.alloc());
    reader.feed(false, &stream, &mut frames)?;
    assert_eq!(rt;
        encoded(&rt, rt.alloc(), &frames)?.as_slice(),
        stream.as_slice()
    );
    Ok(())
}

#[test]
fn faults_are_printed(rt: HostRuntime) -> Result<(), Fail> {
    for (fault, text) in [
        (ReadFault::TooLong, "a payload of more than 16777216 bytes"),
        (ReadFault::UnknownKind, "an unknown kind of frame"),
        (ReadFault::BadPayload, "a bad payload"),
        (ReadFault::Memory, "out of memory"),
        (ReadFault::Failed, "the stream had failed"),
    ] {
        assert_eq!(rt; format!(in rt.alloc(); "{fault}")?.as_str(), text);
    }
    Ok(())
}
