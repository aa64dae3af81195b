//! A look ahead at the frame that a piece completes: a query is seen only once it is whole, with
//! its scheme, version and words, and nothing else is seen as one.

use frame_codec::{Frame, QueryHead, ReadFault, Reader};
use std::alloc::Global;
use std::process::Abort;
use std::test::Fail;

/// The words 22 and 16777249 in scheme 1 to version 258.
const QUERY: [u8; 22] = [
    0x11, 0, 0, 0, 0x05, 1, 0x02, 0x01, 0, 0, 0, 0, 0, 0, 0x16, 0, 0, 0, 0x21, 0, 0, 0x01,
];

/// The same bytes as an answer.
const ANSWER: [u8; 22] = [
    0x11, 0, 0, 0, 0x85, 1, 0x02, 0x01, 0, 0, 0, 0, 0, 0, 0x16, 0, 0, 0, 0x21, 0, 0, 0x01,
];

const HEAD: QueryHead = QueryHead {
    scheme: 1,
    version: 258,
    count: 2,
};

const PUBLISH: [u8; 5] = [0, 0, 0, 0, 0x07];

// The calls below have no clause, so that a test doesn't carry theirs.

fn query_next(reader: &Reader, piece: &[u8]) -> Option<QueryHead> {
    reader.query_next(piece)
}

fn next_frame(reader: &Reader, piece: &[u8]) -> Result<Option<Frame>, ReadFault> {
    reader.next_frame(false, piece)
}

// A reader that keeps these bytes, with which no frame is whole.
fn reader_of(alloc: Global, kept: &[u8]) -> Result<Reader, Fail> {
    let mut reader = Reader::new(alloc);
    let mut frames = Vec::new(alloc);
    reader.feed(false, kept, &mut frames)?;
    Ok(reader)
}

fn check_query(rt: &impl Abort, seen: Option<Frame>) {
    match seen {
        Some(Frame::Query {
            scheme,
            version,
            words,
        }) => {
            assert_eq!(rt; scheme, 1);
            assert_eq!(rt; version, 258);
            assert_eq!(rt; words.as_slice(), [22, 16_777_249].as_slice());
        }
        _ => assert!(rt; false, "no query is seen"),
    }
}

#[test]
fn a_query_is_seen_once_it_is_whole(rt: HostRuntime) -> Result<(), Fail> {
    for cut in 0..QUERY.len() {
        let (kept, rest) = QUERY.split_at(cut);
        let reader = reader_of(rt.alloc(), kept)?;
        for end in 0..rest.len() {
            assert_eq!(rt; query_next(&reader, &rest[..end]), None, "{cut} and {end}");
            let seen = next_frame(&reader, &rest[..end])?;
            assert!(rt; seen.is_none(), "{cut} and {end}");
        }
        assert_eq!(rt; query_next(&reader, rest), Some(HEAD), "cut at {cut}");
        check_query(&rt, next_frame(&reader, rest)?);
        assert_eq!(rt; reader.unfinished_len(), cut);
    }
    Ok(())
}

#[test]
fn a_query_is_seen_before_other_frames(rt: HostRuntime) -> Result<(), Fail> {
    let mut piece = QUERY.to_vec(rt.alloc())?;
    piece.extend_from_slice(&PUBLISH)?;
    let reader = Reader::new(rt.alloc());
    assert_eq!(rt; query_next(&reader, &piece), Some(HEAD));
    check_query(&rt, next_frame(&reader, &piece)?);
    Ok(())
}

#[test]
fn no_other_frame_is_seen_as_a_query(rt: HostRuntime) -> Result<(), Fail> {
    let reader = Reader::new(rt.alloc());
    assert_eq!(rt; query_next(&reader, &ANSWER), None);
    assert!(rt; matches!(next_frame(&reader, &ANSWER)?, Some(Frame::Answer { .. })));
    // A query may stand after the first frame.
    let mut piece = PUBLISH.to_vec(rt.alloc())?;
    piece.extend_from_slice(&QUERY)?;
    assert_eq!(rt; query_next(&reader, &piece), None);
    assert!(rt; matches!(next_frame(&reader, &piece)?, Some(Frame::Publish)));
    Ok(())
}

#[test]
fn a_fault_is_no_query(rt: HostRuntime) -> Result<(), Fail> {
    // One byte more than two words, one that has no word's length, and one that is too long.
    let lengths: [(u32, ReadFault); 3] = [
        (16, ReadFault::BadPayload),
        (8, ReadFault::BadPayload),
        (16_777_217, ReadFault::TooLong),
    ];
    for (length, fault) in lengths {
        let mut bytes = QUERY;
        bytes[..4].copy_from_slice(&length.to_le_bytes());
        let mut reader = Reader::new(rt.alloc());
        assert_eq!(rt; query_next(&reader, &bytes), None);
        assert_eq!(rt; next_frame(&reader, &bytes).err(), Some(fault));
        let mut frames = Vec::new(rt.alloc());
        assert_eq!(rt; reader.feed(false, &bytes, &mut frames), Err(fault));
        assert_eq!(rt; query_next(&reader, &QUERY), None);
        assert_eq!(rt; next_frame(&reader, &QUERY).err(), Some(ReadFault::Failed));
    }
    Ok(())
}
