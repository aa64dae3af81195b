//! Sixteen mebibytes in small pieces, and of small frames.
//! Run by `tests/long/run --slow`.

use super::*;

/// A header, and then as many payload bytes as it says, in pieces of 1,000 bytes.
fn read_in_small_pieces(
    rt: &impl Abort,
    alloc: Global,
    header: [u8; 5],
    len: usize,
) -> Result<(), Fail> {
    let mut reader = Reader::new(alloc);
    let mut frames = Vec::new(alloc);
    reader.feed(false, &header, &mut frames)?;
    let piece = [0x07; 1000];
    for _ in 0..len / 1000 {
        reader.feed(false, &piece, &mut frames)?;
    }
    assert!(rt; frames.is_empty());
    reader.feed(false, &piece[..len % 1000], &mut frames)?;
    assert_eq!(rt; frames.len(), 1);
    assert_eq!(rt; frames[0].payload_len(), len);
    assert!(rt; reader.is_between_frames());
    Ok(())
}

#[test]
fn sixteen_mebibytes_in_small_pieces(rt: HostRuntime) -> Result<(), Fail> {
    read_in_small_pieces(&rt, rt.alloc(), [0, 0, 0, 0x01, 0x01], 16_777_216)?;
    read_in_small_pieces(&rt, rt.alloc(), [0xfd, 0xff, 0xff, 0, 0x05], 16_777_213)
}

#[test]
fn sixteen_mebibytes_of_small_frames(rt: HostRuntime) -> Result<(), Fail> {
    let mut stream = Vec::new(rt.alloc());
    for _ in 0..986_895 {
        stream.extend_from_slice(&STALE)?;
    }
    let mut reader = Reader::new(rt.alloc());
    let mut frames = Vec::new(rt.alloc());
    reader.feed(false, &stream, &mut frames)?;
    assert_eq!(rt; frames.len(), 986_895);
    assert!(rt; reader.is_between_frames());

    let mut frames = Vec::new(rt.alloc());
    for piece in stream.chunks(1000) {
        reader.feed(false, piece, &mut frames)?;
    }
    assert_eq!(rt; frames.len(), 986_895);
    Ok(())
}
