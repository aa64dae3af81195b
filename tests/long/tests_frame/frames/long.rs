//! A piece longer than those that the engines read: all its frames come at once.

use super::*;

// Byte k of a long edit.
fn byte(k: usize) -> u8 {
    (k % 251) as u8
}

// An edit of record 1 to 70,000 bytes, a Bye, and the first two bytes of another.
fn long_piece(alloc: Global) -> Result<Vec<u8>, Fail> {
    let mut piece = Vec::new(alloc);
    piece.extend_from_slice(&[0x74, 0x11, 0x01, 0x00, 0x06, 1, 0, 0, 0])?;
    for k in 0..70_000 {
        piece.push(byte(k))?;
    }
    piece.extend_from_slice(&[0, 0, 0, 0, 0x08, 0, 0])?;
    Ok(piece)
}

#[test]
fn one_piece_of_more_than_65536_bytes(rt: HostRuntime) -> Result<(), Fail> {
    let piece = long_piece(rt.alloc())?;
    let mut reader = Reader::new(rt.alloc());
    let mut frames = Vec::new(rt.alloc());
    assert_eq!(rt; reader.feed(false, &piece, &mut frames), Ok(()));
    assert_eq!(rt; frames.len(), 2);
    match frames.first() {
        Some(Frame::Edit { index, bytes }) => {
            assert_eq!(rt; *index, 1);
            assert_eq!(rt; bytes.as_slice().len(), 70_000);
            for (k, found) in bytes.as_slice().iter().enumerate() {
                assert_eq!(rt; *found, byte(k));
            }
        }
        _ => panic!(rt; "the first frame is no edit"),
    }
    assert!(rt; matches!(frames.last(), Some(Frame::Bye)));
    assert_eq!(rt; reader.feed(false, &[0, 0, 0x08], &mut frames), Ok(()));
    assert_eq!(rt; frames.len(), 3);
    assert!(rt; reader.is_between_frames());
    Ok(())
}
