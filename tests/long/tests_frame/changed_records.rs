//! The example of a file with one block, whose bytes were computed by Python's hashlib and struct.
//! The longer tests are in `change_files`.
//!
//! Proved by `tests/long/run --prove`.

use change_file::{Block, BlockBytes, Link};
use std::alloc::{AllocError, Global};
use std::test::Fail;

// The digest of the head of the hint's file that docs/FORMATS.md has as an example.
const DIGEST: [u8; 32] = [
    0x2f, 0xf4, 0xfe, 0x61, 0xa3, 0x3e, 0x13, 0x64, 0x78, 0xe2, 0x0a, 0x06, 0x72, 0x39, 0x51, 0xc4,
    0xff, 0x76, 0x42, 0xd3, 0xc0, 0x88, 0x6d, 0x7a, 0x8d, 0x4a, 0x3a, 0x32, 0x62, 0x48, 0x6e, 0x28,
];

const HEAD: [u8; 72] = [
    0x50, 0x49, 0x52, 0x4d, 0x4f, 0x56, 0x45, 0x31, 0x2f, 0xf4, 0xfe, 0x61, 0xa3, 0x3e, 0x13, 0x64,
    0x78, 0xe2, 0x0a, 0x06, 0x72, 0x39, 0x51, 0xc4, 0xff, 0x76, 0x42, 0xd3, 0xc0, 0x88, 0x6d, 0x7a,
    0x8d, 0x4a, 0x3a, 0x32, 0x62, 0x48, 0x6e, 0x28, 0x3e, 0xe9, 0x6e, 0x1c, 0x14, 0xd1, 0x8a, 0x8a,
    0xc7, 0x11, 0xae, 0xf6, 0xe2, 0x2c, 0xfa, 0x19, 0x5f, 0xff, 0x8b, 0xc1, 0x29, 0xb3, 0xff, 0xe1,
    0x8e, 0x80, 0x1c, 0x5e, 0x8f, 0x75, 0xda, 0x5b,
];

// From version 1 to version 2, in which record 1 becomes `ff`, and `07` is appended.
const FIRST: [u8; 68] = [
    0x01, 0x00, 0x00, 0x00, 0x00, 0x00, 0x00, 0x00, 0x02, 0x00, 0x00, 0x00, 0x00, 0x00, 0x00, 0x00,
    0x03, 0x00, 0x00, 0x00, 0x0c, 0x00, 0x00, 0x00, 0x01, 0x00, 0x00, 0x00, 0xc8, 0xff, 0x02, 0x00,
    0x00, 0x00, 0x00, 0x07, 0x0b, 0x15, 0x16, 0x73, 0x60, 0x58, 0x48, 0xa5, 0xe5, 0x76, 0x76, 0xa0,
    0x2f, 0x18, 0xf4, 0xa6, 0xbd, 0xbd, 0xd5, 0xaf, 0xbc, 0xec, 0xdc, 0x2a, 0x4a, 0xa2, 0x17, 0x69,
    0x82, 0x00, 0x9d, 0x7a,
];

const ENTRIES: [u8; 12] = [1, 0, 0, 0, 0xc8, 0xff, 2, 0, 0, 0, 0, 7];

// The functions below have no clause, so that a test doesn't carry those of the calls.

fn head() -> Link {
    change_file::read_head(&HEAD, &DIGEST).unwrap_or(Link { bytes: [0; 32] })
}

fn first_bytes(alloc: Global, link: &Link) -> Result<BlockBytes, AllocError> {
    let block = Block {
        since: 1,
        version: 2,
        count: 3,
        entries: &ENTRIES,
    };
    change_file::block_bytes(alloc, link, &block)
}

// Whether the bytes of the first block are read as it.
fn is_read(bytes: &[u8], link: &Link) -> bool {
    let Some(found) = change_file::next_block(bytes, link, 1) else {
        return false;
    };
    let block = found.block;
    block.since == 1
        && block.version == 2
        && block.count == 3
        && block.entries == ENTRIES.as_slice()
        && found.link.bytes.as_slice() == &FIRST[36..]
        && found.len == 68
}

// Whether a file ends with the first block.
fn ends(file: &[u8]) -> bool {
    let Some(end) = change_file::end_in(file, &DIGEST, 1, 2) else {
        return false;
    };
    end.len == 140
        && end.link.bytes.as_slice() == &FIRST[36..]
        && end.version == 2
        && end.count == 3
}

#[test]
fn the_example_is_written_and_read(rt: HostRuntime) -> Result<(), Fail> {
    assert_eq!(rt;
        change_file::head_bytes(&DIGEST).as_slice(),
        HEAD.as_slice()
    );
    let link = head();
    assert_eq!(rt; link.bytes.as_slice(), &HEAD[40..]);
    let first = first_bytes(rt.alloc(), &link)?;
    assert_eq!(rt; first.bytes.as_slice(), FIRST.as_slice());
    assert_eq!(rt; first.link.bytes.as_slice(), &FIRST[36..]);
    assert!(rt; is_read(&FIRST, &link));
    let mut file = HEAD.to_vec(rt.alloc())?;
    file.extend_from_slice(&FIRST)?;
    assert!(rt; ends(&file));
    Ok(())
}
