//! Files of changes: two worked blocks, files that are cut or changed at each byte, of another
//! hint, from another version, with lengths that no file has, and appended to over a torn end. The
//! worked bytes were computed by Python's hashlib and struct.

use change_file::{Block, ChangesEnd, Link, block_bytes, end_in, head_bytes, next_block, read_head};
use std::alloc::{AllocError, Global};
use std::process::Abort;
use std::test::Fail;

// The digest of the head of the hint's file that docs/FORMATS.md has as an example.
const DIGEST: [u8; 32] = [
    0x2f, 0xf4, 0xfe, 0x61, 0xa3, 0x3e, 0x13, 0x64, 0x78, 0xe2, 0x0a, 0x06, 0x72, 0x39, 0x51, 0xc4,
    0xff, 0x76, 0x42, 0xd3, 0xc0, 0x88, 0x6d, 0x7a, 0x8d, 0x4a, 0x3a, 0x32, 0x62, 0x48, 0x6e, 0x28,
];

const HEAD: [u8; 72] = [
    0x50, 0x49, 0x52, 0x4d, 0x4f, 0x56, 0x45, 0x31, 0x2f, 0xf4, 0xfe, 0x61, 0xa3, 0x3e, 0x13, 0x64,
    0x78, 0xe2, 0x0a, 0x06, 0x72, 0x39, 0x51, 0xc4, 0xff, 0x76, 0x42, 0xd3, 0xc0, 0x88, 0x6d, 0x7a,
    0x8d, 0x4a, 0x3a, 0x32, 0x62, 0x48, 0x6e, 0x28, 0x3e, 0xe9, 0x6e, 0x1c, 0x14, 0xd1, 0x8a, 0x8a,
    0xc7, 0x11, 0xae, 0xf6, 0xe2, 0x2c, 0xfa, 0x19, 0x5f, 0xff, 0x8b, 0xc1, 0x29, 0xb3, 0xff, 0xe1,
    0x8e, 0x80, 0x1c, 0x5e, 0x8f, 0x75, 0xda, 0x5b,
];

// From version 1 to version 2, in which record 1 becomes `ff`, and `07` is appended.
const FIRST: [u8; 68] = [
    0x01, 0x00, 0x00, 0x00, 0x00, 0x00, 0x00, 0x00, 0x02, 0x00, 0x00, 0x00, 0x00, 0x00, 0x00, 0x00,
    0x03, 0x00, 0x00, 0x00, 0x0c, 0x00, 0x00, 0x00, 0x01, 0x00, 0x00, 0x00, 0xc8, 0xff, 0x02, 0x00,
    0x00, 0x00, 0x00, 0x07, 0x0b, 0x15, 0x16, 0x73, 0x60, 0x58, 0x48, 0xa5, 0xe5, 0x76, 0x76, 0xa0,
    0x2f, 0x18, 0xf4, 0xa6, 0xbd, 0xbd, 0xd5, 0xaf, 0xbc, 0xec, 0xdc, 0x2a, 0x4a, 0xa2, 0x17, 0x69,
    0x82, 0x00, 0x9d, 0x7a,
];

// From version 2 to version 3, which changes nothing.
const SECOND: [u8; 56] = [
    0x02, 0x00, 0x00, 0x00, 0x00, 0x00, 0x00, 0x00, 0x03, 0x00, 0x00, 0x00, 0x00, 0x00, 0x00, 0x00,
    0x03, 0x00, 0x00, 0x00, 0x00, 0x00, 0x00, 0x00, 0x7b, 0x88, 0x6c, 0xef, 0x98, 0x70, 0x4a, 0xe5,
    0xab, 0x8b, 0x84, 0x6a, 0x2e, 0x45, 0xf1, 0x60, 0x0b, 0x69, 0x35, 0x59, 0xcb, 0x9d, 0xde, 0xa3,
    0x00, 0x13, 0x0f, 0x0a, 0xb6, 0x89, 0x30, 0xb9,
];

const ENTRIES: [u8; 12] = [1, 0, 0, 0, 0xc8, 0xff, 2, 0, 0, 0, 0, 7];

// How many bytes the head has, and how many it has with one block and with both.
const HEAD_LEN: usize = 72;

const FIRST_END: usize = 140;

const SECOND_END: usize = 196;

// The file of both blocks.
fn example(alloc: Global) -> Result<Vec<u8>, AllocError> {
    let mut file = HEAD.to_vec(alloc)?;
    file.extend_from_slice(&FIRST)?;
    file.extend_from_slice(&SECOND)?;
    Ok(file)
}

// The end of the example's blocks in a file, of a hint of version 1 and two records.
fn end(file: &[u8]) -> Option<ChangesEnd> {
    end_in(file, &DIGEST, 1, 2)
}

// How many bytes of a file are whole.
fn whole_len(file: &[u8]) -> Option<usize> {
    Some(end(file)?.len)
}

// The entries of the first block that a file has, if there is one.
fn first_entries(file: &[u8], since: u64) -> Option<&[u8]> {
    let link = read_head(file, &DIGEST)?;
    Some(next_block(file.get(HEAD_LEN..)?, &link, since)?.block.entries)
}

// A file with a block more, at the end of the whole ones and over what is there.
fn append(alloc: Global, file: &mut Vec<u8>, block: &Block<'_>) -> Result<(), Fail> {
    let Some(end) = end_in(file, &DIGEST, 1, 2) else {
        return Ok(());
    };
    let written = block_bytes(alloc, &end.link, block)?;
    let mut more = file.get(..end.len).unwrap_or(&[]).to_vec(alloc)?;
    more.extend_from_slice(&written.bytes)?;
    let rest = file.get(more.len()..).unwrap_or(&[]).to_vec(alloc)?;
    more.extend_from_slice(&rest)?;
    file.clear();
    file.extend_from_slice(&more)?;
    Ok(())
}

#[test]
fn both_blocks_are_read_one_after_another(rt: HostRuntime) -> Result<(), Fail> {
    let file = example(rt.alloc())?;
    let Some(link) = read_head(&file, &DIGEST) else {
        assert!(rt; false, "no head is read");
        return Ok(());
    };
    let Some(first) = next_block(&file[HEAD_LEN..], &link, 1) else {
        assert!(rt; false, "the first block is not read");
        return Ok(());
    };
    assert_eq!(rt; first.len, FIRST.len());
    assert_eq!(rt; first.block.version, 2);
    assert_eq!(rt; first.block.count, 3);
    assert_eq!(rt; first.block.entries, ENTRIES.as_slice());
    let Some(second) = next_block(&file[FIRST_END..], &first.link, 2) else {
        assert!(rt; false, "the second block is not read");
        return Ok(());
    };
    assert_eq!(rt; second.len, SECOND.len());
    assert_eq!(rt; second.block.since, 2);
    assert_eq!(rt; second.block.version, 3);
    assert_eq!(rt; second.block.count, 3);
    assert_eq!(rt; second.block.entries.len(), 0);
    assert!(rt; next_block(&file[SECOND_END..], &second.link, 3).is_none());
    check_end(&rt, end(&file), SECOND_END, 3, 3);
    Ok(())
}

fn check_end(rt: &impl Abort, found: Option<ChangesEnd>, len: usize, version: u64, count: u32) {
    match found {
        Some(end) => {
            assert_eq!(rt; end.len, len);
            assert_eq!(rt; end.version, version);
            assert_eq!(rt; end.count, count);
        }
        None => assert!(rt; false, "no head is read"),
    }
}

#[test]
fn the_example_is_what_appends_write(rt: HostRuntime) -> Result<(), Fail> {
    let mut file = head_bytes(&DIGEST).to_vec(rt.alloc())?;
    check_end(&rt, end(&file), HEAD_LEN, 1, 2);
    let first = Block {
        since: 1,
        version: 2,
        count: 3,
        entries: &ENTRIES,
    };
    append(rt.alloc(), &mut file, &first)?;
    check_end(&rt, end(&file), FIRST_END, 2, 3);
    let second = Block {
        since: 2,
        version: 3,
        count: 3,
        entries: &[],
    };
    append(rt.alloc(), &mut file, &second)?;
    assert_eq!(rt; file.as_slice(), example(rt.alloc())?.as_slice());
    Ok(())
}

#[test]
fn a_file_that_is_cut_anywhere_has_the_blocks_before(rt: HostRuntime) -> Result<(), Fail> {
    let file = example(rt.alloc())?;
    for len in 0..=file.len() {
        let wanted = if len < HEAD_LEN {
            None
        } else if len < FIRST_END {
            Some(HEAD_LEN)
        } else if len < SECOND_END {
            Some(FIRST_END)
        } else {
            Some(SECOND_END)
        };
        assert_eq!(rt; whole_len(&file[..len]), wanted, "{len} bytes");
    }
    Ok(())
}

#[test]
fn a_changed_byte_ends_what_is_read(rt: HostRuntime) -> Result<(), Fail> {
    for at in 0..SECOND_END {
        let wanted = if at < HEAD_LEN {
            None
        } else if at < FIRST_END {
            Some(HEAD_LEN)
        } else {
            Some(FIRST_END)
        };
        for bits in [1, 2, 4, 8, 16, 32, 64, 128, 255] {
            let mut file = example(rt.alloc())?;
            file[at] ^= bits;
            assert_eq!(rt; whole_len(&file), wanted, "byte {at}, bits {bits}");
        }
    }
    Ok(())
}

#[test]
fn the_changes_of_another_hint_are_not_read(rt: HostRuntime) -> Result<(), Fail> {
    let file = example(rt.alloc())?;
    for at in 0..32 {
        let mut other = DIGEST;
        other[at] ^= 1;
        assert!(rt; read_head(&file, &other).is_none());
        assert!(rt; end_in(&file, &other, 1, 2).is_none());
        // Nor do the blocks follow the head of the other.
        let mut mixed = head_bytes(&other).to_vec(rt.alloc())?;
        mixed.extend_from_slice(&FIRST)?;
        check_end(&rt, end_in(&mixed, &other, 1, 2), HEAD_LEN, 1, 2);
    }
    Ok(())
}

#[test]
fn a_block_from_another_version_or_in_anothers_place_is_not_read(
    rt: HostRuntime,
) -> Result<(), Fail> {
    let file = example(rt.alloc())?;
    for since in [0, 2, 3, 257, 1 << 32, u64::MAX] {
        assert!(rt; first_entries(&file, since).is_none());
        check_end(&rt, end_in(&file, &DIGEST, since, 9), HEAD_LEN, since, 9);
    }
    assert_eq!(rt; first_entries(&file, 1), Some(ENTRIES.as_slice()));
    // The first one twice, and the second in its place.
    let mut twice = HEAD.to_vec(rt.alloc())?;
    twice.extend_from_slice(&FIRST)?;
    twice.extend_from_slice(&FIRST)?;
    twice.extend_from_slice(&SECOND)?;
    check_end(&rt, end(&twice), FIRST_END, 2, 3);
    let mut missing = HEAD.to_vec(rt.alloc())?;
    missing.extend_from_slice(&SECOND)?;
    check_end(&rt, end(&missing), HEAD_LEN, 1, 2);
    check_end(&rt, end_in(&missing, &DIGEST, 2, 2), HEAD_LEN, 2, 2);
    // A block with the right link, that is since another version.
    let mut jumping = HEAD.to_vec(rt.alloc())?;
    jumping.extend_from_slice(&FIRST)?;
    let later = Block {
        since: 3,
        version: 4,
        count: 3,
        entries: &[],
    };
    append(rt.alloc(), &mut jumping, &later)?;
    assert_eq!(rt; jumping.len(), SECOND_END);
    check_end(&rt, end(&jumping), FIRST_END, 2, 3);
    Ok(())
}

#[test]
fn a_length_that_no_file_has_is_not_read(rt: HostRuntime) -> Result<(), Fail> {
    let link = Link { bytes: [7; 32] };
    for len in 0..200 {
        let lens = [u32::MAX - len, (1 << 31) + len, (1 << 31) - 1 - len, len + 45];
        for named in lens {
            let mut bytes = SECOND.to_vec(rt.alloc())?;
            bytes[20..24].copy_from_slice(&named.to_le_bytes());
            bytes.extend_from_slice(&[0; 44])?;
            assert!(rt; next_block(&bytes, &link, 2).is_none(), "a length of {named}");
        }
    }
    // Also if the link is right for what there is.
    let block = Block {
        since: 2,
        version: 3,
        count: 3,
        entries: &ENTRIES,
    };
    let written = block_bytes(rt.alloc(), &link, &block)?;
    for named in [0, 11, 13, 44, 45, u32::MAX - 55, u32::MAX - 23, u32::MAX] {
        let mut bytes = written.bytes.as_slice().to_vec(rt.alloc())?;
        bytes[20..24].copy_from_slice(&named.to_le_bytes());
        assert!(rt; next_block(&bytes, &link, 2).is_none(), "a length of {named}");
    }
    assert!(rt; next_block(&written.bytes, &link, 2).is_some());
    Ok(())
}

#[test]
fn an_append_writes_over_a_torn_end(rt: HostRuntime) -> Result<(), Fail> {
    let short = Block {
        since: 2,
        version: 5,
        count: 4,
        entries: &[],
    };
    for torn in 0..80 {
        let mut file = HEAD.to_vec(rt.alloc())?;
        file.extend_from_slice(&FIRST)?;
        for k in 0..torn {
            file.push(k as u8)?;
        }
        append(rt.alloc(), &mut file, &short)?;
        check_end(&rt, end(&file), SECOND_END, 5, 4);
        assert_eq!(rt; file.len(), SECOND_END.max(FIRST_END + torn));
    }
    Ok(())
}

#[test]
fn many_blocks_and_the_greatest_numbers_are_read(rt: HostRuntime) -> Result<(), Fail> {
    let mut file = HEAD.to_vec(rt.alloc())?;
    let mut link = Link { bytes: [0; 32] };
    if let Some(first) = read_head(&file, &DIGEST) {
        link = first;
    }
    let entries = [0x5a; 300];
    for k in 0..300 {
        let version = if k == 299 { u64::MAX } else { k as u64 + 2 };
        let block = Block {
            since: k as u64 + 1,
            version,
            count: u32::MAX - k as u32,
            entries: &entries[..k],
        };
        let written = block_bytes(rt.alloc(), &link, &block)?;
        file.extend_from_slice(&written.bytes)?;
        link = written.link;
    }
    let last = Block {
        since: u64::MAX,
        version: 0,
        count: u32::MAX,
        entries: &ENTRIES,
    };
    let written = block_bytes(rt.alloc(), &link, &last)?;
    file.extend_from_slice(&written.bytes)?;
    check_end(&rt, end(&file), file.len(), 0, u32::MAX);
    file.pop();
    check_end(&rt, end(&file), file.len() - 67, u64::MAX, u32::MAX - 299);
    Ok(())
}
