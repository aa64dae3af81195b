//! Logs that are torn at each length, that have each byte changed, and whose entries are in
//! another's place.

use super::worked::example;
use super::{FIRST_LEN, HEADER_LEN, header, part};
use publication_log::{BadLog, LogHeader, LogReadFault, read_log};
use std::alloc::Global;
use std::test::Fail;

// How many bytes the example has.
const LEN: usize = 191;

// How many bytes of a log are good, or what is wrong with it.
fn good_len(alloc: Global, header: &LogHeader, bytes: &[u8]) -> Result<usize, LogReadFault> {
    Ok(read_log(alloc, header, bytes)?.len)
}

// What is wrong with a log.
fn bad(cause: BadLog) -> Result<usize, LogReadFault> {
    Err(LogReadFault::Bad(cause))
}

#[test]
fn an_end_that_is_torn_anywhere_is_found(rt: HostRuntime) -> Result<(), Fail> {
    let log = example(rt.alloc())?;
    for len in 0..=log.len() {
        let wanted = if len < HEADER_LEN {
            bad(BadLog::OtherSnapshot)
        } else if len < FIRST_LEN {
            Ok(HEADER_LEN)
        } else if len < LEN {
            Ok(FIRST_LEN)
        } else {
            Ok(LEN)
        };
        assert_eq!(rt; good_len(rt.alloc(), &header(), part(&log, 0, len)), wanted);
    }
    Ok(())
}

// The bytes with some bits of one of them turned over.
fn turned(alloc: Global, bytes: &[u8], at: usize, bits: u8) -> Result<Vec<u8>, Fail> {
    let mut changed = bytes.to_vec(alloc)?;
    if let Some(byte) = changed.get_mut(at) {
        *byte ^= bits;
    }
    Ok(changed)
}

#[test]
fn a_changed_byte_is_a_torn_end_only_in_the_last_entry(rt: HostRuntime) -> Result<(), Fail> {
    let log = example(rt.alloc())?;
    for at in 0..LEN {
        let wanted = if at < HEADER_LEN {
            bad(BadLog::OtherSnapshot)
        } else if at < FIRST_LEN {
            bad(BadLog::Damaged)
        } else {
            Ok(FIRST_LEN)
        };
        for bits in [1, 2, 4, 8, 16, 32, 64, 128, 255] {
            let changed = turned(rt.alloc(), &log, at, bits)?;
            assert_eq!(rt; good_len(rt.alloc(), &header(), &changed), wanted);
        }
    }
    Ok(())
}

// These parts of the bytes, one after another.
fn joined(alloc: Global, bytes: &[u8], parts: &[(usize, usize)]) -> Result<Vec<u8>, Fail> {
    let mut all = Vec::new(alloc);
    for (start, end) in parts {
        all.extend_from_slice(part(bytes, *start, *end))?;
    }
    Ok(all)
}

#[test]
fn an_entry_in_anothers_place_is_not_read(rt: HostRuntime) -> Result<(), Fail> {
    let log = example(rt.alloc())?;
    let first = (HEADER_LEN, FIRST_LEN);
    let second = (FIRST_LEN, LEN);
    let head = (0, HEADER_LEN);
    // Twice in a row, with the next one after it and without.
    let twice = joined(rt.alloc(), &log, &[head, first, first, second])?;
    assert_eq!(rt;
        good_len(rt.alloc(), &header(), &twice),
        bad(BadLog::Damaged)
    );
    let twice = joined(rt.alloc(), &log, &[head, first, second, second])?;
    assert_eq!(rt; good_len(rt.alloc(), &header(), &twice), Ok(LEN));
    // The second in the place of the first, and before it.
    let missing = joined(rt.alloc(), &log, &[head, second])?;
    assert_eq!(rt; good_len(rt.alloc(), &header(), &missing), Ok(HEADER_LEN));
    let swapped = joined(rt.alloc(), &log, &[head, second, first])?;
    assert_eq!(rt; good_len(rt.alloc(), &header(), &swapped), Ok(HEADER_LEN));
    Ok(())
}

#[test]
fn a_log_of_another_snapshot_is_refused(rt: HostRuntime) -> Result<(), Fail> {
    let log = example(rt.alloc())?;
    let mut other = header();
    other.version = 2;
    assert_eq!(rt;
        good_len(rt.alloc(), &other, &log),
        bad(BadLog::OtherSnapshot)
    );
    // Its entries do not go on from this log's header either.
    let mut mixed = other.to_bytes(rt.alloc())?;
    mixed.extend_from_slice(part(&log, HEADER_LEN, LEN))?;
    assert_eq!(rt; good_len(rt.alloc(), &other, &mixed), bad(BadLog::Damaged));
    mixed.truncate(FIRST_LEN);
    assert_eq!(rt; good_len(rt.alloc(), &other, &mixed), Ok(HEADER_LEN));
    Ok(())
}
