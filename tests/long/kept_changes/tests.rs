//! The rows of records beside the whole hint, that hint moved, an ask and its replies. The longer
//! tests are in tests/long/tests_session. Proved by `tests/long/run --prove`.

ghost use Rattle.std.specs.Prelude.{◌≡◌, IfOk};

use kept_changes::{ChangesReply, hint_after, judged, rows_after};
use change_file::{Block, Link, block_bytes, head_bytes, read_head};
use client_core::{Hint, Plan, Scheme, ServerInfo};
use frame_codec::{Bytes, Frame};
use hint_changes::{PublicRow, are_entries, move_by_entries};
use matrix_u32::{Matrix, Plain};
use std::alloc::{AllocError, Global};
use std::test::Fail;

const DIGEST: [u8; 32] = [3; 32];

// Records of one byte, two to a column, and secrets of one word.
const PLAN: Plan = Plan {
    form: 129,
    width: 8,
    record_len: 1,
    groups: 2,
    dimension: 1,
    seed: [9; 32],
};

// Record 1 becomes `ff`, and record 2 is appended.
const ENTRIES: [u8; 12] = [1, 0, 0, 0, 0xc8, 0xff, 2, 0, 0, 0, 0, 7];

// The hint of version 1, of whatever two records.
fn hint(alloc: Global) -> Result<Hint, Fail>
    ensures rows { IfOk result (λ h. h.matrix.rows ≡ 2) }
    ensures cols { IfOk result (λ h. h.matrix.cols ≡ 1) }
{
    let words = [1000, 2000].to_vec(alloc)?;
    Ok(Hint {
        scheme: Scheme::Simple,
        version: 1,
        matrix: Matrix::from_words(2, 1, words)?,
    })
}

// A file of changes with one block, from version 1 to version 2.
fn file(alloc: Global) -> Result<Vec<u8>, AllocError> {
    let head = head_bytes(&DIGEST);
    let mut file = head.to_vec(alloc)?;
    if let Some(link) = read_head(&head, &DIGEST) {
        file.extend_from_slice(&block(alloc, &link)?)?;
    }
    Ok(file)
}

// Its block.
fn block(alloc: Global, link: &Link) -> Result<Vec<u8>, AllocError> {
    let block = Block {
        since: 1,
        version: 2,
        count: 3,
        entries: &ENTRIES,
    };
    Ok(block_bytes(alloc, link, &block)?.bytes)
}

// The row of a record in the whole hint after these changes.
fn row_of_the_whole(alloc: Global, index: usize) -> Result<u32, Fail> {
    let mut hint = hint(alloc)?;
    let mut public = PublicRow::new(alloc, &[9; 32], 1)?;
    let layout = PLAN.layout(3)?;
    if are_entries(&layout, &ENTRIES) {
        move_by_entries(Plain, &layout, &mut public, &mut hint.matrix, &ENTRIES);
    }
    Ok(hint.matrix.get(index % 2, 0))
}

// The row of a record and the version after the changes in bytes; none if they are of no use.
fn row_after(alloc: Global, bytes: &[u8], index: usize) -> Result<Option<(u32, u64)>, Fail> {
    let hint = hint(alloc)?;
    let after = rows_after(alloc, Plain, &PLAN, &DIGEST, bytes, hint, index)?;
    Ok(match after {
        None => None,
        Some(after) => Some((after.matrix.get(index % 2, 0), after.version)),
    })
}

#[test]
fn a_records_row_is_moved_as_in_the_whole_hint(rt: HostRuntime) -> Result<(), Fail> {
    let file = file(rt.alloc())?;
    for index in 0..3 {
        let row = row_of_the_whole(rt.alloc(), index)?;
        assert!(rt; row != 1000 && row != 2000);
        assert_eq!(rt; row_after(rt.alloc(), &file, index)?, Some((row, 2)));
    }
    assert_eq!(rt;
        row_after(rt.alloc(), &head_bytes(&DIGEST), 1)?,
        Some((2000, 1))
    );
    Ok(())
}

// The whole hint and its version after the changes in bytes; none if they are of no use.
fn whole_after(alloc: Global, bytes: &[u8]) -> Result<Option<([u32; 2], u64)>, Fail> {
    let hint = hint(alloc)?;
    let after = hint_after(alloc, Plain, &PLAN, &DIGEST, bytes, hint)?;
    Ok(match after {
        None => None,
        Some(after) => {
            let words = [after.matrix.get(0, 0), after.matrix.get(1, 0)];
            Some((words, after.version))
        }
    })
}

#[test]
fn the_whole_hint_is_moved_by_the_file(rt: HostRuntime) -> Result<(), Fail> {
    let file = file(rt.alloc())?;
    let words = [
        row_of_the_whole(rt.alloc(), 0)?,
        row_of_the_whole(rt.alloc(), 1)?,
    ];
    assert_eq!(rt; whole_after(rt.alloc(), &file)?, Some((words, 2)));
    assert_eq!(rt;
        whole_after(rt.alloc(), &head_bytes(&DIGEST))?,
        Some(([1000, 2000], 1))
    );
    Ok(())
}

// What a reply with the entries says to an ask since a version.
fn says(alloc: Global, asked: u64) -> Result<Option<(u64, u32)>, AllocError> {
    let known = ServerInfo {
        version: 1,
        count: 2,
        plan: PLAN,
    };
    let reply = Frame::Changes {
        since: 1,
        now: 2,
        count: 3,
        entries: Bytes::new(ENTRIES.to_vec(alloc)?),
    };
    Ok(match judged(&known, asked, &reply) {
        ChangesReply::Moves(block) if block.entries == ENTRIES.as_slice() => Some((
            block.version,
            block.count,
        )),
        _ => None,
    })
}

#[test]
fn changes_since_the_version_asked_are_a_block(rt: HostRuntime) -> Result<(), Fail> {
    assert_eq!(rt; says(rt.alloc(), 1)?, Some((2, 3)));
    assert_eq!(rt; says(rt.alloc(), 2)?, None);
    Ok(())
}
