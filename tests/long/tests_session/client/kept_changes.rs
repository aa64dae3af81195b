//! Rows of single records that are moved by a file of changes: beside hints that a model in another
//! language makes from scratch, and beside those of a store; files that are cut or damaged at each
//! byte, or of no use; and replies of all kinds to an ask.

use super::changes::{CHANGED, HINT, MOVED};
use change_file::{Block, block_bytes, end_in, head_bytes};
use client_core::{Hint, Plan, Scheme, ServerInfo};
use frame_codec::{Bytes, Frame, Words};
use kept_changes::{ChangesReply, changes_ask, judged, rows_after};
use lane_kernels::Lanes;
use matrix_u32::{Kernel, Matrix, Plain};
use std::alloc::{AllocError, Global};
use std::process::Abort;
use std::test::Fail;
use test_support::TWO_RECORDS;
use version_store::{Header, Store};

const DIGEST: [u8; 32] = [3; 32];

// The plan of the five records whose hint is HINT.
const PLAN: Plan = Plan {
    form: 129,
    width: 6,
    record_len: 2,
    groups: 2,
    dimension: 2,
    seed: [0; 32],
};

// Records 1, 2 and 5 are again what they were.
const BACK: [u8; 24] = [
    1, 0, 0, 0, 0x00, 0x10, 0xff, 0xff, 2, 0, 0, 0, 0x31, 0x41, 0x30, 0x41, 5, 0, 0, 0, 0x77, 0xaa,
    0, 0,
];

const HEAD_LEN: usize = 72;

// Where the block of CHANGED ends, and that of BACK.
const FIRST_END: usize = HEAD_LEN + 56 + 24;

const SECOND_END: usize = FIRST_END + 56 + 24;

// A file with a block more, from the version before to the next.
fn append(
    alloc: Global,
    file: &mut Vec<u8>,
    first: u64,
    count: u32,
    entries: &[u8],
) -> Result<(), Fail> {
    let Some(end) = end_in(file, &DIGEST, first, count) else {
        return Err(Fail::new("the file has another head"));
    };
    let block = Block {
        since: end.version,
        version: end.version + 1,
        count,
        entries,
    };
    file.extend_from_slice(&block_bytes(alloc, &end.link, &block)?.bytes)?;
    Ok(())
}

// The file of both blocks, from version 1 on.
fn example(alloc: Global) -> Result<Vec<u8>, Fail> {
    let mut file = head_bytes(&DIGEST).to_vec(alloc)?;
    append(alloc, &mut file, 1, 6, &CHANGED)?;
    append(alloc, &mut file, 1, 6, &BACK)?;
    Ok(file)
}

// How many rows of digits a record has.
fn digits_of(plan: &Plan) -> usize {
    (8 * usize::from(plan.record_len) + usize::from(plan.width) - 1) / usize::from(plan.width)
}

// The words of a hint in which a record has its digits.
fn words_of<'a>(plan: &Plan, words: &'a [u32], index: usize) -> &'a [u32] {
    let len = digits_of(plan) * usize::from(plan.dimension);
    let at = index % usize::from(plan.groups) * len;
    &words[at..at + len]
}

// The hint of a version of which only the rows of a record are there, and zeros for the others.
fn partly(
    alloc: Global,
    plan: &Plan,
    whole: &[u32],
    version: u64,
    index: usize,
) -> Result<Hint, Fail> {
    let mut words = Vec::from_elem(alloc, 0u32, whole.len())?;
    let rows = words_of(plan, whole, index);
    let at = index % usize::from(plan.groups) * rows.len();
    words[at..at + rows.len()].copy_from_slice(rows);
    let cols = usize::from(plan.dimension);
    Ok(Hint {
        scheme: Scheme::Simple,
        version,
        matrix: Matrix::from_words(whole.len() / cols, cols, words)?,
    })
}

// The rows of a record and their version after a file of changes; none if it is of no use.
fn moved_by<K: Kernel>(
    alloc: Global,
    kernel: K,
    digest: &[u8; 32],
    file: &[u8],
    index: usize,
) -> Result<Option<Hint>, Fail> {
    let hint = partly(alloc, &PLAN, &HINT, 1, index)?;
    Ok(rows_after(alloc, kernel, &PLAN, digest, file, hint, index)?)
}

// The rows of each record are those of a hint of this version.
fn are_rows_of<K: Kernel>(
    rt: &(impl Abort + AllocGlobal),
    kernel: K,
    file: &[u8],
    version: u64,
    words: &[u32],
) -> Result<(), Fail> {
    for index in 0..6 {
        match moved_by(rt.alloc(), kernel, &DIGEST, file, index)? {
            Some(after) => {
                assert_eq!(rt; after.version, version, "{index}");
                assert!(rt; after.scheme == Scheme::Simple);
                assert_eq!(rt;
                    words_of(&PLAN, after.matrix.words(), index),
                    words_of(&PLAN, words, index),
                    "{index}"
                );
            }
            None => panic!(rt; "the file is of no use"),
        }
    }
    Ok(())
}

fn worked_rows<K: Kernel>(rt: &(impl Abort + AllocGlobal), kernel: K) -> Result<(), Fail> {
    let file = example(rt.alloc())?;
    assert_eq!(rt; file.len(), SECOND_END);
    are_rows_of(rt, kernel, &file[..HEAD_LEN], 1, &HINT)?;
    are_rows_of(rt, kernel, &file[..FIRST_END], 2, &MOVED)?;
    are_rows_of(rt, kernel, &file, 3, &HINT)
}

#[test]
fn rows_are_those_of_the_models_hints(rt: HostRuntime) -> Result<(), Fail> {
    worked_rows(&rt, Plain)?;
    worked_rows(&rt, Lanes)
}

// The rows and the version after so many blocks of the example.
fn is_after<K: Kernel>(
    rt: &(impl Abort + AllocGlobal),
    kernel: K,
    file: &[u8],
    blocks: usize,
) -> Result<(), Fail> {
    match blocks {
        0 => are_rows_of(rt, kernel, file, 1, &HINT),
        1 => are_rows_of(rt, kernel, file, 2, &MOVED),
        _ => are_rows_of(rt, kernel, file, 3, &HINT),
    }
}

// How many blocks are whole in so many bytes.
fn whole_blocks(len: usize) -> usize {
    if len < FIRST_END {
        0
    } else if len < SECOND_END {
        1
    } else {
        2
    }
}

#[test]
fn a_file_that_is_cut_is_read_up_to_its_last_whole_block(rt: HostRuntime) -> Result<(), Fail> {
    let mut file = example(rt.alloc())?;
    for len in 0..file.len() {
        is_after(&rt, Lanes, &file[..len], whole_blocks(len))?;
    }
    file.extend_from_slice(&CHANGED)?;
    is_after(&rt, Lanes, &file, 2)
}

#[test]
fn nothing_is_moved_by_a_damaged_block_or_one_after_it(rt: HostRuntime) -> Result<(), Fail> {
    let mut file = example(rt.alloc())?;
    for k in 0..file.len() {
        file[k] ^= 1;
        is_after(&rt, Lanes, &file, whole_blocks(k))?;
        file[k] ^= 1;
    }
    is_after(&rt, Lanes, &file, 2)
}

#[test]
fn changes_of_another_hint_move_nothing(rt: HostRuntime) -> Result<(), Fail> {
    let file = example(rt.alloc())?;
    for index in 0..6 {
        match moved_by(rt.alloc(), Plain, &[4; 32], &file, index)? {
            Some(after) => {
                assert_eq!(rt; after.version, 1);
                assert_eq!(rt;
                    words_of(&PLAN, after.matrix.words(), index),
                    words_of(&PLAN, &HINT, index)
                );
            }
            None => panic!(rt; "another hint's changes are of no use"),
        }
    }
    Ok(())
}

#[test]
fn changes_from_another_version_move_nothing(rt: HostRuntime) -> Result<(), Fail> {
    let mut file = head_bytes(&DIGEST).to_vec(rt.alloc())?;
    append(rt.alloc(), &mut file, 2, 6, &CHANGED)?;
    is_after(&rt, Plain, &file, 0)
}

// A block that no server has written, after a good one: for each record the file is of no use.
fn is_of_no_use(rt: &(impl Abort + AllocGlobal), count: u32, entries: &[u8]) -> Result<(), Fail> {
    for good in 0..2usize {
        let mut file = head_bytes(&DIGEST).to_vec(rt.alloc())?;
        if good == 1 {
            append(rt.alloc(), &mut file, 1, 6, &CHANGED)?;
        }
        append(rt.alloc(), &mut file, 1, count, entries)?;
        append(rt.alloc(), &mut file, 1, 6, &BACK)?;
        for index in 0..6 {
            assert!(rt;
                moved_by(rt.alloc(), Lanes, &DIGEST, &file, index)?.is_none(),
                "{count} {index}"
            );
        }
    }
    Ok(())
}

#[test]
fn a_file_with_a_block_of_no_records_is_of_no_use(rt: HostRuntime) -> Result<(), Fail> {
    is_of_no_use(&rt, 5, &CHANGED)?;
    is_of_no_use(&rt, 0, &[])?;
    is_of_no_use(&rt, 65_537, &CHANGED)?;
    is_of_no_use(&rt, u32::MAX, &CHANGED)?;
    is_of_no_use(&rt, 6, &CHANGED[..23])?;
    is_of_no_use(&rt, 6, &[2, 0, 0, 0, 1, 1, 1, 1, 1, 0, 0, 0, 2, 2, 2, 2])?;
    is_of_no_use(&rt, 6, &[1, 0, 0, 0, 1, 1, 1, 1, 1, 0, 0, 0, 2, 2, 2, 2])
}

// ---- beside a store

// A wide store of so many records, each of one byte: in slots or not.
fn store_of<K: Kernel>(alloc: Global, kernel: K, form: u8, count: u32) -> Result<Store<K>, Fail> {
    let mut bytes = Vec::new(alloc);
    for i in 0..count {
        if form == 130 {
            bytes.extend_from_slice(&[1, 0, i as u8, 0])?;
        } else {
            bytes.push(i as u8)?;
        }
    }
    let header = Header {
        form,
        record_len: if form == 130 { 4 } else { 1 },
        groups: 3,
        count,
        dimension: 100,
        ..TWO_RECORDS
    };
    Ok(Store::open(alloc, kernel, header.with_records(bytes))?)
}

// Some records change, one is appended, and the next version has them.
fn publish<K: Kernel>(store: &mut Store<K>, turn: usize) -> Result<(), Fail> {
    for i in 0..5 {
        if i % (turn + 1) == 0 {
            store.edit(i, &[(10 * turn + i) as u8])?;
        }
    }
    store.append(&[200 + turn as u8])?;
    store.publish()?;
    Ok(())
}

// The words of a store's hint.
fn hint_of<K: Kernel>(alloc: Global, store: &Store<K>) -> Result<Vec<u32>, AllocError> {
    store
        .hint_words(Scheme::Simple, 0)
        .unwrap_or(&[])
        .to_vec(alloc)
}

// A folder's file of changes is appended to at each version, or now and then: the rows of each
// record are those of the store's hint.
fn follows_a_store<K: Kernel>(
    rt: &(impl Abort + AllocGlobal),
    kernel: K,
    form: u8,
    every: usize,
) -> Result<(), Fail> {
    let alloc = rt.alloc();
    let mut store = store_of(alloc, kernel, form, 5)?;
    let plan = *store.plan();
    let first = hint_of(alloc, &store)?;
    let mut file = head_bytes(&DIGEST).to_vec(alloc)?;
    let mut since = store.version();
    for turn in 0..8usize {
        publish(&mut store, turn)?;
        if turn % every != 0 {
            continue;
        }
        let Some(entries) = store.changes_since(since, 10_000)? else {
            return Err(Fail::new("the store doesn't know what changed"));
        };
        let reply = Frame::Changes {
            since,
            now: store.version(),
            count: store.layout().count() as u32,
            entries: Bytes::new(entries),
        };
        let known = ServerInfo {
            version: since,
            count: 5,
            plan,
        };
        let ChangesReply::Moves(block) = judged(&known, since, &reply) else {
            return Err(Fail::new("the changes aren't taken"));
        };
        let Some(end) = end_in(&file, &DIGEST, 1, 5) else {
            return Err(Fail::new("the file has another head"));
        };
        file.extend_from_slice(&block_bytes(alloc, &end.link, &block)?.bytes)?;
        since = store.version();
        let whole = hint_of(alloc, &store)?;
        for index in 0..store.layout().count() {
            let hint = partly(alloc, &plan, &first, 1, index)?;
            let Some(after) = rows_after(alloc, kernel, &plan, &DIGEST, &file, hint, index)? else {
                return Err(Fail::new("the file is of no use"));
            };
            assert_eq!(rt; after.version, since);
            assert_eq!(rt;
                words_of(&plan, after.matrix.words(), index),
                words_of(&plan, &whole, index),
                "{turn} {index}"
            );
        }
    }
    Ok(())
}

#[test]
fn rows_follow_a_store(rt: HostRuntime) -> Result<(), Fail> {
    for form in [129, 130] {
        for every in 1..4 {
            follows_a_store(&rt, Plain, form, every)?;
            follows_a_store(&rt, Lanes, form, every)?;
        }
    }
    Ok(())
}

// ---- replies

#[test]
fn an_ask_has_its_version(rt: HostRuntime) -> Result<(), Fail> {
    assert_eq!(rt;
        changes_ask(rt.alloc(), 0x0102_0304_0506_0708)?.as_slice(),
        [8, 0, 0, 0, 10, 8, 7, 6, 5, 4, 3, 2, 1].as_slice()
    );
    Ok(())
}

// Changes since version 1.
fn changes(alloc: Global, now: u64, count: u32, entries: &[u8]) -> Result<Frame, AllocError> {
    Ok(Frame::Changes {
        since: 1,
        now,
        count,
        entries: Bytes::new(entries.to_vec(alloc)?),
    })
}

fn says<'a>(since: u64, reply: &'a Frame) -> ChangesReply<'a> {
    let known = ServerInfo {
        version: 1,
        count: 5,
        plan: PLAN,
    };
    judged(&known, since, reply)
}

// A reply that is none to an ask since a version.
fn is_other(rt: &impl Abort, since: u64, reply: Frame) {
    match says(since, &reply) {
        ChangesReply::Other => {}
        _ => panic!(rt; "a reply is taken"),
    }
}

#[test]
fn changes_are_the_frames(rt: HostRuntime) -> Result<(), Fail> {
    for (now, count, len) in [(2, 6, 24), (u64::MAX, 65_536, 16), (1, 1, 0)] {
        let reply = changes(rt.alloc(), now, count, &CHANGED[..len])?;
        match says(1, &reply) {
            ChangesReply::Moves(block) => {
                assert_eq!(rt; block.since, 1);
                assert_eq!(rt; block.version, now);
                assert_eq!(rt; block.count, count);
                assert_eq!(rt; block.entries, &CHANGED[..len]);
            }
            _ => panic!(rt; "{now}"),
        }
    }
    Ok(())
}

#[test]
fn changes_that_cannot_be_are_none(rt: HostRuntime) -> Result<(), Fail> {
    for since in [0, 2, u64::MAX] {
        is_other(&rt, since, changes(rt.alloc(), 2, 6, &CHANGED)?);
    }
    is_other(&rt, 1, changes(rt.alloc(), 0, 6, &CHANGED)?);
    for count in [0, 5, 65_537, u32::MAX] {
        is_other(&rt, 1, changes(rt.alloc(), 2, count, &CHANGED)?);
    }
    for len in 0..24 {
        if len % 8 != 0 {
            is_other(&rt, 1, changes(rt.alloc(), 2, 6, &CHANGED[..len])?);
        }
    }
    is_other(
        &rt,
        1,
        changes(
            rt.alloc(),
            2,
            6,
            &[1, 0, 0, 0, 1, 1, 1, 1, 1, 0, 0, 0, 1, 1, 1, 1],
        )?,
    );
    Ok(())
}

#[test]
fn other_frames_are_no_changes(rt: HostRuntime) -> Result<(), Fail> {
    for (version, count) in [(1, 5), (0, 0), (7, u32::MAX)] {
        match says(1, &Frame::NoDelta { version, count }) {
            ChangesReply::NoChanges => {}
            _ => panic!(rt; "{version}"),
        }
    }
    is_other(&rt, 1, Frame::ChangesAsk { since: 1 });
    is_other(
        &rt,
        1,
        Frame::Stale {
            version: 2,
            count: 6,
        },
    );
    is_other(&rt, 1, Frame::Done { version: 2 });
    is_other(&rt, 1, Frame::Refused { code: 7 });
    is_other(&rt, 1, Frame::Bye);
    let words = Words::new(Vec::new(rt.alloc()));
    is_other(
        &rt,
        1,
        Frame::Answer {
            scheme: 0,
            version: 2,
            words,
        },
    );
    Ok(())
}
