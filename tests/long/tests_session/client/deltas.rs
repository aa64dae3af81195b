//! Hints moved forward by differences.

use super::*;

/// 66 records of one byte in one column, dimension 1: a hint of 66 words.
const ONE_COLUMN: Store = Store {
    profile: 1,
    width: 8,
    record_len: 1,
    groups: 66,
    count: 66,
    version: 1,
    dimension: 1,
};

/// 2,000 records of one byte in one column, dimension 1.
const LONG_COLUMN: Store = Store {
    groups: 2_000,
    count: 2_000,
    ..ONE_COLUMN
};

/// The frame that asks for the rows changed since version 1.
const ASKING: [u8; 13] = [8, 0, 0, 0, 4, 1, 0, 0, 0, 0, 0, 0, 0];

/// A Delta of these numbers of its head, each below 256, and of these numbers and words of its
/// rows.
fn delta(
    rt: &(impl Abort + AllocGlobal),
    since: u8,
    now: u8,
    count: u8,
    dimension: u8,
    rows: &[u32],
) -> Result<Vec<u8>, Fail> {
    assert!(rt; rows.len() <= 16_000);
    let len = 22 + 4 * rows.len();
    let head = [(len % 256) as u8, (len / 256) as u8, 0, 0, 0x84];
    let mut frame = Vec::from_slice(rt.alloc(), &head)?;
    for byte in [since, now] {
        frame.extend_from_slice(&[byte, 0, 0, 0, 0, 0, 0, 0])?;
    }
    frame.extend_from_slice(&[count, 0, 0, 0, dimension, 0])?;
    for word in rows {
        frame.extend_from_slice(&word.to_le_bytes())?;
    }
    Ok(frame)
}

/// A client that holds the hint of version 1, whose words are all 0, and has asked for the rows
/// changed since.
fn asking<K: Kernel>(
    rt: &(impl Abort + AllocGlobal),
    store: Store,
    kernel: K,
) -> Result<ClientCore<K>, Fail> {
    let hint = vec![in rt.alloc(); 0u32; store.groups as usize]?;
    let mut client = synced(rt, store, 0, hint.as_slice(), kernel)?;
    sends(rt, &mut client, Wanted::Sync(Scheme::Simple), 13, &ASKING)?;
    Ok(client)
}

fn goes_stale<K: Kernel>(
    rt: &(impl Abort + AllocGlobal),
    client: &mut ClientCore<K>,
    version: u64,
    count: u32,
) -> Result<(), Fail> {
    makes(client, Wanted::Ask(0))?;
    let frame = stale(rt, version, count)?;
    let wanted = format!(in rt.alloc(); "stale {version} ")?;
    feeds(rt, client, frame.as_slice(), &wanted)
}

fn two_publications_later<K: Kernel>(
    rt: &(impl Abort + AllocGlobal),
    client: &mut ClientCore<K>,
) -> Result<(), Fail> {
    goes_stale(rt, client, 3, 66)?;
    sends(rt, client, Wanted::Sync(Scheme::Simple), 13, &ASKING)?;
    refuses(rt, client, Wanted::Ask(0), CallFault::NotReady);
    let frame = delta(rt, 1, 3, 66, 1, &[5, 50, 7, 70])?;
    feeds(rt, client, frame.as_slice(), "synced simple 3 ")?;
    makes(client, Wanted::Ask(0))
}

#[test]
fn two_rows_after_two_publications(rt: HostRuntime) -> Result<(), Fail> {
    two_rows_after_two_publications_on(&rt, Plain)?;
    two_rows_after_two_publications_on(&rt, Lanes)
}

fn two_rows_after_two_publications_on<K: Kernel>(
    rt: &(impl Abort + AllocGlobal),
    kernel: K,
) -> Result<(), Fail> {
    let mut client = synced(rt, ONE_COLUMN, 0, &[0; 66], kernel)?;
    two_publications_later(rt, &mut client)
}

/// The words of the query in a frame, of which a server answers the digits 10 and 100 times these.
fn answered_word(rt: &(impl Abort + AllocGlobal), sent: &[u8]) -> Result<u32, Fail> {
    let mut frames = Vec::new(rt.alloc());
    Reader::new(rt.alloc()).feed(false, sent, &mut frames)?;
    let Some(Frame::Query { words, .. }) = frames.pop() else {
        panic!(rt; "no query");
    };
    let words = words.as_slice();
    assert_eq!(rt; words.len(), 2);
    let high = words[1].wrapping_mul(100);
    Ok(words[0].wrapping_mul(10).wrapping_add(high))
}

fn reads_with_a_moved_hint<K: Kernel>(
    rt: &(impl Abort + AllocGlobal),
    client: &mut ClientCore<K>,
) -> Result<(), Fail> {
    goes_stale(rt, client, 2, 2)?;
    makes(client, Wanted::Sync(Scheme::Simple))?;
    let frame = delta(rt, 1, 2, 2, 1, &[0, 586_782_492])?;
    feeds(rt, client, frame.as_slice(), "synced simple 2 ")?;
    let sent = call(client, Wanted::Ask(1))?;
    let word = answered_word(rt, sent.as_slice())?;
    let frame = answer(rt, 0, 2, &[word])?;
    feeds(rt, client, frame.as_slice(), "retrieved 1 2 64 ")
}

#[test]
fn a_record_read_with_a_moved_hint(rt: HostRuntime) -> Result<(), Fail> {
    a_record_read_with_a_moved_hint_on(&rt, Plain)?;
    a_record_read_with_a_moved_hint_on(&rt, Lanes)
}

fn a_record_read_with_a_moved_hint_on<K: Kernel>(
    rt: &(impl Abort + AllocGlobal),
    kernel: K,
) -> Result<(), Fail> {
    let mut client = synced(rt, TWO_RECORDS, 0, &[TWO_RECORDS_HINT], kernel)?;
    reads_with_a_moved_hint(rt, &mut client)
}

/// What a client of [`ONE_COLUMN`] that waits for a Delta makes of these bytes.
fn brings<K: Kernel>(
    rt: &(impl Abort + AllocGlobal),
    piece: &[u8],
    wanted: &str,
    kernel: K,
) -> Result<(), Fail> {
    let mut client = asking(rt, ONE_COLUMN, kernel)?;
    feeds(rt, &mut client, piece, wanted)
}

#[test]
fn deltas_of_bad_rows(rt: HostRuntime) -> Result<(), Fail> {
    deltas_of_bad_rows_on(&rt, Plain)?;
    deltas_of_bad_rows_on(&rt, Lanes)
}

fn deltas_of_bad_rows_on<K: Kernel>(
    rt: &(impl Abort + AllocGlobal),
    kernel: K,
) -> Result<(), Fail> {
    for numbers in [[7u32, 5], [5, 5], [5, 66]] {
        let frame = delta(rt, 1, 2, 66, 1, &[numbers[0], 0, numbers[1], 0])?;
        brings(rt, frame.as_slice(), "BadReply ", kernel)?;
    }
    for dimension in [0, 3] {
        let frame = delta(rt, 1, 2, 66, dimension, &[5, 6, 7, 8])?;
        brings(rt, frame.as_slice(), "BadReply ", kernel)?;
    }
    let frame = delta(rt, 1, 2, 66, 1, &[])?;
    brings(rt, frame.as_slice(), "synced simple 2 ", kernel)
}

#[test]
fn deltas_of_bad_heads(rt: HostRuntime) -> Result<(), Fail> {
    deltas_of_bad_heads_on(&rt, Plain)?;
    deltas_of_bad_heads_on(&rt, Lanes)
}

fn deltas_of_bad_heads_on<K: Kernel>(
    rt: &(impl Abort + AllocGlobal),
    kernel: K,
) -> Result<(), Fail> {
    for (since, now, count) in [(2u8, 2u8, 66u8), (0, 2, 66), (1, 0, 66), (1, 2, 0)] {
        let frame = delta(rt, since, now, count, 1, &[5, 0])?;
        brings(rt, frame.as_slice(), "BadReply ", kernel)?;
    }
    // any version but 0 may be named, also the one asked from
    let frame = delta(rt, 1, 1, 67, 1, &[65, 0])?;
    brings(rt, frame.as_slice(), "synced simple 1 ", kernel)
}

/// A Delta to version 2 of the rows below `count`.
fn takes_rows<K: Kernel>(
    rt: &(impl Abort + AllocGlobal),
    count: u32,
    wanted: &str,
    kernel: K,
) -> Result<(), Fail> {
    let mut rows = Vec::new(rt.alloc());
    for number in 0..count {
        rows.extend_from_slice(&[number, 1])?;
    }
    let frame = delta(rt, 1, 2, 200, 1, rows.as_slice())?;
    let mut client = asking(rt, LONG_COLUMN, kernel)?;
    feeds(rt, &mut client, frame.as_slice(), wanted)
}

#[test]
fn a_delta_has_at_most_1024_rows(rt: HostRuntime) -> Result<(), Fail> {
    a_delta_has_at_most_1024_rows_on(&rt, Plain)?;
    a_delta_has_at_most_1024_rows_on(&rt, Lanes)
}

fn a_delta_has_at_most_1024_rows_on<K: Kernel>(
    rt: &(impl Abort + AllocGlobal),
    kernel: K,
) -> Result<(), Fail> {
    takes_rows(rt, 1024, "synced simple 2 ", kernel)?;
    takes_rows(rt, 1025, "BadReply ", kernel)
}

fn goes_on_by_parts<K: Kernel>(
    rt: &(impl Abort + AllocGlobal),
    client: &mut ClientCore<K>,
) -> Result<(), Fail> {
    let frame = no_delta(rt, 2, 66)?;
    let asked = [13, 0, 0, 0, 3, 0, 2, 0, 0, 0, 0, 0, 0, 0, 0, 0, 0, 0];
    asks_on(rt, client, frame.as_slice(), "", &asked)?;
    refuses(rt, client, Wanted::Ask(0), CallFault::NotReady);
    let frame = part(rt, 0, 2, 0, &[1; 66])?;
    feeds(rt, client, frame.as_slice(), "synced simple 2 ")?;
    makes(client, Wanted::Ask(65))
}

#[test]
fn parts_where_there_is_no_delta(rt: HostRuntime) -> Result<(), Fail> {
    parts_where_there_is_no_delta_on(&rt, Plain)?;
    parts_where_there_is_no_delta_on(&rt, Lanes)
}

fn parts_where_there_is_no_delta_on<K: Kernel>(
    rt: &(impl Abort + AllocGlobal),
    kernel: K,
) -> Result<(), Fail> {
    let mut client = asking(rt, ONE_COLUMN, kernel)?;
    goes_on_by_parts(rt, &mut client)?;
    for (version, count) in [(0u64, 66u32), (2, 0)] {
        let frame = no_delta(rt, version, count)?;
        brings(rt, frame.as_slice(), "BadReply ", kernel)?;
    }
    Ok(())
}

fn refusal_leaves_the_hint<K: Kernel>(
    rt: &(impl Abort + AllocGlobal),
    client: &mut ClientCore<K>,
) -> Result<(), Fail> {
    refuses(rt, client, Wanted::Ask(0), CallFault::Busy);
    let frame = refused(rt, 12)?;
    feeds(rt, client, frame.as_slice(), "refused 12 ")?;
    makes(client, Wanted::Ask(0))
}

#[test]
fn a_sync_by_delta_keeps_the_hint(rt: HostRuntime) -> Result<(), Fail> {
    a_sync_by_delta_keeps_the_hint_on(&rt, Plain)?;
    a_sync_by_delta_keeps_the_hint_on(&rt, Lanes)
}

fn a_sync_by_delta_keeps_the_hint_on<K: Kernel>(
    rt: &(impl Abort + AllocGlobal),
    kernel: K,
) -> Result<(), Fail> {
    let mut client = asking(rt, ONE_COLUMN, kernel)?;
    refusal_leaves_the_hint(rt, &mut client)
}

#[test]
fn stale_and_parts_answer_no_sync_by_delta(rt: HostRuntime) -> Result<(), Fail> {
    stale_and_parts_answer_no_sync_by_delta_on(&rt, Plain)?;
    stale_and_parts_answer_no_sync_by_delta_on(&rt, Lanes)
}

fn stale_and_parts_answer_no_sync_by_delta_on<K: Kernel>(
    rt: &(impl Abort + AllocGlobal),
    kernel: K,
) -> Result<(), Fail> {
    let frame = stale(rt, 2, 66)?;
    brings(rt, frame.as_slice(), "BadReply ", kernel)?;
    let frame = part(rt, 0, 1, 0, &[0; 66])?;
    brings(rt, frame.as_slice(), "BadReply ", kernel)
}

/// A client that waits for the first part of a hint takes no reply to a sync by delta.
fn by_parts_alone<K: Kernel>(
    rt: &(impl Abort + AllocGlobal),
    piece: &[u8],
    kernel: K,
) -> Result<(), Fail> {
    let mut client = guest(rt, ONE_COLUMN, 0, kernel)?;
    makes(&mut client, Wanted::Sync(Scheme::Simple))?;
    feeds(rt, &mut client, piece, "BadReply ")
}

#[test]
fn a_sync_by_parts_takes_no_delta(rt: HostRuntime) -> Result<(), Fail> {
    a_sync_by_parts_takes_no_delta_on(&rt, Plain)?;
    a_sync_by_parts_takes_no_delta_on(&rt, Lanes)
}

fn a_sync_by_parts_takes_no_delta_on<K: Kernel>(
    rt: &(impl Abort + AllocGlobal),
    kernel: K,
) -> Result<(), Fail> {
    let frame = delta(rt, 1, 2, 66, 1, &[])?;
    by_parts_alone(rt, frame.as_slice(), kernel)?;
    let frame = no_delta(rt, 2, 66)?;
    by_parts_alone(rt, frame.as_slice(), kernel)
}

/// A client of [`ONE_RECORD`] that holds a hint of DoublePIR.
fn with_a_double_hint<K: Kernel>(
    rt: &(impl Abort + AllocGlobal),
    client: &mut ClientCore<K>,
) -> Result<(), Fail> {
    makes(client, Wanted::Sync(Scheme::Double))?;
    let frame = part(rt, 1, 1, 0, &[0; 6])?;
    feeds(rt, client, frame.as_slice(), "synced double 1 ")
}

#[test]
fn a_double_hint_is_never_moved(rt: HostRuntime) -> Result<(), Fail> {
    a_double_hint_is_never_moved_on(&rt, Plain)?;
    a_double_hint_is_never_moved_on(&rt, Lanes)
}

fn a_double_hint_is_never_moved_on<K: Kernel>(
    rt: &(impl Abort + AllocGlobal),
    kernel: K,
) -> Result<(), Fail> {
    for scheme in [Scheme::Double, Scheme::Simple] {
        let mut client = guest(rt, ONE_RECORD, 0, kernel)?;
        with_a_double_hint(rt, &mut client)?;
        sends(rt, &mut client, Wanted::Sync(scheme), 18, &[13, 0, 0, 0, 3])?;
        refuses(rt, &mut client, Wanted::Ask(0), CallFault::NotReady);
    }
    Ok(())
}
