//! Queries and answers, one after the other.

use super::answers::retrieves;
use super::*;

/// Asks for the one record, and takes an answer of these words.
fn answers<K: Kernel>(
    rt: &(impl Abort + AllocGlobal),
    client: &mut ClientCore<K>,
    words: &[u32],
    wanted: &str,
) -> Result<(), Fail> {
    makes(client, Wanted::Ask(0))?;
    let frame = answer(rt, 0, 1, words)?;
    feeds(rt, client, frame.as_slice(), wanted)
}

fn answers_in_turn<K: Kernel>(
    rt: &(impl Abort + AllocGlobal),
    client: &mut ClientCore<K>,
) -> Result<(), Fail> {
    let words = [2_885_681_152, 3_623_878_656, 805_306_368];
    answers(rt, client, &words, "retrieved 0 1 abcd ")?;
    let late = [2_885_681_152, 3_623_878_656, 1_073_741_824];
    answers(rt, client, &late, "unreadable 0 1 ")?;
    answers(rt, client, &words[..2], "BadReply ")?;
    refuses(rt, client, Wanted::Ask(0), CallFault::Failed);
    Ok(())
}

#[test]
fn three_answers(rt: HostRuntime) -> Result<(), Fail> {
    three_answers_on(&rt, Plain)?;
    three_answers_on(&rt, Lanes)
}

fn three_answers_on<K: Kernel>(rt: &(impl Abort + AllocGlobal), kernel: K) -> Result<(), Fail> {
    let mut client = synced(rt, ONE_RECORD, 0, &[0, 0, 0], kernel)?;
    answers_in_turn(rt, &mut client)
}

#[test]
fn the_last_number_of_a_seed(rt: HostRuntime) -> Result<(), Fail> {
    the_last_number_of_a_seed_on(&rt, Plain)?;
    the_last_number_of_a_seed_on(&rt, Lanes)
}

fn the_last_number_of_a_seed_on<K: Kernel>(
    rt: &(impl Abort + AllocGlobal),
    kernel: K,
) -> Result<(), Fail> {
    let last = (1 << 62) - 1;
    let mut client = synced(rt, TWO_RECORDS, last, &[TWO_RECORDS_HINT], kernel)?;
    refuses(rt, &mut client, Wanted::Ask(2), CallFault::BadIndex);
    counts(rt, &client, last);
    retrieves(rt, &mut client, 1, "retrieved 1 1 c8 ")?;
    counts(rt, &client, 1 << 62);
    refuses(rt, &mut client, Wanted::Ask(1), CallFault::SeedUsedUp);
    counts(rt, &client, 1 << 62);
    Ok(())
}

/// Asks for what has changed in the hint of version 1, which is nothing.
fn moves_to_two<K: Kernel>(
    rt: &(impl Abort + AllocGlobal),
    client: &mut ClientCore<K>,
) -> Result<(), Fail> {
    makes(client, Wanted::Sync(Scheme::Simple))?;
    let rows = Rows::new(1, Words::new(Vec::new(rt.alloc())));
    let moved = Frame::Delta {
        since: 1,
        now: 2,
        count: 2,
        rows,
    };
    let frame = encode(rt, moved)?;
    feeds(rt, client, frame.as_slice(), "synced simple 2 ")
}

fn asks_again_after_stale<K: Kernel>(
    rt: &(impl Abort + AllocGlobal),
    client: &mut ClientCore<K>,
) -> Result<(), Fail> {
    let first = call(client, Wanted::Ask(0))?;
    let frame = stale(rt, 2, 2)?;
    feeds(rt, client, frame.as_slice(), "stale 2 ")?;
    counts(rt, client, 8);
    refuses(rt, client, Wanted::Ask(0), CallFault::NotReady);
    moves_to_two(rt, client)?;
    let second = call(client, Wanted::Ask(0))?;
    counts(rt, client, 9);
    assert!(rt; first.len() == 22 && second.len() == 22);
    assert!(rt; first.as_slice()[14..] != second.as_slice()[14..]);
    Ok(())
}

#[test]
fn a_stale_query_spends_its_number(rt: HostRuntime) -> Result<(), Fail> {
    a_stale_query_spends_its_number_on(&rt, Plain)?;
    a_stale_query_spends_its_number_on(&rt, Lanes)
}

fn a_stale_query_spends_its_number_on<K: Kernel>(
    rt: &(impl Abort + AllocGlobal),
    kernel: K,
) -> Result<(), Fail> {
    let mut client = synced(rt, TWO_RECORDS, 7, &[TWO_RECORDS_HINT], kernel)?;
    asks_again_after_stale(rt, &mut client)
}

fn asks_again_after_a_refusal<K: Kernel>(
    rt: &(impl Abort + AllocGlobal),
    client: &mut ClientCore<K>,
) -> Result<(), Fail> {
    makes(client, Wanted::Ask(0))?;
    let frame = refused(rt, 12)?;
    feeds(rt, client, frame.as_slice(), "refused 12 ")?;
    makes(client, Wanted::Ask(0))?;
    counts(rt, client, 2);
    Ok(())
}

#[test]
fn a_refused_query_leaves_the_hint(rt: HostRuntime) -> Result<(), Fail> {
    a_refused_query_leaves_the_hint_on(&rt, Plain)?;
    a_refused_query_leaves_the_hint_on(&rt, Lanes)
}

fn a_refused_query_leaves_the_hint_on<K: Kernel>(
    rt: &(impl Abort + AllocGlobal),
    kernel: K,
) -> Result<(), Fail> {
    let mut client = synced(rt, ONE_RECORD, 0, &[0, 0, 0], kernel)?;
    asks_again_after_a_refusal(rt, &mut client)
}
