//! Queries that were prepared are those that are sent without.

use super::*;

/// Ten records of one byte in four columns.
const TEN: Store = Store {
    groups: 3,
    count: 10,
    ..TWO_RECORDS
};

const TEN_HINT: [u32; 3] = [1, 2, 3];

// Has no contract, as `call` has none.
fn prepares<K: Kernel>(client: &mut ClientCore<K>, count: usize) -> Result<(), Fail> {
    client.prepare_queries(count)?;
    Ok(())
}

fn skips_to_thirteen<K: Kernel>(client: &mut ClientCore<K>) {
    client.skip_to(13);
}

// Feeds a piece, and compares what is reported, whatever is then to be sent.
fn reports<K: Kernel>(
    rt: &(impl Abort + AllocGlobal),
    client: &mut ClientCore<K>,
    piece: &[u8],
    wanted: &str,
) -> Result<(), Fail> {
    let fed = client.feed(piece);
    assert_eq!(rt; reported(rt, &fed)?.as_str(), wanted);
    Ok(())
}

// A reply that ends an ask without a record.
fn refusal(rt: &(impl Abort + AllocGlobal)) -> Result<Vec<u8>, Fail> {
    refused(rt, 8)
}

// Both clients ask for a record, and send the same. Both are refused.
fn ask_alike<K: Kernel>(
    rt: &(impl Abort + AllocGlobal),
    prepared: &mut ClientCore<K>,
    bare: &mut ClientCore<K>,
    index: u32,
) -> Result<(), Fail> {
    let sent = call(prepared, Wanted::Ask(index))?;
    let wanted = call(bare, Wanted::Ask(index))?;
    assert_eq!(rt; sent.as_slice(), wanted.as_slice());
    let reply = refusal(rt)?;
    feeds(rt, prepared, reply.as_slice(), "refused 8 ")?;
    feeds(rt, bare, reply.as_slice(), "refused 8 ")?;
    assert_eq!(rt; prepared.next_number(), bare.next_number());
    Ok(())
}

fn asks_more_than_was_prepared<K: Kernel>(
    rt: &(impl Abort + AllocGlobal),
    kernel: K,
) -> Result<(), Fail> {
    let mut prepared = synced(rt, TEN, 5, &TEN_HINT, kernel)?;
    let mut bare = synced(rt, TEN, 5, &TEN_HINT, kernel)?;
    prepares(&mut prepared, 3)?;
    counts(rt, &prepared, 5);
    for index in [3, 5, 7, 9] {
        ask_alike(rt, &mut prepared, &mut bare, index)?;
    }
    prepares(&mut prepared, 2)?;
    ask_alike(rt, &mut prepared, &mut bare, 0)?;
    // The next one is prepared, so nothing is done.
    prepares(&mut prepared, 9)?;
    ask_alike(rt, &mut prepared, &mut bare, 0)?;
    ask_alike(rt, &mut prepared, &mut bare, 0)
}

#[test]
fn prepared_asks_send_the_same(rt: HostRuntime) -> Result<(), Fail> {
    asks_more_than_was_prepared(&rt, Plain)?;
    asks_more_than_was_prepared(&rt, Lanes)
}

// Asks for a hint of DoublePIR, and takes its four words.
fn fetches_double<K: Kernel>(
    rt: &(impl Abort + AllocGlobal),
    client: &mut ClientCore<K>,
) -> Result<(), Fail> {
    makes(client, Wanted::Sync(Scheme::Double))?;
    let frame = part(rt, 1, 1, 0, &[4, 3, 2, 1])?;
    feeds(rt, client, frame.as_slice(), "synced double 1 ")
}

// Asks by DoublePIR for one record more than was prepared. What is prepared then serves one ask of
// each scheme.
fn asks_by_both_schemes<K: Kernel>(
    rt: &(impl Abort + AllocGlobal),
    kernel: K,
) -> Result<(), Fail> {
    let mut prepared = guest(rt, TEN, 5, kernel)?;
    let mut bare = guest(rt, TEN, 5, kernel)?;
    prepares(&mut prepared, 3)?;
    fetches_double(rt, &mut prepared)?;
    fetches_double(rt, &mut bare)?;
    for index in [3, 5, 7, 9] {
        ask_alike(rt, &mut prepared, &mut bare, index)?;
    }
    prepares(&mut prepared, 2)?;
    ask_alike(rt, &mut prepared, &mut bare, 2)?;
    fetches(rt, &mut prepared, 1, &TEN_HINT)?;
    fetches(rt, &mut bare, 1, &TEN_HINT)?;
    ask_alike(rt, &mut prepared, &mut bare, 2)
}

#[test]
fn prepared_asks_of_double_send_the_same(rt: HostRuntime) -> Result<(), Fail> {
    asks_by_both_schemes(&rt, Plain)?;
    asks_by_both_schemes(&rt, Lanes)
}

// Two clients that are let in prepare before they have a hint, one of them after it has left
// numbers alone.
fn prepares_without_a_hint<K: Kernel>(
    rt: &(impl Abort + AllocGlobal),
    kernel: K,
) -> Result<(), Fail> {
    let mut prepared = newcomer(rt, 0, kernel);
    prepares(&mut prepared, 4)?;
    let_in(rt, &mut prepared, TEN)?;
    let mut bare = guest(rt, TEN, 0, kernel)?;
    prepares(&mut prepared, 40)?;
    fetches(rt, &mut prepared, 1, &TEN_HINT)?;
    fetches(rt, &mut bare, 1, &TEN_HINT)?;
    ask_alike(rt, &mut prepared, &mut bare, 1)?;
    skips_to_thirteen(&mut prepared);
    skips_to_thirteen(&mut bare);
    for index in [2, 4, 6, 8] {
        ask_alike(rt, &mut prepared, &mut bare, index)?;
    }
    Ok(())
}

#[test]
fn preparing_needs_no_hint(rt: HostRuntime) -> Result<(), Fail> {
    prepares_without_a_hint(&rt, Plain)?;
    prepares_without_a_hint(&rt, Lanes)
}

// A version of more columns is published, and its hint fetched.
fn moves_to_thirteen<K: Kernel>(
    rt: &(impl Abort + AllocGlobal),
    client: &mut ClientCore<K>,
) -> Result<(), Fail> {
    makes(client, Wanted::Ask(0))?;
    let reply = stale(rt, 2, 13)?;
    feeds(rt, client, reply.as_slice(), "stale 2 ")?;
    makes(client, Wanted::Sync(Scheme::Simple))?;
    let reply = no_delta(rt, 2, 13)?;
    reports(rt, client, reply.as_slice(), "")?;
    let reply = part(rt, 0, 2, 0, &TEN_HINT)?;
    feeds(rt, client, reply.as_slice(), "synced simple 2 ")
}

fn asks_of_more_columns<K: Kernel>(
    rt: &(impl Abort + AllocGlobal),
    kernel: K,
) -> Result<(), Fail> {
    let mut prepared = synced(rt, TEN, 0, &TEN_HINT, kernel)?;
    let mut bare = synced(rt, TEN, 0, &TEN_HINT, kernel)?;
    prepares(&mut prepared, 16)?;
    moves_to_thirteen(rt, &mut prepared)?;
    moves_to_thirteen(rt, &mut bare)?;
    ask_alike(rt, &mut prepared, &mut bare, 12)?;
    prepares(&mut prepared, 2)?;
    ask_alike(rt, &mut prepared, &mut bare, 12)?;
    ask_alike(rt, &mut prepared, &mut bare, 3)
}

#[test]
fn masks_of_fewer_columns_are_left(rt: HostRuntime) -> Result<(), Fail> {
    asks_of_more_columns(&rt, Plain)?;
    asks_of_more_columns(&rt, Lanes)
}

// The last numbers of a seed.
fn prepares_the_last_numbers<K: Kernel>(
    rt: &(impl Abort + AllocGlobal),
    kernel: K,
) -> Result<(), Fail> {
    let last = (1 << 62) - 2;
    let mut prepared = synced(rt, TEN, last, &TEN_HINT, kernel)?;
    let mut bare = synced(rt, TEN, last, &TEN_HINT, kernel)?;
    prepares(&mut prepared, 16)?;
    ask_alike(rt, &mut prepared, &mut bare, 9)?;
    ask_alike(rt, &mut prepared, &mut bare, 9)?;
    prepares(&mut prepared, 16)?;
    refuses(rt, &mut prepared, Wanted::Ask(9), CallFault::SeedUsedUp);
    Ok(())
}

#[test]
fn no_number_is_prepared_past_the_last(rt: HostRuntime) -> Result<(), Fail> {
    prepares_the_last_numbers(&rt, Plain)?;
    prepares_the_last_numbers(&rt, Lanes)
}
