//! Each call's bytes and refusals.

use super::*;
use client_core::{Plan, ServerInfo};

fn edits_and_publishes<K: Kernel>(
    rt: &(impl Abort + AllocGlobal),
    client: &mut ClientCore<K>,
) -> Result<(), Fail> {
    sends(
        rt,
        client,
        Wanted::Edit(1, 0x64),
        10,
        &[5, 0, 0, 0, 6, 1, 0, 0, 0, 0x64],
    )?;
    let frame = done(rt, 1)?;
    feeds(rt, client, frame.as_slice(), "done 1 ")?;
    sends(rt, client, Wanted::Publish, 5, &[0, 0, 0, 0, 7])?;
    let frame = done(rt, 2)?;
    feeds(rt, client, frame.as_slice(), "done 2 ")
}

#[test]
fn hello_edit_and_publish(rt: HostRuntime) -> Result<(), Fail> {
    hello_edit_and_publish_on(&rt, Plain)?;
    hello_edit_and_publish_on(&rt, Lanes)
}

fn hello_edit_and_publish_on<K: Kernel>(
    rt: &(impl Abort + AllocGlobal),
    kernel: K,
) -> Result<(), Fail> {
    let mut client = newcomer(rt, 5, kernel);
    counts(rt, &client, 5);
    let prefix = [34, 0, 0, 0, 2, 2, 0, 9, 0];
    sends(rt, &mut client, Wanted::Hello(9), 39, &prefix)?;
    let frame = welcome(rt, TWO_RECORDS)?;
    feeds(rt, &mut client, frame.as_slice(), "welcomed 1 ")?;
    edits_and_publishes(rt, &mut client)
}

// A record appended that the server takes, and one that it has no room for.
fn appends<K: Kernel>(
    rt: &(impl Abort + AllocGlobal),
    client: &mut ClientCore<K>,
) -> Result<(), Fail> {
    sends(rt, client, Wanted::Append(5), 6, &[1, 0, 0, 0, 9, 5])?;
    refuses(rt, client, Wanted::Append(6), CallFault::Busy);
    let frame = done(rt, 1)?;
    feeds(rt, client, frame.as_slice(), "done 1 ")?;
    makes(client, Wanted::Append(6))?;
    let frame = refused(rt, 14)?;
    feeds(rt, client, frame.as_slice(), "refused 14 ")?;
    // neither changed what is known of the store, nor the next number
    assert_eq!(rt; client.known(), info_of(TWO_RECORDS, 1, 2));
    counts(rt, client, 5);
    Ok(())
}

#[test]
fn records_are_appended(rt: HostRuntime) -> Result<(), Fail> {
    records_are_appended_on(&rt, Plain)?;
    records_are_appended_on(&rt, Lanes)
}

fn records_are_appended_on<K: Kernel>(
    rt: &(impl Abort + AllocGlobal),
    kernel: K,
) -> Result<(), Fail> {
    let mut client = guest(rt, TWO_RECORDS, 5, kernel)?;
    appends(rt, &mut client)?;
    // a record of no bytes is the server's to judge, and of the most bytes as well
    let sent = client.append(&[])?;
    assert_eq!(rt; sent.as_slice(), [0, 0, 0, 0, 9].as_slice());
    let frame = refused(rt, 7)?;
    feeds(rt, &mut client, frame.as_slice(), "refused 7 ")?;
    let sent = client.append(&[7; 65_535])?;
    assert_eq!(rt; sent.len(), 65_540);
    assert_eq!(rt; &sent[..6], [0xff, 0xff, 0, 0, 9, 7].as_slice());
    Ok(())
}

fn syncs_after_a_publication<K: Kernel>(
    rt: &(impl Abort + AllocGlobal),
    client: &mut ClientCore<K>,
) -> Result<(), Fail> {
    makes(client, Wanted::Publish)?;
    let frame = done(rt, 2)?;
    feeds(rt, client, frame.as_slice(), "done 2 ")?;
    // Done sets no version: the hint of version 1 is asked for
    let prefix = [13, 0, 0, 0, 3, 0, 1, 0];
    sends(rt, client, Wanted::Sync(Scheme::Simple), 18, &prefix)?;
    let frame = part(rt, 0, 1, 0, &[0])?;
    feeds(rt, client, frame.as_slice(), "synced simple 1 ")
}

#[test]
fn sync_and_ask(rt: HostRuntime) -> Result<(), Fail> {
    sync_and_ask_on(&rt, Plain)?;
    sync_and_ask_on(&rt, Lanes)
}

fn sync_and_ask_on<K: Kernel>(rt: &(impl Abort + AllocGlobal), kernel: K) -> Result<(), Fail> {
    let mut client = guest(rt, TWO_RECORDS, 5, kernel)?;
    syncs_after_a_publication(rt, &mut client)?;
    let prefix = [17, 0, 0, 0, 5, 0, 1, 0];
    sends(rt, &mut client, Wanted::Ask(1), 22, &prefix)?;
    counts(rt, &client, 6);
    Ok(())
}

// Not ready comes before busy, before an index and before the seed's end.
fn is_not_ready<K: Kernel>(rt: &impl Abort, client: &mut ClientCore<K>) {
    for wanted in [
        Wanted::Ask(99),
        Wanted::Sync(Scheme::Simple),
        Wanted::Edit(0, 1),
        Wanted::Append(1),
        Wanted::Publish,
    ] {
        refuses(rt, client, wanted, CallFault::NotReady);
    }
}

fn greets_twice<K: Kernel>(
    rt: &(impl Abort + AllocGlobal),
    client: &mut ClientCore<K>,
) -> Result<(), Fail> {
    makes(client, Wanted::Hello(0))?;
    is_not_ready(rt, client);
    refuses(rt, client, Wanted::Hello(0), CallFault::Busy);
    let frame = refused(rt, 4)?;
    feeds(rt, client, frame.as_slice(), "refused 4 ")?;
    makes(client, Wanted::Hello(0))
}

#[test]
fn before_the_welcome(rt: HostRuntime) -> Result<(), Fail> {
    before_the_welcome_on(&rt, Plain)?;
    before_the_welcome_on(&rt, Lanes)
}

fn before_the_welcome_on<K: Kernel>(
    rt: &(impl Abort + AllocGlobal),
    kernel: K,
) -> Result<(), Fail> {
    let mut client = newcomer(rt, 1 << 62, kernel);
    is_not_ready(rt, &mut client);
    greets_twice(rt, &mut client)
}

// Busy comes before the index, and already welcome before busy.
fn is_busy<K: Kernel>(rt: &impl Abort, client: &mut ClientCore<K>) {
    for wanted in [
        Wanted::Ask(2),
        Wanted::Sync(Scheme::Simple),
        Wanted::Edit(0, 1),
        Wanted::Append(1),
        Wanted::Publish,
    ] {
        refuses(rt, client, wanted, CallFault::Busy);
    }
    refuses(rt, client, Wanted::Hello(0), CallFault::AlreadyWelcome);
}

#[test]
fn while_a_call_is_outstanding(rt: HostRuntime) -> Result<(), Fail> {
    while_a_call_is_outstanding_on(&rt, Plain)?;
    while_a_call_is_outstanding_on(&rt, Lanes)
}

fn while_a_call_is_outstanding_on<K: Kernel>(
    rt: &(impl Abort + AllocGlobal),
    kernel: K,
) -> Result<(), Fail> {
    let mut client = synced(rt, TWO_RECORDS, 0, &[0], kernel)?;
    refuses(rt, &mut client, Wanted::Hello(0), CallFault::AlreadyWelcome);
    refuses(rt, &mut client, Wanted::Ask(2), CallFault::BadIndex);
    makes(&mut client, Wanted::Publish)?;
    is_busy(rt, &mut client);
    counts(rt, &client, 0);
    Ok(())
}

#[test]
fn a_bad_index_comes_before_the_seeds_end(rt: HostRuntime) -> Result<(), Fail> {
    a_bad_index_comes_before_the_seeds_end_on(&rt, Plain)?;
    a_bad_index_comes_before_the_seeds_end_on(&rt, Lanes)
}

fn a_bad_index_comes_before_the_seeds_end_on<K: Kernel>(
    rt: &(impl Abort + AllocGlobal),
    kernel: K,
) -> Result<(), Fail> {
    let mut client = synced(rt, TWO_RECORDS, 1 << 62, &[0], kernel)?;
    refuses(rt, &mut client, Wanted::Ask(2), CallFault::BadIndex);
    refuses(rt, &mut client, Wanted::Ask(1), CallFault::SeedUsedUp);
    Ok(())
}

fn fails_for_good<K: Kernel>(
    rt: &(impl Abort + AllocGlobal),
    client: &mut ClientCore<K>,
) -> Result<(), Fail> {
    let frame = done(rt, 1)?;
    feeds(rt, client, frame.as_slice(), "BadReply ")?;
    for wanted in [
        Wanted::Hello(0),
        Wanted::Sync(Scheme::Simple),
        Wanted::Ask(0),
        Wanted::Edit(0, 1),
        Wanted::Append(1),
        Wanted::Publish,
    ] {
        refuses(rt, client, wanted, CallFault::Failed);
    }
    feeds(rt, client, frame.as_slice(), "Failed ")?;
    counts(rt, client, 0);
    Ok(())
}

#[test]
fn after_a_fault_every_call_fails(rt: HostRuntime) -> Result<(), Fail> {
    after_a_fault_every_call_fails_on(&rt, Plain)?;
    after_a_fault_every_call_fails_on(&rt, Lanes)
}

fn after_a_fault_every_call_fails_on<K: Kernel>(
    rt: &(impl Abort + AllocGlobal),
    kernel: K,
) -> Result<(), Fail> {
    let mut client = synced(rt, TWO_RECORDS, 0, &[0], kernel)?;
    fails_for_good(rt, &mut client)
}

// What a store is known as once its Welcome came.
fn info_of(store: Store, version: u64, count: u32) -> Option<ServerInfo> {
    let plan = Plan {
        form: store.profile,
        width: store.width,
        record_len: store.record_len,
        groups: store.groups,
        dimension: store.dimension,
        seed: ZEROS,
    };
    Some(ServerInfo {
        version,
        count,
        plan,
    })
}

fn learns<K: Kernel>(
    rt: &(impl Abort + AllocGlobal),
    client: &mut ClientCore<K>,
    store: Store,
) -> Result<(), Fail> {
    assert_eq!(rt; client.known(), None);
    let_in(rt, client, store)?;
    assert_eq!(rt; client.known(), info_of(store, 1, store.count));
    makes(client, Wanted::Sync(Scheme::Simple))?;
    let frame = stale(rt, 2, 3)?;
    feeds(rt, client, frame.as_slice(), "stale 2 ")?;
    assert_eq!(rt; client.known(), info_of(store, 2, 3));
    Ok(())
}

#[test]
fn what_the_server_told_is_known(rt: HostRuntime) -> Result<(), Fail> {
    what_the_server_told_is_known_on(&rt, Plain)?;
    what_the_server_told_is_known_on(&rt, Lanes)
}

fn what_the_server_told_is_known_on<K: Kernel>(
    rt: &(impl Abort + AllocGlobal),
    kernel: K,
) -> Result<(), Fail> {
    let mut client = newcomer(rt, 0, kernel);
    learns(rt, &mut client, TWO_RECORDS)
}
