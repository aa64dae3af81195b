//! Hints by parts.

use super::*;

/// 66 records of one byte in one column, dimension 1024: a hint of 67,584 words.
const ONE_COLUMN: Store = Store {
    profile: 1,
    width: 8,
    record_len: 1,
    groups: 66,
    count: 66,
    version: 1,
    dimension: 1024,
};

/// The frame that asks for a part of a hint of a scheme, of a version below 256.
fn asking<K: Kernel>(scheme: u8, version: u8, part: u8, kernel: K) -> [u8; 18] {
    [
        13, 0, 0, 0, 3, scheme, version, 0, 0, 0, 0, 0, 0, 0, part, 0, 0, 0,
    ]
}

/// A part of a hint whose words are all 0.
fn zeros(
    rt: &(impl Abort + AllocGlobal),
    version: u64,
    number: u32,
    count: usize,
) -> Result<Vec<u8>, Fail> {
    let words = vec![in rt.alloc(); 0u32; count]?;
    part(rt, 0, version, number, words.as_slice())
}

/// Takes the first of two parts, which is followed by the question for the second.
fn first_of_two<K: Kernel>(
    rt: &(impl Abort + AllocGlobal),
    client: &mut ClientCore<K>,
    version: u8,
    kernel: K,
) -> Result<(), Fail> {
    let asked = asking(0, version, 0, kernel);
    sends(rt, client, Wanted::Sync(Scheme::Simple), 18, &asked)?;
    let frame = zeros(rt, u64::from(version), 0, 65_536)?;
    asks_on(
        rt,
        client,
        frame.as_slice(),
        "",
        &asking(0, version, 1, kernel),
    )
}

fn becomes_stale_between<K: Kernel>(
    rt: &(impl Abort + AllocGlobal),
    client: &mut ClientCore<K>,
    kernel: K,
) -> Result<(), Fail> {
    first_of_two(rt, client, 1, kernel)?;
    let frame = stale(rt, 2, 66)?;
    feeds(rt, client, frame.as_slice(), "stale 2 ")?;
    refuses(rt, client, Wanted::Ask(0), CallFault::NotReady);
    first_of_two(rt, client, 2, kernel)?;
    let frame = zeros(rt, 2, 1, 2_048)?;
    feeds(rt, client, frame.as_slice(), "synced simple 2 ")?;
    makes(client, Wanted::Ask(65))
}

#[test]
fn a_publication_between_two_parts(rt: HostRuntime) -> Result<(), Fail> {
    a_publication_between_two_parts_on(&rt, Plain)?;
    a_publication_between_two_parts_on(&rt, Lanes)
}

fn a_publication_between_two_parts_on<K: Kernel>(
    rt: &(impl Abort + AllocGlobal),
    kernel: K,
) -> Result<(), Fail> {
    let mut client = guest(rt, ONE_COLUMN, 0, kernel)?;
    becomes_stale_between(rt, &mut client, kernel)
}

#[test]
fn a_sync_of_another_scheme_drops_the_hint(rt: HostRuntime) -> Result<(), Fail> {
    a_sync_of_another_scheme_drops_the_hint_on(&rt, Plain)?;
    a_sync_of_another_scheme_drops_the_hint_on(&rt, Lanes)
}

fn a_sync_of_another_scheme_drops_the_hint_on<K: Kernel>(
    rt: &(impl Abort + AllocGlobal),
    kernel: K,
) -> Result<(), Fail> {
    let mut client = synced(rt, ONE_RECORD, 0, &[0, 0, 0], kernel)?;
    makes(&mut client, Wanted::Sync(Scheme::Double))?;
    // not ready comes before busy
    refuses(rt, &mut client, Wanted::Ask(0), CallFault::NotReady);
    let frame = refused(rt, 12)?;
    feeds(rt, &mut client, frame.as_slice(), "refused 12 ")?;
    refuses(rt, &mut client, Wanted::Ask(0), CallFault::NotReady);
    Ok(())
}

/// Asks for a hint of DoublePIR, which the server refuses at first, and takes its six words.
fn fetches_a_double_hint<K: Kernel>(
    rt: &(impl Abort + AllocGlobal),
    client: &mut ClientCore<K>,
    kernel: K,
) -> Result<(), Fail> {
    let asked = asking(1, 1, 0, kernel);
    sends(rt, client, Wanted::Sync(Scheme::Double), 18, &asked)?;
    let frame = refused(rt, 13)?;
    feeds(rt, client, frame.as_slice(), "refused 13 ")?;
    makes(client, Wanted::Sync(Scheme::Double))?;
    let frame = part(rt, 1, 1, 0, &[0; 6])?;
    feeds(rt, client, frame.as_slice(), "synced double 1 ")
}

#[test]
fn a_double_hint_is_fetched_and_asked_with(rt: HostRuntime) -> Result<(), Fail> {
    a_double_hint_is_fetched_and_asked_with_on(&rt, Plain)?;
    a_double_hint_is_fetched_and_asked_with_on(&rt, Lanes)
}

fn a_double_hint_is_fetched_and_asked_with_on<K: Kernel>(
    rt: &(impl Abort + AllocGlobal),
    kernel: K,
) -> Result<(), Fail> {
    let mut client = guest(rt, ONE_RECORD, 0, kernel)?;
    fetches_a_double_hint(rt, &mut client, kernel)?;
    // ten words: one for the column, and for each of three digits one for each of three rows
    let prefix = [49, 0, 0, 0, 5, 1, 1, 0];
    sends(rt, &mut client, Wanted::Ask(0), 54, &prefix)
}

#[test]
fn parts_of_two_schemes_do_not_mix(rt: HostRuntime) -> Result<(), Fail> {
    parts_of_two_schemes_do_not_mix_on(&rt, Plain)?;
    parts_of_two_schemes_do_not_mix_on(&rt, Lanes)
}

fn parts_of_two_schemes_do_not_mix_on<K: Kernel>(
    rt: &(impl Abort + AllocGlobal),
    kernel: K,
) -> Result<(), Fail> {
    let mut client = guest(rt, ONE_RECORD, 0, kernel)?;
    makes(&mut client, Wanted::Sync(Scheme::Double))?;
    let frame = part(rt, 0, 1, 0, &[0; 6])?;
    feeds(rt, &mut client, frame.as_slice(), "BadReply ")
}

/// Feeds one byte after another, of which the last alone brings an event.
fn feeds_each_byte<K: Kernel>(rt: &impl Abort, client: &mut ClientCore<K>, bytes: &[u8]) {
    let mut events = 0;
    for byte in bytes {
        let fed = client.feed(&[*byte]);
        assert!(rt; fed.fault.is_none() && events == 0);
        events = fed.events.len();
    }
    assert_eq!(rt; events, 1);
}

#[test]
fn replies_cut_after_each_byte(rt: HostRuntime) -> Result<(), Fail> {
    replies_cut_after_each_byte_on(&rt, Plain)?;
    replies_cut_after_each_byte_on(&rt, Lanes)
}

fn replies_cut_after_each_byte_on<K: Kernel>(
    rt: &(impl Abort + AllocGlobal),
    kernel: K,
) -> Result<(), Fail> {
    let frame = welcome(rt, ONE_RECORD)?;
    let mut client = newcomer(rt, 0, kernel);
    makes(&mut client, Wanted::Hello(0))?;
    feeds_each_byte(rt, &mut client, frame.as_slice());
    Ok(())
}
