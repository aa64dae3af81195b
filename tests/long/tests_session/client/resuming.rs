//! Clients that go on with what was saved of another.

use super::answers::retrieves;
use super::*;
use client_core::SavedClient;

const TWO_LATER: Store = Store {
    version: 2,
    ..TWO_RECORDS
};

/// What is saved of a client of two records that has asked for one.
fn saved(rt: &(impl Abort + AllocGlobal)) -> Result<SavedClient, Fail> {
    let mut client = synced(rt, TWO_RECORDS, 5, &[TWO_RECORDS_HINT], Plain)?;
    retrieves(rt, &mut client, 1, "retrieved 1 1 c8 ")?;
    Ok(client.into_saved())
}

/// A client that was let in by a server of any version, with what was saved of another at hand.
fn resumes(
    rt: &(impl Abort + AllocGlobal),
    store: Store,
    saved: SavedClient,
    wanted: bool,
) -> Result<ClientCore<Plain>, Fail> {
    let mut client = newcomer(rt, saved.number, Plain);
    makes(&mut client, Wanted::Hello(0))?;
    let frame = welcome(rt, store)?;
    let version = store.version;
    let welcomed = format!(in rt.alloc(); "welcomed {version} ")?;
    feeds(rt, &mut client, frame.as_slice(), &welcomed)?;
    assert!(rt; client.resume(saved) == Ok(wanted));
    assert!(rt; client.hint().is_some() == wanted);
    Ok(client)
}

#[test]
fn a_resumed_client_asks_at_once(rt: HostRuntime) -> Result<(), Fail> {
    let mut client = resumes(&rt, TWO_RECORDS, saved(&rt)?, true)?;
    counts(&rt, &client, 6);
    retrieves(&rt, &mut client, 0, "retrieved 0 1 a ")?;
    counts(&rt, &client, 7);
    Ok(())
}

#[test]
fn a_resumed_client_syncs_from_its_version(rt: HostRuntime) -> Result<(), Fail> {
    let mut client = resumes(&rt, TWO_LATER, saved(&rt)?, true)?;
    refuses(&rt, &mut client, Wanted::Ask(0), CallFault::NotReady);
    sends(
        &rt,
        &mut client,
        Wanted::Sync(Scheme::Simple),
        13,
        &[8, 0, 0, 0, 4, 1, 0, 0, 0, 0, 0, 0, 0],
    )
}

#[test]
fn a_hint_of_another_store_is_dropped(rt: HostRuntime) -> Result<(), Fail> {
    for store in [
        Store {
            groups: 2,
            ..TWO_RECORDS
        },
        Store {
            dimension: 2,
            ..TWO_RECORDS
        },
        Store {
            record_len: 2,
            ..TWO_RECORDS
        },
        // More records, and fewer, under an equal version.
        Store {
            count: 3,
            ..TWO_RECORDS
        },
        Store {
            count: 1,
            ..TWO_LATER
        },
    ] {
        let mut client = resumes(&rt, store, saved(&rt)?, false)?;
        refuses(&rt, &mut client, Wanted::Ask(0), CallFault::NotReady);
    }
    Ok(())
}

#[test]
fn a_hint_of_a_later_version_is_dropped(rt: HostRuntime) -> Result<(), Fail> {
    let mut client = resumes(&rt, TWO_LATER, saved(&rt)?, true)?;
    let frame = no_delta(&rt, 2, 2)?;
    makes(&mut client, Wanted::Sync(Scheme::Simple))?;
    let fed = client.feed(frame.as_slice());
    assert_eq!(rt; reported(&rt, &fed)?.as_str(), "");
    let frame = part(&rt, 0, 2, 0, &[TWO_RECORDS_HINT])?;
    feeds(&rt, &mut client, frame.as_slice(), "synced simple 2 ")?;
    resumes(&rt, TWO_RECORDS, client.into_saved(), false)?;
    Ok(())
}

#[test]
fn no_hint_is_dropped_too(rt: HostRuntime) -> Result<(), Fail> {
    let bare = guest(&rt, TWO_RECORDS, 3, Plain)?;
    resumes(&rt, TWO_RECORDS, bare.into_saved(), false)?;
    Ok(())
}

#[test]
fn refusals_of_resume(rt: HostRuntime) -> Result<(), Fail> {
    let mut client = newcomer(&rt, 0, Plain);
    assert!(rt; client.resume(saved(&rt)?) == Err(CallFault::NotReady));
    let_in(&rt, &mut client, TWO_RECORDS)?;
    makes(&mut client, Wanted::Sync(Scheme::Simple))?;
    assert!(rt; client.resume(saved(&rt)?) == Err(CallFault::Busy));
    let frame = done(&rt, 1)?;
    feeds(&rt, &mut client, frame.as_slice(), "BadReply ")?;
    assert!(rt; client.resume(saved(&rt)?) == Err(CallFault::Failed));
    Ok(())
}

#[test]
fn numbers_are_left_alone(rt: HostRuntime) -> Result<(), Fail> {
    let mut client = newcomer(&rt, 4, Plain);
    client.skip_to(9);
    counts(&rt, &client, 9);
    client.skip_to(3);
    counts(&rt, &client, 9);
    Ok(())
}
