//! The session that the crate's page shows.
//! Proved by `tests/long/run --prove`.

use session_core::{
    CallFault, ClientCore, Event, FeedError, Header, Kernel, Lanes, Plain, Scheme, ServerCore,
    SessionError, Store,
};
use std::alloc::Global;
use std::process::Abort;
use std::test::Fail;

const READER: [u8; 32] = [0; 32];

// How many times bytes go to and fro for one call.
const MOST_ROUNDS: u32 = 4;

// A server of the records 0a and c8 at version 1, for no publisher.
fn server<K: Kernel>(alloc: Global, kernel: K) -> Result<ServerCore<K>, Fail> {
    let header = Header {
        form: 1,
        width: 8,
        record_len: 1,
        groups: 1,
        count: 2,
        dimension: 1,
        version: 1,
        seed: [0; 32],
        publisher: [0; 32],
    };
    let snapshot = header.with_records([10u8, 200].to_vec(alloc)?);
    Ok(ServerCore::new(alloc, Store::open(alloc, kernel, snapshot)?))
}

// The calls below have no clause, so that the test doesn't carry theirs.

fn open_session<K: Kernel>(server: &mut ServerCore<K>) -> Result<(), SessionError> {
    server.open_session(7)
}

fn hello<K: Kernel>(client: &mut ClientCore<K>) -> Result<Vec<u8>, CallFault> {
    client.hello(READER)
}

fn sync<K: Kernel>(client: &mut ClientCore<K>, scheme: Scheme) -> Result<Vec<u8>, CallFault> {
    client.sync(scheme)
}

fn ask<K: Kernel>(client: &mut ClientCore<K>) -> Result<Vec<u8>, CallFault> {
    client.ask(1)
}

fn replies_to<K: Kernel>(
    alloc: Global,
    server: &mut ServerCore<K>,
    sent: &[u8],
) -> Result<Vec<u8>, FeedError> {
    let mut replies = Vec::new(alloc);
    match server.feed(7, sent, &mut replies) {
        Ok(()) => Ok(replies),
        Err(fault) => Err(fault),
    }
}

// What the client says next, and the first event.
fn heard<K: Kernel>(client: &mut ClientCore<K>, replies: &[u8]) -> (Vec<u8>, Option<Event>) {
    let fed = client.feed(replies);
    (fed.out, fed.events.into_iter().next())
}

// Carries bytes to and fro until the client has an event.
fn exchange<K: Kernel>(
    rt: &impl Abort,
    alloc: Global,
    server: &mut ServerCore<K>,
    client: &mut ClientCore<K>,
    first: Vec<u8>,
) -> Result<Event, Fail> {
    let mut sent = first;
    for _ in 0..MOST_ROUNDS {
        let replies = replies_to(alloc, server, &sent)?;
        let (said, event) = heard(client, &replies);
        if let Some(event) = event {
            return Ok(event);
        }
        sent = said;
    }
    panic!(rt; "no event came");
}

// Syncs by a scheme, and retrieves the second record.
fn check_retrieval<K: Kernel>(
    rt: &impl Abort,
    alloc: Global,
    server: &mut ServerCore<K>,
    client: &mut ClientCore<K>,
    scheme: Scheme,
) -> Result<(), Fail> {
    let sent = sync(client, scheme)?;
    let event = exchange(rt, alloc, server, client, sent)?;
    assert!(rt; matches!(event, Event::Synced(synced, 1) if synced == scheme));
    let sent = ask(client)?;
    let event = exchange(rt, alloc, server, client, sent)?;
    let Event::Retrieved {
        index,
        version,
        bytes,
    } = event
    else {
        panic!(rt; "no record came");
    };
    assert_eq!(rt; (index, version), (1, 1));
    assert_eq!(rt; bytes.as_slice(), [200].as_slice());
    Ok(())
}

// The session, over a server and a client that are lent to it.
fn check_session<K: Kernel>(
    rt: &impl Abort,
    alloc: Global,
    server: &mut ServerCore<K>,
    client: &mut ClientCore<K>,
) -> Result<(), Fail> {
    open_session(server)?;
    let sent = hello(client)?;
    let event = exchange(rt, alloc, server, client, sent)?;
    assert!(rt; matches!(event, Event::Welcomed(1)));
    check_retrieval(rt, alloc, server, client, Scheme::Double)?;
    check_retrieval(rt, alloc, server, client, Scheme::Simple)
}

fn client<K: Kernel>(alloc: Global, kernel: K) -> ClientCore<K> {
    ClientCore::new(alloc, kernel, [0x11; 32], 0)
}

#[test]
fn a_record_is_retrieved(rt: HostRuntime) -> Result<(), Fail> {
    let alloc = rt.alloc();
    check_session(
        &rt,
        alloc,
        &mut server(alloc, Plain)?,
        &mut client(alloc, Plain),
    )?;
    check_session(
        &rt,
        alloc,
        &mut server(alloc, Lanes)?,
        &mut client(alloc, Lanes),
    )
}
