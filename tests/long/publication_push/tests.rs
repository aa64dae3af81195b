//! Pushes to a server in memory, of one record of a byte and secrets of one word.

ghost use Rattle.std.specs.Prelude.{IfOk};
ghost use Rattle.log_replay.specs.Replays.{HasNoDraft};

use publication_push::{Push, PushFault, PushStep};
use client_core::ClientCore;
use log_replay::{ReplayFault, replay_all};
use matrix_u32::Plain;
use publication_log::{PublicationBuilder, Publications};
use server_core::{FeedError, ServerCore, SessionError};
use std::alloc::Global;
use std::process::Abort;
use std::test::Fail;
use version_store::{Header, Store};

const KEY: [u8; 32] = [1; 32];

// The digest of the key.
const PUBLISHER: [u8; 32] = [
    0x72, 0xcd, 0x6e, 0x84, 0x22, 0xc4, 0x07, 0xfb, 0x6d, 0x09, 0x86, 0x90, 0xf1, 0x13, 0x0b, 0x7d,
    0xed, 0x7e, 0xc2, 0xf7, 0xf5, 0xe1, 0xd3, 0x0b, 0xd9, 0xd5, 0x21, 0xf0, 0x15, 0x36, 0x37, 0x93,
];

// A store of one record, 0a.
fn store(alloc: Global) -> Result<Store<Plain>, Fail>
    ensures { IfOk result (λ s. HasNoDraft s) }
{
    let header = Header {
        form: 1,
        width: 8,
        record_len: 1,
        groups: 1,
        count: 1,
        dimension: 1,
        version: 1,
        seed: [0; 32],
        publisher: PUBLISHER,
    };
    let snapshot = header.with_records(Vec::from_slice(alloc, &[0x0a])?);
    let store = Store::open(alloc, Plain, snapshot)?;
    Ok(store)
}

// Adds the entry of a publication. No digest is looked at when publications are read one after
// another.
fn push_entry(
    alloc: Global,
    log: &mut Vec<u8>,
    version: u64,
    changes: &[(u32, u8)],
) -> Result<(), Fail> {
    let mut builder = PublicationBuilder::new(alloc, version)?;
    for (place, byte) in changes {
        builder.push(*place, &[*byte])?;
    }
    let len = u32::try_from(builder.body.len()).unwrap_or(0);
    log.extend_from_slice(&len.to_le_bytes())?;
    log.extend_from_slice(&(u32::MAX - len).to_le_bytes())?;
    log.extend_from_slice(&builder.body)?;
    log.extend_from_slice(&[0; 32])?;
    Ok(())
}

// The entries of two publications: record 0 becomes 0b and 0c is appended; record 1 becomes 0d.
fn entries(alloc: Global) -> Result<Vec<u8>, Fail> {
    let mut log = Vec::new(alloc);
    push_entry(alloc, &mut log, 2, &[(0, 0x0b), (1, 0x0c)])?;
    push_entry(alloc, &mut log, 3, &[(1, 0x0d)])?;
    Ok(log)
}

// A server with a session 0.
fn server(alloc: Global) -> Result<ServerCore<Plain>, Fail> {
    let mut server = ServerCore::new(alloc, store(alloc)?);
    open_session(&mut server)?;
    Ok(server)
}

// The calls below have no clause, so that a test doesn't carry theirs.

fn open_session(server: &mut ServerCore<Plain>) -> Result<(), SessionError> {
    server.open_session(0)
}

fn feed(server: &mut ServerCore<Plain>, sent: &[u8], out: &mut Vec<u8>) -> Result<(), FeedError> {
    server.feed(0, sent, out)
}

// What comes of what a server replies to these bytes.
fn exchange(
    alloc: Global,
    server: &mut ServerCore<Plain>,
    push: &mut Push<'_, Plain>,
    sent: &[u8],
) -> Result<Result<PushStep, PushFault>, Fail> {
    let mut out = Vec::new(alloc);
    feed(server, sent, &mut out)?;
    Ok(push.feed(&out))
}

fn replay_entries(store: &mut Store<Plain>, entries: &[u8]) -> Result<(), ReplayFault>
    requires { HasNoDraft store.old }
{
    replay_all(store, Publications { rest: entries })
}

// The end of a push of some entries to a server.
fn end_of(
    alloc: Global,
    server: &mut ServerCore<Plain>,
    entries: &[u8],
) -> Result<Result<u64, PushFault>, Fail> {
    let client = ClientCore::new(alloc, Plain, [5; 32], 0);
    let mut push = Push::new(client);
    let hello = push.greet(KEY)?;
    let Ok(PushStep::Greeted(_)) = exchange(alloc, server, &mut push, &hello)? else {
        return Ok(Err(PushFault::NotDone));
    };
    let mut step = push.begin(Publications { rest: entries });
    for _ in 0..10 {
        step = match step {
            Ok(PushStep::Sends(bytes)) => exchange(alloc, server, &mut push, &bytes)?,
            Ok(PushStep::Pushed(version)) => return Ok(Ok(version)),
            Ok(_) => return Ok(Err(PushFault::NotDone)),
            Err(fault) => return Ok(Err(fault)),
        };
    }
    Ok(Err(PushFault::NotDone))
}

#[test]
fn a_push_makes_the_server_that_of_the_log(rt: HostRuntime) -> Result<(), Fail> {
    let alloc = rt.alloc();
    let entries = entries(alloc)?;
    let mut server = server(alloc)?;
    assert_eq!(rt; end_of(alloc, &mut server, &entries)?, Ok(3));
    let mut replayed = store(alloc)?;
    replay_entries(&mut replayed, &entries)?;
    assert_eq!(rt; server.store().version(), replayed.version());
    assert_eq!(rt; server.store().bytes(), replayed.bytes());
    assert_eq!(rt; server.store().bytes(), [0x0b, 0x0d].as_slice());
    Ok(())
}

#[test]
fn a_refusal_ends_a_push(rt: HostRuntime) -> Result<(), Fail> {
    let alloc = rt.alloc();
    let mut log = Vec::new(alloc);
    push_entry(alloc, &mut log, 2, &[(0, 0x0b)])?;
    push_entry(alloc, &mut log, 3, &[])?;
    let mut server = server(alloc)?;
    // Nothing was changed that could be published.
    assert_eq!(rt;
        end_of(alloc, &mut server, &log)?,
        Err(PushFault::Refused(8))
    );
    assert_eq!(rt; server.store().version(), 2);
    Ok(())
}

#[test]
fn another_version_ends_a_push(rt: HostRuntime) -> Result<(), Fail> {
    let alloc = rt.alloc();
    let mut log = Vec::new(alloc);
    push_entry(alloc, &mut log, 5, &[(0, 0x0b)])?;
    let mut server = server(alloc)?;
    let wrong = PushFault::WrongVersion {
        awaited: 5,
        named: 2,
    };
    assert_eq!(rt; end_of(alloc, &mut server, &log)?, Err(wrong));
    Ok(())
}
