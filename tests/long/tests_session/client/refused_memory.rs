//! Memory that is refused once: a call that reports it leaves the client as it says, and is made
//! when it is tried again. With ample memory no call here is refused. `tests/memory/run --all`
//! refuses each request of these tests in turn, and they pass each time.
//!
//! Proved by `tests/long/run --prove`.

use super::*;
use std::alloc::AllocError;

/// The Welcome of the store of two records, and its whole hint.
const WELCOME: [u8; 58] = [
    0x35, 0, 0, 0, 0x82, 1, 0, 8, 1, 0, 1, 0, 2, 0, 0, 0, 1, 0, 0, 0, 0, 0, 0, 0, 1, 0, 0, 0, 0, 0,
    0, 0, 0, 0, 0, 0, 0, 0, 0, 0, 0, 0, 0, 0, 0, 0, 0, 0, 0, 0, 0, 0, 0, 0, 0, 0, 0, 0,
];

const HINT_PART: [u8; 22] = [
    0x11, 0, 0, 0, 0x83, 0, 1, 0, 0, 0, 0, 0, 0, 0, 0, 0, 0, 0, 0x9c, 0xf9, 0x2b, 0x7b,
];

/// The queries for record 1 of the retrievals 5 and 6 of the zero seed, by the definition as a
/// program of another language has it.
const FIFTH: [u8; 22] = [
    0x11, 0, 0, 0, 0x05, 0, 1, 0, 0, 0, 0, 0, 0, 0, 0xbe, 0xc9, 0x46, 0xdb, 0x1f, 0x29, 0xc5, 0xc2,
];

const SIXTH: [u8; 22] = [
    0x11, 0, 0, 0, 0x05, 0, 1, 0, 0, 0, 0, 0, 0, 0, 0xe7, 0x14, 0x7a, 0x8b, 0x1f, 0x7e, 0x11, 0x11,
];

/// What a publisher's calls send: the byte 64 for record 1, a record that is the byte 05, and a
/// publication.
const EDIT: [u8; 10] = [5, 0, 0, 0, 0x06, 1, 0, 0, 0, 0x64];

const APPEND: [u8; 6] = [1, 0, 0, 0, 0x09, 5];

const PUBLISH: [u8; 5] = [0, 0, 0, 0, 0x07];

/// The reply to each of them, of version 1.
const DONE: [u8; 13] = [8, 0, 0, 0, 0x87, 1, 0, 0, 0, 0, 0, 0, 0];

// Feeds a piece, and answers the fault.
fn fault_of<K: Kernel>(client: &mut ClientCore<K>, piece: &[u8]) -> Option<ClientFault> {
    client.feed(piece).fault
}

// Makes a call, again where memory was refused, and feeds its reply. Answers whether that was
// taken: where memory was refused for it, the client has failed.
fn exchanges<K: Kernel>(
    rt: &impl Abort,
    client: &mut ClientCore<K>,
    wanted: Wanted,
    reply: &[u8],
) -> bool {
    if let Err(fault) = call(client, wanted) {
        assert!(rt; fault == CallFault::Memory);
        assert_eq!(rt; call(client, wanted).err(), None);
    }
    let Some(fault) = fault_of(client, reply) else {
        return true;
    };
    assert!(rt; fault == ClientFault::Memory);
    counts(rt, client, 5);
    refuses(rt, client, wanted, CallFault::Failed);
    false
}

// A client that holds the hint of version 1, unless memory was refused for a reply.
fn try_ready<K: Kernel>(rt: &(impl Abort + AllocGlobal), kernel: K) -> Option<ClientCore<K>> {
    let mut client = newcomer(rt, 5, kernel);
    if !exchanges(rt, &mut client, Wanted::Hello(0), &WELCOME) {
        return None;
    }
    if !exchanges(rt, &mut client, Wanted::Sync(Scheme::Simple), &HINT_PART) {
        return None;
    }
    Some(client)
}

// The same, with a second try.
fn ready<K: Kernel>(
    rt: &(impl Abort + AllocGlobal),
    kernel: K,
) -> Result<ClientCore<K>, AllocError> {
    match try_ready(rt, kernel) {
        Some(client) => Ok(client),
        None => try_ready(rt, kernel).ok_or(AllocError),
    }
}

// Asks for record 1. Where memory is refused, the number is spent all the same, and the next ask
// has the next one.
fn asks<K: Kernel>(rt: &impl Abort, client: &mut ClientCore<K>) {
    counts(rt, client, 5);
    let mut asked = call(client, Wanted::Ask(1));
    counts(rt, client, 6);
    let mut wanted = FIFTH;
    if matches!(asked, Err(CallFault::Memory)) {
        asked = call(client, Wanted::Ask(1));
        counts(rt, client, 7);
        wanted = SIXTH;
    }
    match asked {
        Ok(sent) => assert_eq!(rt; sent.as_slice(), wanted.as_slice()),
        Err(_) => panic!(rt; "the second ask was refused"),
    }
}

#[test]
fn a_refused_ask_spends_its_number(rt: HostRuntime) -> Result<(), Fail> {
    a_refused_ask_spends_its_number_on(&rt, Plain)?;
    a_refused_ask_spends_its_number_on(&rt, Lanes)
}

fn a_refused_ask_spends_its_number_on<K: Kernel>(
    rt: &(impl Abort + AllocGlobal),
    kernel: K,
) -> Result<(), Fail> {
    asks(rt, &mut ready(rt, kernel)?);
    Ok(())
}

// Where memory is refused to a preparation, the next asks are made all the same.
#[test]
fn a_refused_preparation_changes_nothing(rt: HostRuntime) -> Result<(), Fail> {
    a_refused_preparation_changes_nothing_on(&rt, Plain)?;
    a_refused_preparation_changes_nothing_on(&rt, Lanes)
}

fn a_refused_preparation_changes_nothing_on<K: Kernel>(
    rt: &(impl Abort + AllocGlobal),
    kernel: K,
) -> Result<(), Fail> {
    let mut client = ready(rt, kernel)?;
    let _ = client.prepare_queries(2);
    asks(rt, &mut client);
    Ok(())
}

// A sync of the other scheme drops the hint, but not where it is refused.
fn keeps_its_hint<K: Kernel>(rt: &impl Abort, client: &mut ClientCore<K>) {
    let refusal = call(client, Wanted::Sync(Scheme::Double)).err();
    let asked = call(client, Wanted::Ask(1)).err();
    match refusal {
        None => assert_eq!(rt; asked, Some(CallFault::NotReady)),
        Some(fault) => {
            assert_eq!(rt; fault, CallFault::Memory);
            assert_eq!(rt; asked, None);
        }
    }
}

#[test]
fn a_refused_sync_drops_no_hint(rt: HostRuntime) -> Result<(), Fail> {
    a_refused_sync_drops_no_hint_on(&rt, Plain)?;
    a_refused_sync_drops_no_hint_on(&rt, Lanes)
}

fn a_refused_sync_drops_no_hint_on<K: Kernel>(
    rt: &(impl Abort + AllocGlobal),
    kernel: K,
) -> Result<(), Fail> {
    keeps_its_hint(rt, &mut ready(rt, kernel)?);
    Ok(())
}

// Makes a publisher's call, again where memory was refused, compares what it sends, and feeds the
// reply. Answers whether that was taken: where memory was refused for it, the client has failed.
fn publishes<K: Kernel>(
    rt: &impl Abort,
    client: &mut ClientCore<K>,
    wanted: Wanted,
    frame: &[u8],
) -> bool {
    let mut called = call(client, wanted);
    if matches!(called, Err(CallFault::Memory)) {
        called = call(client, wanted);
    }
    match called {
        Ok(sent) => assert_eq!(rt; sent.as_slice(), frame),
        Err(_) => panic!(rt; "the second call was refused"),
    }
    let Some(fault) = fault_of(client, &DONE) else {
        return true;
    };
    assert!(rt; fault == ClientFault::Memory);
    refuses(rt, client, wanted, CallFault::Failed);
    false
}

#[test]
fn a_refused_call_of_a_publisher_changes_nothing(rt: HostRuntime) -> Result<(), Fail> {
    a_refused_call_of_a_publisher_changes_nothing_on(&rt, Plain)?;
    a_refused_call_of_a_publisher_changes_nothing_on(&rt, Lanes)
}

fn a_refused_call_of_a_publisher_changes_nothing_on<K: Kernel>(
    rt: &(impl Abort + AllocGlobal),
    kernel: K,
) -> Result<(), Fail> {
    let mut client = ready(rt, kernel)?;
    let calls: [(Wanted, &[u8]); 3] = [
        (Wanted::Edit(1, 0x64), &EDIT),
        (Wanted::Append(5), &APPEND),
        (Wanted::Publish, &PUBLISH),
    ];
    for (wanted, frame) in calls {
        if !publishes(rt, &mut client, wanted, frame) {
            return Ok(());
        }
    }
    Ok(())
}
