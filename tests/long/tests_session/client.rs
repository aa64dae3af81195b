//! A client against replies that are made here, frame by frame.
//!
//! Proved by `tests/long/run --prove`.

use client_core::{CallFault, ClientCore, ClientFault, Event, Fed, Scheme};
use digit_pack::Layout;
use frame_codec::{Bytes32, Frame, Reader, Rows, Words, write_frame};
use lane_kernels::Lanes;
use matrix_u32::{Kernel, Plain};
use std::alloc::Global;
use std::process::Abort;
use std::test::Fail;

const ZEROS: [u8; 32] = [0; 32];

/// The sizes of a Welcome in profile 1, from the zero seed.
#[derive(Clone, Copy)]
struct Store {
    profile: u16,
    width: u8,
    record_len: u16,
    groups: u16,
    count: u32,
    version: u64,
    dimension: u16,
}

/// Two records of one byte, 0a and c8, whose hint of version 1 is one word.
const TWO_RECORDS: Store = Store {
    profile: 1,
    width: 8,
    record_len: 1,
    groups: 1,
    count: 2,
    version: 1,
    dimension: 1,
};

const TWO_RECORDS_HINT: u32 = 2_066_479_516;

/// One record of two bytes in digits of six bits, whose hint has three words.
const ONE_RECORD: Store = Store {
    profile: 1,
    width: 6,
    record_len: 2,
    groups: 1,
    count: 1,
    version: 1,
    dimension: 1,
};

fn encode(rt: &(impl Abort + AllocGlobal), frame: Frame) -> Result<Vec<u8>, Fail> {
    let mut out = Vec::new(rt.alloc());
    assert!(rt; frame.payload_len() <= 16_777_216);
    write_frame(&frame, &mut out)?;
    Ok(out)
}

fn welcome(rt: &(impl Abort + AllocGlobal), store: Store) -> Result<Vec<u8>, Fail> {
    encode(
        rt,
        Frame::Welcome {
            profile: store.profile,
            width: store.width,
            record_len: store.record_len,
            groups: store.groups,
            count: store.count,
            version: store.version,
            dimension: store.dimension,
            seed: Bytes32::copied(&ZEROS),
        },
    )
}

fn part(
    rt: &(impl Abort + AllocGlobal),
    scheme: u8,
    version: u64,
    part: u32,
    words: &[u32],
) -> Result<Vec<u8>, Fail> {
    let words = Words::new(words.to_vec(rt.alloc())?);
    encode(
        rt,
        Frame::HintPart {
            scheme,
            version,
            part,
            words,
        },
    )
}

fn answer(
    rt: &(impl Abort + AllocGlobal),
    scheme: u8,
    version: u64,
    words: &[u32],
) -> Result<Vec<u8>, Fail> {
    let words = Words::new(words.to_vec(rt.alloc())?);
    encode(
        rt,
        Frame::Answer {
            scheme,
            version,
            words,
        },
    )
}

fn stale(rt: &(impl Abort + AllocGlobal), version: u64, count: u32) -> Result<Vec<u8>, Fail> {
    encode(rt, Frame::Stale { version, count })
}

fn no_delta(rt: &(impl Abort + AllocGlobal), version: u64, count: u32) -> Result<Vec<u8>, Fail> {
    encode(rt, Frame::NoDelta { version, count })
}

fn done(rt: &(impl Abort + AllocGlobal), version: u64) -> Result<Vec<u8>, Fail> {
    encode(rt, Frame::Done { version })
}

fn refused(rt: &(impl Abort + AllocGlobal), code: u8) -> Result<Vec<u8>, Fail> {
    encode(rt, Frame::Refused { code })
}

fn add_event(alloc: Global, text: &mut String, event: &Event) -> Result<(), Fail> {
    let line = match event {
        Event::Welcomed(version) => format!(in alloc; "welcomed {version}")?,
        Event::Synced(Scheme::Simple, version) => format!(in alloc; "synced simple {version}")?,
        Event::Synced(Scheme::Double, version) => format!(in alloc; "synced double {version}")?,
        Event::Retrieved {
            index,
            version,
            bytes,
        } => {
            let mut number = 0u64;
            for byte in bytes.as_slice() {
                number = (number % 65_536) * 256 + *byte as u64;
            }
            format!(in alloc; "retrieved {index} {version} {number:x}")?
        }
        Event::Unreadable { index, version } => format!(in alloc; "unreadable {index} {version}")?,
        Event::Stale(version) => format!(in alloc; "stale {version}")?,
        Event::Done(version) => format!(in alloc; "done {version}")?,
        Event::Refused(code) => format!(in alloc; "refused {code}")?,
    };
    text.push_str(&line)?;
    text.push(' ')?;
    Ok(())
}

/// What came of a piece: each event and then the fault, with a space after each.
fn reported(rt: &impl AllocGlobal, fed: &Fed) -> Result<String, Fail> {
    let mut text = String::new(rt.alloc());
    for event in fed.events.as_slice() {
        add_event(rt.alloc(), &mut text, event)?;
    }
    match fed.fault {
        None => {}
        Some(ClientFault::BadWelcome) => text.push_str("BadWelcome ")?,
        Some(ClientFault::BadReply) => text.push_str("BadReply ")?,
        Some(ClientFault::Memory) => text.push_str("Memory ")?,
        Some(ClientFault::Failed) => text.push_str("Failed ")?,
    }
    Ok(text)
}

/// A call of a client.
#[derive(Clone, Copy)]
enum Wanted {
    /// With this first byte of the key, and zeros after it.
    Hello(u8),
    Sync(Scheme),
    Ask(u32),
    /// Of a record, to this one byte.
    Edit(u32, u8),
    /// A record of this one byte.
    Append(u8),
    Publish,
}

// Has no contract, so that a test of many calls carries none of their clauses.
fn call<K: Kernel>(client: &mut ClientCore<K>, wanted: Wanted) -> Result<Vec<u8>, CallFault> {
    match wanted {
        Wanted::Hello(first) => {
            let mut key = ZEROS;
            key[0] = first;
            client.hello(key)
        }
        Wanted::Sync(scheme) => client.sync(scheme),
        Wanted::Ask(index) => client.ask(index),
        Wanted::Edit(index, byte) => client.edit(index, &[byte]),
        Wanted::Append(byte) => client.append(&[byte]),
        Wanted::Publish => client.publish(),
    }
}

/// A call that is made and refused so.
fn refuses<K: Kernel>(
    rt: &impl Abort,
    client: &mut ClientCore<K>,
    wanted: Wanted,
    fault: CallFault,
) {
    match call(client, wanted) {
        Ok(_) => panic!(rt; "the call was made"),
        Err(refusal) => assert!(rt; refusal == fault),
    }
}

/// A call that is made and sends that many bytes, the first of them these.
fn sends<K: Kernel>(
    rt: &impl Abort,
    client: &mut ClientCore<K>,
    wanted: Wanted,
    len: usize,
    prefix: &[u8],
) -> Result<(), Fail> {
    let sent = call(client, wanted)?;
    assert_eq!(rt; sent.len(), len);
    assert!(rt; prefix.len() <= sent.len());
    assert_eq!(rt; &sent[..prefix.len()], prefix);
    Ok(())
}

/// A call that is made, whatever it sends.
fn makes<K: Kernel>(client: &mut ClientCore<K>, wanted: Wanted) -> Result<(), Fail> {
    call(client, wanted)?;
    Ok(())
}

/// Compares the number of the next retrieval.
fn counts<K: Kernel>(rt: &impl Abort, client: &ClientCore<K>, number: u64) {
    assert_eq!(rt; client.next_number(), number);
}

/// Feeds a piece, and compares what comes of it and the bytes that are then to be sent.
fn asks_on<K: Kernel>(
    rt: &(impl Abort + AllocGlobal),
    client: &mut ClientCore<K>,
    piece: &[u8],
    wanted: &str,
    sent: &[u8],
) -> Result<(), Fail> {
    let fed = client.feed(piece);
    assert_eq!(rt; reported(rt, &fed)?.as_str(), wanted);
    assert_eq!(rt; fed.out.as_slice(), sent);
    Ok(())
}

/// Feeds a piece, after which nothing is to be sent, and compares what comes of it.
fn feeds<K: Kernel>(
    rt: &(impl Abort + AllocGlobal),
    client: &mut ClientCore<K>,
    piece: &[u8],
    wanted: &str,
) -> Result<(), Fail> {
    asks_on(rt, client, piece, wanted, &[])
}

/// A client with the zero seed.
fn newcomer<K: Kernel>(rt: &(impl Abort + AllocGlobal), number: u64, kernel: K) -> ClientCore<K> {
    assert!(rt; number <= 1 << 62);
    ClientCore::new(rt.alloc(), kernel, ZEROS, number)
}

/// A client that was let in.
fn guest<K: Kernel>(
    rt: &(impl Abort + AllocGlobal),
    store: Store,
    number: u64,
    kernel: K,
) -> Result<ClientCore<K>, Fail> {
    let mut client = newcomer(rt, number, kernel);
    let_in(rt, &mut client, store)?;
    Ok(client)
}

// Greets, and takes the Welcome of a store of version 1.
fn let_in<K: Kernel>(
    rt: &(impl Abort + AllocGlobal),
    client: &mut ClientCore<K>,
    store: Store,
) -> Result<(), Fail> {
    makes(client, Wanted::Hello(0))?;
    let frame = welcome(rt, store)?;
    feeds(rt, client, frame.as_slice(), "welcomed 1 ")
}

/// A client that holds the hint of version 1, which has these words.
fn synced<K: Kernel>(
    rt: &(impl Abort + AllocGlobal),
    store: Store,
    number: u64,
    hint: &[u32],
    kernel: K,
) -> Result<ClientCore<K>, Fail> {
    let mut client = guest(rt, store, number, kernel)?;
    fetches(rt, &mut client, 1, hint)?;
    Ok(client)
}

// Asks for a hint of one part, and takes it.
fn fetches<K: Kernel>(
    rt: &(impl Abort + AllocGlobal),
    client: &mut ClientCore<K>,
    version: u64,
    hint: &[u32],
) -> Result<(), Fail> {
    makes(client, Wanted::Sync(Scheme::Simple))?;
    let frame = part(rt, 0, version, 0, hint)?;
    let wanted = format!(in rt.alloc(); "synced simple {version} ")?;
    feeds(rt, client, frame.as_slice(), &wanted)
}
