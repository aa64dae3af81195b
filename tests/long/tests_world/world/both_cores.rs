//! Server and clients over the bytes between them: what the clients send is looked at frame by
//! frame.

use super::scripts::add_event;
use super::*;
use client_core::{ClientCore, Scheme};
use server_core::ServerCore;
use std::alloc::Global;
use version_store::Store;

/// A reader: its core, the bytes on their way, all that it sent and was sent, and what came of it.
#[derive(Drop)]
struct Reader<K: Kernel> {
    id: u64,
    core: ClientCore<K>,
    up: Vec<u8>,
    down: Vec<u8>,
    sent: Vec<u8>,
    replies: Vec<u8>,
    text: String,
}

#[derive(Clone, Copy)]
enum Call {
    Hello,
    Sync(Scheme),
    Ask(u32),
}

fn opened<K: Kernel>(
    rt: &impl AllocGlobal,
    kernel: K,
    header: Header,
) -> Result<ServerCore<K>, Fail> {
    let store = Store::open(rt.alloc(), kernel, snapshot(rt, header)?)?;
    Ok(ServerCore::new(rt.alloc(), store))
}

fn reader<K: Kernel>(
    alloc: Global,
    server: &mut ServerCore<K>,
    id: u64,
    seed: u8,
    kernel: K,
) -> Result<Reader<K>, Fail> {
    server.open_session(id)?;
    Ok(Reader {
        id,
        core: ClientCore::new(alloc, kernel, [seed; 32], 0),
        up: Vec::new(alloc),
        down: Vec::new(alloc),
        sent: Vec::new(alloc),
        replies: Vec::new(alloc),
        text: String::new(alloc),
    })
}

/// Makes a call: its bytes are on their way, or what it is refused for is noted.
fn call<K: Kernel>(alloc: Global, one: &mut Reader<K>, wanted: Call) -> Result<(), Fail> {
    let called = match wanted {
        Call::Hello => one.core.hello([0; 32]),
        Call::Sync(scheme) => one.core.sync(scheme),
        Call::Ask(index) => one.core.ask(index),
    };
    match called {
        Ok(bytes) => {
            one.up.extend_from_slice(bytes.as_slice())?;
            one.sent.extend_from_slice(bytes.as_slice())?;
        }
        Err(fault) => one.text.push_str(&format!(in alloc; "{fault:?};")?)?,
    }
    Ok(())
}

/// At most so many of the bytes on their way come to the server.
fn deliver<K: Kernel>(
    alloc: Global,
    server: &mut ServerCore<K>,
    one: &mut Reader<K>,
    most: usize,
) -> Result<(), Fail> {
    let n = most.min(one.up.len());
    let mut out = Vec::new(alloc);
    server.feed(one.id, &one.up[..n], &mut out)?;
    one.up = one.up[n..].to_vec(alloc)?;
    one.down.extend_from_slice(out.as_slice())?;
    one.replies.extend_from_slice(out.as_slice())?;
    Ok(())
}

/// All replies on their way come to the client.
fn take<K: Kernel>(rt: &impl AllocGlobal, one: &mut Reader<K>) -> Result<(), Fail> {
    let fed = one.core.feed(one.down.as_slice());
    one.down.clear();
    one.up.extend_from_slice(fed.out.as_slice())?;
    one.sent.extend_from_slice(fed.out.as_slice())?;
    for event in fed.events.as_slice() {
        add_event(rt, &mut one.text, event)?;
        one.text.push(';')?;
    }
    Ok(())
}

/// A call, and all that follows until nothing is on its way: at most eight ways to and fro.
fn settle<K: Kernel>(
    rt: &impl AllocGlobal,
    server: &mut ServerCore<K>,
    one: &mut Reader<K>,
    wanted: Call,
) -> Result<(), Fail> {
    call(rt.alloc(), one, wanted)?;
    for _ in 0..8 {
        deliver(rt.alloc(), server, one, ALL)?;
        take(rt, one)?;
    }
    Ok(())
}

fn publish<K: Kernel>(server: &mut ServerCore<K>, index: usize, byte: u8) -> Result<u64, Fail> {
    server.edit(index, &[byte])?;
    Ok(server.publish()?)
}

/// The kind and the payload's length of each whole frame, in hex as they stand in the header.
fn shapes(alloc: Global, bytes: &[u8]) -> Result<String, Fail> {
    let mut text = String::new(alloc);
    let mut rest = bytes;
    for _ in 0..100 {
        let (Some(size), Some(kind)) = (length_at(rest), rest.get(4)) else {
            return Ok(text);
        };
        text.push_str(&format!(in alloc; "({kind},{size}) ")?)?;
        rest = rest.get(size.saturating_add(5)..).unwrap_or(&[]);
    }
    Ok(text)
}

/// The number of the first four bytes.
fn length_at(bytes: &[u8]) -> Option<usize> {
    let (Some(a), Some(b), Some(c)) = (bytes.get(0), bytes.get(1), bytes.get(2)) else {
        return None;
    };
    Some(*a as usize + 256 * (*b as usize) + 65_536 * (*c as usize))
}

/// Reader 0 asks by SimplePIR, and its query is cut by a publication; reader 1 asks by DoublePIR.
/// Both ask for `index`.
fn shapes_of_the_two<K: Kernel>(
    rt: &(impl Abort + AllocGlobal),
    index: u32,
    kernel: K,
) -> Result<(), Fail> {
    let alloc = rt.alloc();
    let mut server = opened(rt, kernel, TWO_RECORDS)?;
    let mut first = reader(alloc, &mut server, 0, 0x11, kernel)?;
    let mut second = reader(alloc, &mut server, 1, 0x22, kernel)?;
    settle(rt, &mut server, &mut first, Call::Hello)?;
    settle(rt, &mut server, &mut second, Call::Hello)?;
    settle(rt, &mut server, &mut first, Call::Sync(Scheme::Simple))?;
    settle(rt, &mut server, &mut second, Call::Sync(Scheme::Double))?;
    call(alloc, &mut first, Call::Ask(index))?;
    deliver(alloc, &mut server, &mut first, 11)?;
    call(alloc, &mut second, Call::Ask(index))?;
    deliver(alloc, &mut server, &mut second, ALL)?;
    assert_eq!(rt; publish(&mut server, 1, 0x64)?, 2);
    deliver(alloc, &mut server, &mut first, ALL)?;
    take(rt, &mut first)?;
    take(rt, &mut second)?;
    settle(rt, &mut server, &mut first, Call::Sync(Scheme::Simple))?;
    settle(rt, &mut server, &mut first, Call::Ask(index))?;
    let sent = shapes(alloc, first.sent.as_slice())?;
    assert_eq!(rt; sent.as_str(), "(2,34) (3,13) (5,17) (4,8) (5,17) ");
    let sent = shapes(alloc, second.sent.as_slice())?;
    assert_eq!(rt; sent.as_str(), "(2,34) (3,13) (5,21) ");
    let texts = match index {
        1 => [
            "welcomed 1;simple 1;stale 2;simple 2;retrieved 1 2 64;",
            "welcomed 1;double 1;retrieved 1 1 c8;",
        ],
        _ => [
            "welcomed 1;simple 1;stale 2;simple 2;retrieved 0 2 a;",
            "welcomed 1;double 1;retrieved 0 1 a;",
        ],
    };
    assert_eq!(rt; first.text.as_str(), texts[0]);
    assert_eq!(rt; second.text.as_str(), texts[1]);
    Ok(())
}

#[test]
fn frames_have_the_same_shapes_whatever_is_asked_for(rt: HostRuntime) -> Result<(), Fail> {
    for index in [1, 0] {
        shapes_of_the_two(&rt, index, Plain)?;
        shapes_of_the_two(&rt, index, Lanes)?;
    }
    Ok(())
}

/// Brings a reader of 66 records, whose hint has two parts, to version 2. Version 2 comes after
/// part 0 was served.
fn cut_between_parts<K: Kernel>(
    rt: &(impl Abort + AllocGlobal),
    server: &mut ServerCore<K>,
    one: &mut Reader<K>,
) -> Result<(), Fail> {
    let alloc = rt.alloc();
    settle(rt, server, one, Call::Hello)?;
    call(alloc, one, Call::Sync(Scheme::Simple))?;
    deliver(alloc, server, one, ALL)?;
    take(rt, one)?;
    assert_eq!(rt; publish(server, 3, 0x11)?, 2);
    deliver(alloc, server, one, ALL)?;
    take(rt, one)?;
    call(alloc, one, Call::Ask(0))?;
    assert_eq!(rt; one.text.as_str(), "welcomed 1;stale 2;NotReady;");
    settle(rt, server, one, Call::Sync(Scheme::Simple))
}

/// Records 5 and 7 change, and the hint is moved to version 4 by one Delta of these two rows.
fn moved_by_two_rows<K: Kernel>(
    rt: &(impl Abort + AllocGlobal),
    server: &mut ServerCore<K>,
    one: &mut Reader<K>,
) -> Result<(), Fail> {
    let alloc = rt.alloc();
    publish(server, 5, 0x22)?;
    assert_eq!(rt; publish(server, 7, 0x33)?, 4);
    settle(rt, server, one, Call::Ask(0))?;
    one.replies.clear();
    settle(rt, server, one, Call::Sync(Scheme::Simple))?;
    let replies = one.replies.as_slice();
    assert_eq!(rt; shapes(alloc, replies)?.as_str(), "(132,8222) ");
    assert_eq!(rt; replies.get(27..31), Some([5u8, 0, 0, 0].as_slice()));
    assert_eq!(rt; replies.get(4127..4131), Some([7u8, 0, 0, 0].as_slice()));
    settle(rt, server, one, Call::Ask(7))?;
    assert_eq!(rt;
        one.text.as_str(),
        "welcomed 1;stale 2;NotReady;simple 2;stale 4;simple 4;retrieved 7 4 33;"
    );
    Ok(())
}

fn hint_of_two_parts<K: Kernel>(
    rt: &(impl Abort + AllocGlobal),
    kernel: K,
) -> Result<(), Fail> {
    let header = Header {
        groups: 66,
        count: 66,
        dimension: 1024,
        ..TWO_RECORDS
    };
    let mut server = opened(rt, kernel, header)?;
    let mut one = reader(rt.alloc(), &mut server, 0, 0x11, kernel)?;
    cut_between_parts(rt, &mut server, &mut one)?;
    moved_by_two_rows(rt, &mut server, &mut one)
}

#[test]
fn the_last_sync_is_one_delta_of_two_rows(rt: HostRuntime) -> Result<(), Fail> {
    // The plain kernel would take minutes for hints of this size.
    hint_of_two_parts(&rt, Lanes)
}

fn goes_on_by_parts<K: Kernel>(rt: &(impl Abort + AllocGlobal), kernel: K) -> Result<(), Fail> {
    let alloc = rt.alloc();
    let header = Header {
        groups: 2000,
        count: 2000,
        ..TWO_RECORDS
    };
    let mut server = opened(rt, kernel, header)?;
    let mut one = reader(alloc, &mut server, 0, 0x11, kernel)?;
    settle(rt, &mut server, &mut one, Call::Hello)?;
    settle(rt, &mut server, &mut one, Call::Sync(Scheme::Simple))?;
    for i in 0..1025 {
        server.edit(i, &[1])?;
    }
    assert_eq!(rt; server.publish()?, 2);
    one.sent.clear();
    one.replies.clear();
    settle(rt, &mut server, &mut one, Call::Ask(7))?;
    settle(rt, &mut server, &mut one, Call::Sync(Scheme::Simple))?;
    let sent = shapes(alloc, one.sent.as_slice())?;
    assert_eq!(rt; sent.as_str(), "(5,13) (4,8) (3,13) ");
    let replies = shapes(alloc, one.replies.as_slice())?;
    assert_eq!(rt; replies.as_str(), "(134,12) (136,12) (131,8013) ");
    settle(rt, &mut server, &mut one, Call::Ask(7))?;
    assert_eq!(rt;
        one.text.as_str(),
        "welcomed 1;simple 1;stale 2;simple 2;retrieved 7 2 1;"
    );
    Ok(())
}

#[test]
fn after_1025_changed_rows_the_hint_comes_by_parts(rt: HostRuntime) -> Result<(), Fail> {
    goes_on_by_parts(&rt, Plain)?;
    goes_on_by_parts(&rt, Lanes)
}
