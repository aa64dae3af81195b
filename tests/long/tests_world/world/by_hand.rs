//! A world beside its cores, driven by hand.

use super::scripts::*;
use super::*;
use client_core::{CallFault, ClientCore, Event, Scheme};
use server_core::ServerCore;
use std::alloc::Global;
use version_store::Store;

/// A step of the one client, or of the publisher.
#[derive(Clone, Copy)]
enum Move {
    Hello,
    Sync,
    Ask(u32),
    Up(usize),
    Down(usize),
    Edit(u32, u8),
    Publish,
}

/// A query is cut by a publication, the hint is asked for anew, and calls are made out of turn.
const SCRIPT: &[Move] = &[
    Move::Ask(0),
    Move::Hello,
    Move::Sync,
    Move::Up(20),
    Move::Up(ALL),
    Move::Down(3),
    Move::Down(ALL),
    Move::Hello,
    Move::Sync,
    Move::Up(ALL),
    Move::Down(ALL),
    Move::Ask(2),
    Move::Ask(1),
    Move::Ask(1),
    Move::Up(11),
    Move::Publish,
    Move::Edit(1, 0x64),
    Move::Edit(2, 0x64),
    Move::Publish,
    Move::Up(ALL),
    Move::Down(7),
    Move::Down(ALL),
    Move::Ask(1),
    Move::Sync,
    Move::Up(ALL),
    Move::Down(ALL),
    Move::Ask(1),
    Move::Up(ALL),
    Move::Down(17),
    Move::Down(1),
];

/// The cores, the bytes that wait, and what came of the moves so far.
#[derive(Drop)]
struct Hand<K: Kernel> {
    server: ServerCore<K>,
    client: ClientCore<K>,
    up: Vec<u8>,
    down: Vec<u8>,
    text: String,
}

fn opened_hand<K: Kernel>(rt: &impl AllocGlobal, kernel: K) -> Result<Hand<K>, Fail> {
    let store = Store::open(rt.alloc(), kernel, snapshot(rt, TWO_RECORDS)?)?;
    let mut server = ServerCore::new(rt.alloc(), store);
    server.open_session(0)?;
    Ok(Hand {
        server,
        client: ClientCore::new(rt.alloc(), kernel, [0x11; 32], 0),
        up: Vec::new(rt.alloc()),
        down: Vec::new(rt.alloc()),
        text: String::new(rt.alloc()),
    })
}

/// What a call gives is on its way, or the call is refused.
fn call<K: Kernel>(
    rt: &impl AllocGlobal,
    hand: &mut Hand<K>,
    called: Result<Vec<u8>, CallFault>,
) -> Result<(), Fail> {
    match called {
        Ok(bytes) => hand.up.extend_from_slice(bytes.as_slice())?,
        Err(fault) => hand
            .text
            .push_str(&format!(in rt.alloc(); "0 {fault:?};")?)?,
    }
    Ok(())
}

/// Takes at most so many bytes from the beginning.
fn prefix(rt: &impl AllocGlobal, bytes: &mut Vec<u8>, most: usize) -> Result<Vec<u8>, Fail> {
    let n = most.min(bytes.len());
    let prefix = bytes[..n].to_vec(rt.alloc())?;
    let rest = bytes[n..].to_vec(rt.alloc())?;
    *bytes = rest;
    Ok(prefix)
}

fn up<K: Kernel>(rt: &impl AllocGlobal, hand: &mut Hand<K>, most: usize) -> Result<(), Fail> {
    let piece = prefix(rt, &mut hand.up, most)?;
    hand.server.feed(0, piece.as_slice(), &mut hand.down)?;
    Ok(())
}

fn down<K: Kernel>(rt: &impl AllocGlobal, hand: &mut Hand<K>, most: usize) -> Result<(), Fail> {
    let piece = prefix(rt, &mut hand.down, most)?;
    let fed = hand.client.feed(piece.as_slice());
    hand.up.extend_from_slice(fed.out.as_slice())?;
    for event in fed.events.as_slice() {
        hand.text.push_str("0 ")?;
        add_event(rt, &mut hand.text, event)?;
        hand.text.push(';')?;
    }
    Ok(())
}

fn published<K: Kernel>(rt: &impl AllocGlobal, hand: &mut Hand<K>) -> Result<(), Fail> {
    match hand.server.publish() {
        Ok(version) => hand
            .text
            .push_str(&format!(in rt.alloc(); "version {version};")?)?,
        Err(fault) => hand
            .text
            .push_str(&format!(in rt.alloc(); "publish {fault:?};")?)?,
    }
    Ok(())
}

fn edited<K: Kernel>(
    rt: &impl AllocGlobal,
    hand: &mut Hand<K>,
    index: u32,
    byte: u8,
) -> Result<(), Fail> {
    let line = match hand.server.edit(index as usize, &[byte]) {
        Ok(()) => format!(in rt.alloc(); "edited {index};")?,
        Err(fault) => format!(in rt.alloc(); "edit {index} {fault:?};")?,
    };
    hand.text.push_str(&line)?;
    Ok(())
}

fn move_hand<K: Kernel>(rt: &impl AllocGlobal, hand: &mut Hand<K>, one: Move) -> Result<(), Fail> {
    match one {
        Move::Hello => {
            let called = hand.client.hello([0; 32]);
            call(rt, hand, called)
        }
        Move::Sync => {
            let called = hand.client.sync(Scheme::Simple);
            call(rt, hand, called)
        }
        Move::Ask(index) => {
            let called = hand.client.ask(index);
            call(rt, hand, called)
        }
        Move::Up(most) => up(rt, hand, most),
        Move::Down(most) => down(rt, hand, most),
        Move::Edit(index, byte) => edited(rt, hand, index, byte),
        Move::Publish => published(rt, hand),
    }
}

fn step_of(rt: &impl AllocGlobal, one: Move) -> Result<Step, Fail> {
    let client = 0;
    Ok(match one {
        Move::Hello => Step::Hello { client },
        Move::Sync => Step::Sync {
            client,
            scheme: Scheme::Simple,
        },
        Move::Ask(index) => Step::Ask { client, index },
        Move::Up(most) => Step::ToServer { client, most },
        Move::Down(most) => Step::ToClient { client, most },
        Move::Edit(index, byte) => edit(rt, index, &[byte])?,
        Move::Publish => Step::Publish,
    })
}

/// One move of both, and what came of it.
fn both<K: Kernel>(
    rt: &(impl Abort + AllocGlobal),
    world: &mut World<K>,
    hand: &mut Hand<K>,
    one: Move,
) -> Result<(), Fail> {
    let step = step_of(rt, one)?;
    go(world, step)?;
    move_hand(rt, hand, one)?;
    assert_eq!(rt; reported(rt, world)?.as_str(), hand.text.as_str());
    Ok(())
}

fn each_move<K: Kernel>(
    rt: &(impl Abort + AllocGlobal),
    world: &mut World<K>,
    hand: &mut Hand<K>,
) -> Result<(), Fail> {
    for one in SCRIPT {
        both(rt, world, hand, *one)?;
    }
    Ok(())
}

/// The script, by a world and by hand.
fn script<K: Kernel>(
    rt: &(impl Abort + AllocGlobal),
    world: &mut World<K>,
    hand: &mut Hand<K>,
) -> Result<(), Fail> {
    each_move(rt, world, hand)?;
    assert_eq!(rt;
        hand.text.as_str(),
        "0 NotReady;0 NotReady;0 welcomed 1;0 AlreadyWelcome;0 simple 1;0 BadIndex;0 Busy;publish NothingToPublish;edited 1;edit 2 BadIndex;version 2;0 stale 2;0 NotReady;0 simple 2;0 retrieved 1 2 64;"
    );
    Ok(())
}

#[test]
fn a_world_is_its_cores_driven_by_hand(rt: HostRuntime) -> Result<(), Fail> {
    script(
        &rt,
        &mut world(&rt, Plain, TWO_RECORDS)?,
        &mut opened_hand(&rt, Plain)?,
    )?;
    script(
        &rt,
        &mut world(&rt, Lanes, TWO_RECORDS)?,
        &mut opened_hand(&rt, Lanes)?,
    )
}
