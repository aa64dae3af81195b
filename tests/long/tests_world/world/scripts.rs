//! Scripts of steps, and what comes of them.

use super::*;
use client_core::{Event, Scheme};
use frame_codec::Bytes;
use pir_world::Outcome;

pub fn edit(rt: &impl AllocGlobal, index: u32, bytes: &[u8]) -> Result<Step, Fail> {
    let mut copy = Vec::new(rt.alloc());
    copy.extend_from_slice(bytes)?;
    Ok(Step::Edit {
        index,
        bytes: Bytes::new(copy),
    })
}

pub fn ask<K: Kernel>(world: &mut World<K>, client: usize, index: u32) -> Result<(), Fail> {
    go(world, Step::Ask { client, index })
}

/// An edit of a record of one byte, and its publication.
pub fn publish<K: Kernel>(
    rt: &impl AllocGlobal,
    world: &mut World<K>,
    index: u32,
    byte: u8,
) -> Result<(), Fail> {
    let step = edit(rt, index, &[byte])?;
    go(world, step)?;
    go(world, Step::Publish)
}

/// A sync whose hint has this many parts.
pub fn sync<K: Kernel>(
    world: &mut World<K>,
    client: usize,
    scheme: Scheme,
    parts: usize,
) -> Result<(), Fail> {
    go(world, Step::Sync { client, scheme })?;
    for _ in 0..parts {
        exchange(world, client)?;
    }
    Ok(())
}

pub fn add_event(rt: &impl AllocGlobal, text: &mut String, event: &Event) -> Result<(), Fail> {
    let line = match event {
        Event::Welcomed(version) => format!(in rt.alloc(); "welcomed {version}")?,
        Event::Synced(Scheme::Simple, version) => format!(in rt.alloc(); "simple {version}")?,
        Event::Synced(Scheme::Double, version) => format!(in rt.alloc(); "double {version}")?,
        Event::Retrieved {
            index,
            version,
            bytes,
        } => {
            let mut number = 0u64;
            for byte in bytes.as_slice() {
                number = (number % 65_536) * 256 + *byte as u64;
            }
            format!(in rt.alloc(); "retrieved {index} {version} {number:x}")?
        }
        Event::Unreadable { index, version } => {
            format!(in rt.alloc(); "unreadable {index} {version}")?
        }
        Event::Stale(version) => format!(in rt.alloc(); "stale {version}")?,
        Event::Done(version) => format!(in rt.alloc(); "done {version}")?,
        Event::Refused(code) => format!(in rt.alloc(); "refused {code}")?,
    };
    text.push_str(&line)?;
    Ok(())
}

/// What came of the steps so far, with a semicolon after each.
pub fn reported<K: Kernel>(rt: &impl AllocGlobal, world: &World<K>) -> Result<String, Fail> {
    let mut text = String::new(rt.alloc());
    for outcome in world.outcomes() {
        match outcome {
            Outcome::Edited { index } => text.push_str(&format!(in rt.alloc(); "edited {index}")?)?,
            Outcome::EditRefused { index, fault } => {
                text.push_str(&format!(in rt.alloc(); "edit {index} {fault:?}")?)?
            }
            Outcome::Appended => text.push_str("appended")?,
            Outcome::AppendRefused { fault } => {
                text.push_str(&format!(in rt.alloc(); "append {fault:?}")?)?
            }
            Outcome::Published { version } => {
                text.push_str(&format!(in rt.alloc(); "version {version}")?)?
            }
            Outcome::PublishRefused { fault } => {
                text.push_str(&format!(in rt.alloc(); "publish {fault:?}")?)?
            }
            Outcome::Reported { client, event } => {
                text.push_str(&format!(in rt.alloc(); "{client} ")?)?;
                add_event(rt, &mut text, event)?;
            }
            Outcome::CallRefused { client, fault } => {
                text.push_str(&format!(in rt.alloc(); "{client} {fault:?}")?)?
            }
            Outcome::Failed { client, fault } => {
                text.push_str(&format!(in rt.alloc(); "{client} failed {fault:?}")?)?
            }
        }
        text.push(';')?;
    }
    Ok(text)
}

pub fn greet_and_sync<K: Kernel>(
    world: &mut World<K>,
    client: usize,
    scheme: Scheme,
) -> Result<(), Fail> {
    greet(world, client)?;
    sync(world, client, scheme, 1)
}

pub fn retrieve<K: Kernel>(
    world: &mut World<K>,
    client: usize,
    scheme: Scheme,
    index: u32,
) -> Result<(), Fail> {
    sync(world, client, scheme, 1)?;
    ask(world, client, index)?;
    exchange(world, client)
}

/// Client 0's query is cut by a publication, and client 1's comes before it.
pub fn cut_query<K: Kernel>(rt: &impl AllocGlobal, world: &mut World<K>) -> Result<(), Fail> {
    ask(world, 0, 1)?;
    to_server(world, 0, 11)?;
    ask(world, 1, 1)?;
    to_server(world, 1, ALL)?;
    publish(rt, world, 1, 0x64)?;
    exchange(world, 0)?;
    to_client(world, 1, ALL)
}

/// Both clients, each with a scheme of its own.
pub fn cut_and_whole<K: Kernel>(
    rt: &(impl Abort + AllocGlobal),
    world: &mut World<K>,
    cut: Scheme,
    whole: Scheme,
    text: &str,
) -> Result<(), Fail> {
    greet_and_sync(world, 0, cut)?;
    greet_and_sync(world, 1, whole)?;
    cut_query(rt, world)?;
    retrieve(world, 0, cut, 1)?;
    assert_eq!(rt; reported(rt, world)?.as_str(), text);
    Ok(())
}

#[test]
fn a_query_of_simple_pir_cut_by_a_publication(rt: HostRuntime) -> Result<(), Fail> {
    cut_and_whole(
        &rt,
        &mut world(&rt, Plain, TWO_RECORDS)?,
        Scheme::Simple,
        Scheme::Double,
        "0 welcomed 1;0 simple 1;1 welcomed 1;1 double 1;edited 1;version 2;0 stale 2;1 retrieved 1 1 c8;0 simple 2;0 retrieved 1 2 64;",
    )?;
    cut_and_whole(
        &rt,
        &mut world(&rt, Lanes, TWO_RECORDS)?,
        Scheme::Simple,
        Scheme::Double,
        "0 welcomed 1;0 simple 1;1 welcomed 1;1 double 1;edited 1;version 2;0 stale 2;1 retrieved 1 1 c8;0 simple 2;0 retrieved 1 2 64;",
    )
}

#[test]
fn a_query_of_double_pir_cut_by_a_publication(rt: HostRuntime) -> Result<(), Fail> {
    cut_and_whole(
        &rt,
        &mut world(&rt, Plain, TWO_RECORDS)?,
        Scheme::Double,
        Scheme::Simple,
        "0 welcomed 1;0 double 1;1 welcomed 1;1 simple 1;edited 1;version 2;0 stale 2;1 retrieved 1 1 c8;0 double 2;0 retrieved 1 2 64;",
    )?;
    cut_and_whole(
        &rt,
        &mut world(&rt, Lanes, TWO_RECORDS)?,
        Scheme::Double,
        Scheme::Simple,
        "0 welcomed 1;0 double 1;1 welcomed 1;1 simple 1;edited 1;version 2;0 stale 2;1 retrieved 1 1 c8;0 double 2;0 retrieved 1 2 64;",
    )
}

pub fn single_bytes<K: Kernel>(
    rt: &(impl Abort + AllocGlobal),
    world: &mut World<K>,
) -> Result<(), Fail> {
    greet(world, 0)?;
    sync(world, 0, Scheme::Simple, 1)?;
    ask(world, 0, 0)?;
    for _ in 0..22 {
        to_server(world, 0, 1)?;
    }
    to_server(world, 0, 1)?;
    assert_eq!(rt; count(world), 2);
    for _ in 0..17 {
        to_client(world, 0, 1)?;
    }
    assert_eq!(rt; count(world), 2);
    to_client(world, 0, 1)?;
    assert_eq!(rt;
        reported(rt, world)?.as_str(),
        "0 welcomed 1;0 simple 1;0 retrieved 0 1 a;"
    );
    Ok(())
}

#[test]
fn byte_by_byte(rt: HostRuntime) -> Result<(), Fail> {
    single_bytes(&rt, &mut world(&rt, Plain, TWO_RECORDS)?)?;
    single_bytes(&rt, &mut world(&rt, Lanes, TWO_RECORDS)?)
}

pub fn two_parts<K: Kernel>(
    rt: &(impl Abort + AllocGlobal),
    world: &mut World<K>,
) -> Result<(), Fail> {
    greet(world, 0)?;
    sync(world, 0, Scheme::Simple, 1)?;
    publish(rt, world, 3, 0x11)?;
    exchange(world, 0)?;
    ask(world, 0, 0)?;
    sync(world, 0, Scheme::Simple, 2)?;
    publish(rt, world, 5, 0x22)?;
    publish(rt, world, 7, 0x33)?;
    ask(world, 0, 0)?;
    exchange(world, 0)?;
    sync(world, 0, Scheme::Simple, 2)?;
    ask(world, 0, 7)?;
    exchange(world, 0)?;
    assert_eq!(rt;
        reported(rt, world)?.as_str(),
        "0 welcomed 1;edited 3;version 2;0 stale 2;0 NotReady;0 simple 2;edited 5;version 3;edited 7;version 4;0 stale 4;0 simple 4;0 retrieved 7 4 33;"
    );
    Ok(())
}

#[test]
fn a_hint_of_two_parts_between_publications(rt: HostRuntime) -> Result<(), Fail> {
    let header = Header {
        groups: 66,
        count: 66,
        dimension: 1024,
        ..TWO_RECORDS
    };
    // The plain kernel would take minutes for hints of this size.
    two_parts(&rt, &mut world(&rt, Lanes, header)?)
}

/// What a step is refused for.
pub fn refusal<K: Kernel>(world: &mut World<K>, step: Step) -> Option<StepFault> {
    world.step(step).err()
}

pub fn refusals<K: Kernel>(
    rt: &(impl Abort + AllocGlobal),
    world: &mut World<K>,
) -> Result<(), Fail> {
    let refused = refusal(world, Step::Hello { client: 5 });
    assert_eq!(rt; refused, Some(StepFault::NoClient));
    assert_eq!(rt; steps(world), 0);
    go(world, Step::Publish)?;
    let other = edit(rt, 2, &[1])?;
    go(world, other)?;
    let long = edit(rt, 0, &[1, 2])?;
    go(world, long)?;
    ask(world, 1, 0)?;
    greet(world, 1)?;
    sync(world, 1, Scheme::Double, 1)?;
    assert_eq!(rt;
        reported(rt, world)?.as_str(),
        "publish NothingToPublish;edit 2 BadIndex;edit 0 BadLength;1 NotReady;1 welcomed 1;1 double 1;"
    );
    assert_eq!(rt; steps(world), 10);
    Ok(())
}

#[test]
fn refused_steps(rt: HostRuntime) -> Result<(), Fail> {
    refusals(&rt, &mut world(&rt, Plain, TWO_RECORDS)?)?;
    refusals(&rt, &mut world(&rt, Lanes, TWO_RECORDS)?)
}
