//! Worlds whose versions have more and more records.

use super::scripts::*;
use super::*;
use client_core::{Event, Scheme};
use frame_codec::Bytes;
use pir_world::Outcome;
use version_store::AppendError;

fn append(rt: &impl AllocGlobal, bytes: &[u8]) -> Result<Step, Fail> {
    let mut copy = Vec::new(rt.alloc());
    copy.extend_from_slice(bytes)?;
    Ok(Step::Append {
        bytes: Bytes::new(copy),
    })
}

/// An append of a record of one byte, and its publication.
fn grow<K: Kernel>(rt: &impl AllocGlobal, world: &mut World<K>, byte: u8) -> Result<(), Fail> {
    let step = append(rt, &[byte])?;
    go(world, step)?;
    go(world, Step::Publish)
}

/// A query of the version before is stale though it has as many words as that version wants, and
/// the new record is there.
fn a_query_of_the_count_before<K: Kernel>(
    rt: &(impl Abort + AllocGlobal),
    world: &mut World<K>,
    scheme: Scheme,
    text: &str,
) -> Result<(), Fail> {
    greet_and_sync(world, 0, scheme)?;
    ask(world, 0, 1)?;
    to_server(world, 0, 11)?;
    grow(rt, world, 5)?;
    exchange(world, 0)?;
    ask(world, 0, 2)?;
    retrieve(world, 0, scheme, 2)?;
    ask(world, 0, 3)?;
    assert_eq!(rt; reported(rt, world)?.as_str(), text);
    Ok(())
}

#[test]
fn queries_of_the_count_before_are_stale(rt: HostRuntime) -> Result<(), Fail> {
    let simple =
        "0 welcomed 1;0 simple 1;appended;version 2;0 stale 2;0 NotReady;0 simple 2;0 retrieved 2 2 5;0 BadIndex;";
    let double =
        "0 welcomed 1;0 double 1;appended;version 2;0 stale 2;0 NotReady;0 double 2;0 retrieved 2 2 5;0 BadIndex;";
    a_query_of_the_count_before(
        &rt,
        &mut world(&rt, Plain, TWO_RECORDS)?,
        Scheme::Simple,
        simple,
    )?;
    a_query_of_the_count_before(
        &rt,
        &mut world(&rt, Lanes, TWO_RECORDS)?,
        Scheme::Simple,
        simple,
    )?;
    a_query_of_the_count_before(
        &rt,
        &mut world(&rt, Plain, TWO_RECORDS)?,
        Scheme::Double,
        double,
    )?;
    a_query_of_the_count_before(
        &rt,
        &mut world(&rt, Lanes, TWO_RECORDS)?,
        Scheme::Double,
        double,
    )
}

/// Gets each record of version 4, whose bytes are these.
fn all_of_version_four<K: Kernel>(
    rt: &(impl Abort + AllocGlobal),
    world: &mut World<K>,
    client: usize,
) -> Result<(), Fail> {
    for (index, byte) in [0x0bu8, 0xc8, 5, 6, 7].iter().enumerate() {
        ask(world, client, index as u32)?;
        exchange(world, client)?;
        assert!(rt;
            matches!(
            world.outcomes().last(),
            Some(Outcome::Reported { event: Event::Retrieved { index: i, version: 4, bytes }, .. })
                if *i == index as u32 && bytes.as_slice() == [*byte].as_slice()
        ),
            "record {index}"
        );
    }
    Ok(())
}

/// Versions 2 and 4 grow, version 3 is an edit; the client of version 1 catches up with one delta.
fn one_delta_over_growths<K: Kernel>(
    rt: &(impl Abort + AllocGlobal),
    world: &mut World<K>,
) -> Result<(), Fail> {
    greet_and_sync(world, 0, Scheme::Simple)?;
    greet_and_sync(world, 1, Scheme::Double)?;
    grow(rt, world, 5)?;
    publish(rt, world, 0, 0x0b)?;
    let step = append(rt, &[6])?;
    go(world, step)?;
    grow(rt, world, 7)?;
    sync(world, 0, Scheme::Simple, 1)?;
    all_of_version_four(rt, world, 0)?;
    ask(world, 1, 0)?;
    exchange(world, 1)?;
    sync(world, 1, Scheme::Double, 1)?;
    all_of_version_four(rt, world, 1)
}

#[test]
fn a_delta_brings_a_hint_over_growths(rt: HostRuntime) -> Result<(), Fail> {
    one_delta_over_growths(&rt, &mut world(&rt, Plain, TWO_RECORDS)?)?;
    one_delta_over_growths(&rt, &mut world(&rt, Lanes, TWO_RECORDS)?)
}

/// The second part of a hint is asked for after the version has grown.
fn a_hint_cut_by_a_growth<K: Kernel>(
    rt: &(impl Abort + AllocGlobal),
    world: &mut World<K>,
) -> Result<(), Fail> {
    greet(world, 0)?;
    sync(world, 0, Scheme::Simple, 1)?;
    grow(rt, world, 5)?;
    exchange(world, 0)?;
    ask(world, 0, 0)?;
    sync(world, 0, Scheme::Simple, 2)?;
    ask(world, 0, 66)?;
    exchange(world, 0)?;
    assert_eq!(rt;
        reported(rt, world)?.as_str(),
        "0 welcomed 1;appended;version 2;0 stale 2;0 NotReady;0 simple 2;0 retrieved 66 2 5;"
    );
    Ok(())
}

#[test]
fn a_growth_between_two_parts_of_a_hint(rt: HostRuntime) -> Result<(), Fail> {
    let header = Header {
        groups: 66,
        count: 66,
        dimension: 1024,
        ..TWO_RECORDS
    };
    a_hint_cut_by_a_growth(&rt, &mut world(&rt, Lanes, header)?)
}

/// An append is refused for its length, and then for the room; one that was accepted may be edited
/// before its publication.
fn appends_are_refused<K: Kernel>(rt: &(impl Abort + AllocGlobal), kernel: K) -> Result<(), Fail> {
    let header = Header {
        count: 4095,
        ..TWO_RECORDS
    };
    let mut world = world(rt, kernel, header)?;
    for bytes in [&[][..], &[1, 2], &[9], &[1], &[1, 2]] {
        let step = append(rt, bytes)?;
        go(&mut world, step)?;
    }
    publish(rt, &mut world, 4095, 0x0c)?;
    assert_eq!(rt;
        reported(rt, &world)?.as_str(),
        "append BadLength;append BadLength;appended;append Full;append BadLength;edited 4095;version 2;"
    );
    assert!(rt;
        matches!(
            world.outcomes().get(3),
            Some(Outcome::AppendRefused {
                fault: AppendError::Full
            })
        )
    );
    greet_and_sync(&mut world, 0, Scheme::Simple)?;
    ask(&mut world, 0, 4095)?;
    exchange(&mut world, 0)?;
    assert!(rt;
        matches!(
        world.outcomes().last(),
        Some(Outcome::Reported { event: Event::Retrieved { index: 4095, version: 2, bytes }, .. })
            if bytes.as_slice() == [0x0cu8].as_slice()
    )
    );
    Ok(())
}

#[test]
fn refused_appends(rt: HostRuntime) -> Result<(), Fail> {
    appends_are_refused(&rt, Plain)?;
    appends_are_refused(&rt, Lanes)
}
