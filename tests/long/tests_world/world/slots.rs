//! Worlds of form 2, whose records have lengths of their own.

use super::scripts::*;
use super::*;
use client_core::{Event, Scheme};
use pir_world::Outcome;
use version_store::EditError;

/// Two records in slots of three bytes.
const SLOTS: Header = Header {
    form: 2,
    record_len: 3,
    ..TWO_RECORDS
};

/// A world of the records 0a and c8 with one client.
fn slots<K: Kernel>(rt: &impl AllocGlobal, kernel: K) -> Result<World<K>, Fail> {
    let mut records = Vec::new(rt.alloc());
    records.extend_from_slice(&[1, 0, 0x0a, 1, 0, 0xc8])?;
    let mut seeds = Vec::new(rt.alloc());
    seeds.push([0x11; 32])?;
    Ok(World::new(rt.alloc(), kernel, SLOTS.with_records(records), seeds)?)
}

/// Whether the last outcome is the retrieval of a record in a version.
fn has_retrieved<K: Kernel>(world: &World<K>, record: u32, at: u64, wanted: &[u8]) -> bool {
    match world.outcomes().last() {
        Some(Outcome::Reported {
            client: 0,
            event:
                Event::Retrieved {
                    index,
                    version,
                    bytes,
                },
        }) => *index == record && *version == at && bytes.as_slice() == wanted,
        _ => false,
    }
}

/// Asks for a record, and gets it.
fn retrieve<K: Kernel>(
    rt: &impl Abort,
    world: &mut World<K>,
    record: u32,
    at: u64,
    wanted: &[u8],
) -> Result<(), Fail> {
    ask(world, 0, record)?;
    exchange(world, 0)?;
    assert!(rt; has_retrieved(world, record, at, wanted), "record {record} in version {at}");
    Ok(())
}

fn records_change_their_lengths<K: Kernel>(
    rt: &(impl Abort + AllocGlobal),
    kernel: K,
    scheme: Scheme,
) -> Result<(), Fail> {
    let mut world = slots(rt, kernel)?;
    greet(&mut world, 0)?;
    sync(&mut world, 0, scheme, 1)?;
    retrieve(rt, &mut world, 1, 1, &[0xc8])?;
    let edited = edit(rt, 1, &[])?;
    go(&mut world, edited)?;
    let too_long = edit(rt, 0, &[1, 2])?;
    go(&mut world, too_long)?;
    assert!(rt; matches!(
        world.outcomes().last(),
        Some(Outcome::EditRefused { index: 0, fault: EditError::BadLength })
    ));
    go(&mut world, Step::Publish)?;
    ask(&mut world, 0, 1)?;
    exchange(&mut world, 0)?;
    sync(&mut world, 0, scheme, 1)?;
    retrieve(rt, &mut world, 1, 2, &[])?;
    retrieve(rt, &mut world, 0, 2, &[0x0a])
}

#[test]
fn both_kernels_and_both_schemes(rt: HostRuntime) -> Result<(), Fail> {
    for scheme in [Scheme::Simple, Scheme::Double] {
        records_change_their_lengths(&rt, Plain, scheme)?;
        records_change_their_lengths(&rt, Lanes, scheme)?;
    }
    Ok(())
}
