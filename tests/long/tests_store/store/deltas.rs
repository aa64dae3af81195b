//! The rows that publications changed, of the store of two records.

use super::*;

// Record 0 becomes this byte, and is published.
fn publish_byte<K: Kernel>(rt: &impl Abort, store: &mut Store<K>, byte: u8) {
    assert_eq!(rt; store.edit(0, &[byte]), Ok(()));
    assert_eq!(rt; store.publish().err(), None);
}

// Record 0 becomes other bytes in so many versions.
fn publish_bytes<K: Kernel>(rt: &impl Abort, store: &mut Store<K>, count: u8) {
    for byte in 0..count {
        publish_byte(rt, store, byte.wrapping_add(100));
    }
}

// The rows since a version are these.
pub(crate) fn gives<K: Kernel>(
    rt: &impl Abort,
    store: &Store<K>,
    version: u64,
    expected: Option<&[u32]>,
) -> Result<(), Fail> {
    let found = store.delta_since(version)?;
    assert_eq!(rt; found.as_deref(), expected);
    Ok(())
}

#[test]
fn a_fresh_store_knows_its_own_version(rt: HostRuntime) -> Result<(), Fail> {
    a_fresh_store_knows_its_own_version_on(&rt, rt.alloc(), Plain)?;
    a_fresh_store_knows_its_own_version_on(&rt, rt.alloc(), Lanes)
}

fn a_fresh_store_knows_its_own_version_on<K: Kernel>(
    rt: &impl Abort,
    alloc: Global,
    kernel: K,
) -> Result<(), Fail> {
    let store = two_records(alloc, kernel, 1)?;
    gives(rt, &store, 1, Some(&[]))?;
    gives(rt, &store, 0, None)?;
    gives(rt, &store, 2, None)
}

#[test]
fn sixteen_publications_are_known(rt: HostRuntime) -> Result<(), Fail> {
    sixteen_publications_are_known_on(&rt, rt.alloc(), Plain)?;
    sixteen_publications_are_known_on(&rt, rt.alloc(), Lanes)
}

fn sixteen_publications_are_known_on<K: Kernel>(
    rt: &impl Abort,
    alloc: Global,
    kernel: K,
) -> Result<(), Fail> {
    let mut store = two_records(alloc, kernel, 1)?;
    publish_bytes(rt, &mut store, 16);
    gives(rt, &store, 1, Some(&[0]))?;
    gives(rt, &store, 17, Some(&[]))?;
    publish_byte(rt, &mut store, 99);
    gives(rt, &store, 1, None)?;
    gives(rt, &store, 2, Some(&[0]))
}

#[test]
fn equal_bytes_change_no_row(rt: HostRuntime) -> Result<(), Fail> {
    equal_bytes_change_no_row_on(&rt, rt.alloc(), Plain)?;
    equal_bytes_change_no_row_on(&rt, rt.alloc(), Lanes)
}

fn equal_bytes_change_no_row_on<K: Kernel>(
    rt: &impl Abort,
    alloc: Global,
    kernel: K,
) -> Result<(), Fail> {
    let mut store = two_records(alloc, kernel, 1)?;
    publish_byte(rt, &mut store, 10);
    assert_eq!(rt; store.version(), 2);
    gives(rt, &store, 1, Some(&[]))
}
