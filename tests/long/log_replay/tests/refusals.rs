//! Each refusal of a publication, on a store and on a snapshot's records.

use super::{fault_on_records, fault_on_store, snapshot};
use log_replay::ReplayFault;
use publication_log::PublicationBuilder;
use std::alloc::Global;
use std::process::Abort;
use std::test::Fail;

// A publication of one change.
fn one(alloc: Global, version: u64, place: u32, bytes: &[u8]) -> Result<PublicationBuilder, Fail> {
    let mut publication = PublicationBuilder::new(alloc, version)?;
    publication.push(place, bytes)?;
    Ok(publication)
}

// Whether both refuse a publication of a form, or both replay it.
fn is_refused(
    rt: &impl Abort,
    alloc: Global,
    form: u8,
    publication: &PublicationBuilder,
) -> Result<bool, Fail> {
    let first = fault_on_store(alloc, snapshot(alloc, form)?, publication)?;
    let second = fault_on_records(&mut snapshot(alloc, form)?, publication)?;
    assert_eq!(rt; first, second);
    Ok(first == Some(ReplayFault::BadPublication))
}

#[test]
fn a_publication_of_another_version_is_refused(rt: HostRuntime) -> Result<(), Fail> {
    let alloc = rt.alloc();
    for version in 0..5 {
        let publication = one(alloc, version, 1, &[1])?;
        assert_eq!(rt; is_refused(&rt, alloc, 1, &publication)?, version != 2);
    }
    Ok(())
}

#[test]
fn a_publication_without_changes_is_refused(rt: HostRuntime) -> Result<(), Fail> {
    let alloc = rt.alloc();
    let publication = PublicationBuilder::new(alloc, 2)?;
    assert!(rt; is_refused(&rt, alloc, 129, &publication)?);
    Ok(())
}

#[test]
fn a_place_past_the_next_one_is_refused(rt: HostRuntime) -> Result<(), Fail> {
    let alloc = rt.alloc();
    for place in 0..5 {
        let publication = one(alloc, 2, place, &[1])?;
        assert_eq!(rt; is_refused(&rt, alloc, 1, &publication)?, place > 2);
    }
    Ok(())
}

#[test]
fn bytes_that_are_no_record_are_refused(rt: HostRuntime) -> Result<(), Fail> {
    let alloc = rt.alloc();
    let none = one(alloc, 2, 2, &[])?;
    let two = one(alloc, 2, 2, &[1, 2])?;
    assert!(rt; is_refused(&rt, alloc, 1, &none)?);
    assert!(rt; is_refused(&rt, alloc, 129, &two)?);
    assert!(rt; !is_refused(&rt, alloc, 2, &none)?);
    assert!(rt; is_refused(&rt, alloc, 2, &two)?);
    Ok(())
}
