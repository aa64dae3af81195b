//! The example of docs/FORMATS.md, whose bytes were computed by Python's hashlib and struct, and
//! the refusals of a builder.

use super::{FIRST_LEN, HEADER_LEN, first, header, part};
use publication_log::{
    BodyFault, ChangeFault, Changes, Publication, PublicationBuilder, Publications, log_name,
    read_log,
};
use std::alloc::Global;
use std::test::Fail;

// The log of the example: its header, version 2, and version 3, which changes nothing.
const LOG: &str =
    "5049524c4f473031012ab8bf5d34124c9e7eaf2dd4cb4f6545c2bf0f5c90e0aecf91a3f146ac72d2cd0100000000000000\
0000000000000000000000000000000000000000000000000000000000000000\
16000000e9ffffff0200000000000000010000000100ff02000000010007\
cf3258050f412329320c19c15daabcdca958bee0fd5e88b815bc21c39301fafa\
08000000f7ffffff0300000000000000fbde5ae9b8c749105eca3cba5f26777605068d0dc2628944d16a140a102ca93c";

// The bytes of the example.
pub(super) fn example(alloc: Global) -> Result<Vec<u8>, Fail> {
    Ok(hex::decode(alloc, LOG)?)
}

#[test]
fn the_header_and_the_name_are_the_examples(rt: HostRuntime) -> Result<(), Fail> {
    let log = example(rt.alloc())?;
    assert_eq!(rt; log.len(), 191);
    assert_eq!(rt;
        header().to_bytes(rt.alloc())?.as_slice(),
        part(&log, 0, HEADER_LEN)
    );
    let name = log_name(rt.alloc(), "FILE", &header().digest)?;
    assert_eq!(rt; name.as_str(), "FILE.log-2ab8bf5d34124c9e");
    Ok(())
}

// The versions of a log's publications, and after each the places and the records of its changes.
fn all_in(alloc: Global, publications: Publications<'_>) -> Result<Vec<u8>, Fail> {
    let mut found = Vec::new(alloc);
    let mut left = publications;
    while let Some((publication, rest)) = left.split_first() {
        found.extend_from_slice(&publication.version.to_le_bytes())?;
        push_changes(publication.changes, &mut found)?;
        left = rest;
    }
    Ok(found)
}

// Adds the place and the record of each change.
fn push_changes(changes: Changes<'_>, found: &mut Vec<u8>) -> Result<(), Fail> {
    let mut left = changes;
    while let Some((change, rest)) = left.split_first() {
        found.extend_from_slice(&change.place.to_le_bytes())?;
        found.extend_from_slice(change.bytes)?;
        left = rest;
    }
    Ok(())
}

#[test]
fn the_example_is_read(rt: HostRuntime) -> Result<(), Fail> {
    let log = example(rt.alloc())?;
    let found = read_log(rt.alloc(), &header(), &log)?;
    assert_eq!(rt; found.len, log.len());
    assert_eq!(rt; found.version, 3);
    let publications = Publications {
        rest: part(&log, HEADER_LEN, log.len()),
    };
    let wanted = [
        2, 0, 0, 0, 0, 0, 0, 0, 1, 0, 0, 0, 0xff, 2, 0, 0, 0, 7, 3, 0, 0, 0, 0, 0, 0, 0,
    ];
    assert_eq!(rt;
        all_in(rt.alloc(), publications)?.as_slice(),
        wanted.as_slice()
    );
    Ok(())
}

#[test]
fn a_builder_makes_the_example_and_refuses_what_no_publication_has(
    rt: HostRuntime,
) -> Result<(), Fail> {
    let log = example(rt.alloc())?;
    let mut publication = first(rt.alloc())?;
    let body = part(&log, HEADER_LEN + 8, FIRST_LEN - 32);
    assert_eq!(rt; publication.body.as_slice(), body);
    assert_eq!(rt; publication.push(2, &[]), Err(ChangeFault::NotAscending));
    assert_eq!(rt; publication.push(0, &[]), Err(ChangeFault::NotAscending));
    let long = Vec::from_elem(rt.alloc(), 0u8, 65_536)?;
    assert_eq!(rt; publication.push(3, &long), Err(ChangeFault::TooLong));
    assert_eq!(rt; publication.body.as_slice(), body);
    assert_eq!(rt; publication.push(u32::MAX, part(&long, 1, 65_536)), Ok(()));
    assert_eq!(rt;
        publication.push(u32::MAX, &[]),
        Err(ChangeFault::NotAscending)
    );
    Ok(())
}

#[test]
fn bytes_of_no_publication_have_their_fault(rt: HostRuntime) -> Result<(), Fail> {
    let log = example(rt.alloc())?;
    let body = part(&log, HEADER_LEN + 8, FIRST_LEN - 32);
    for len in 0..=22 {
        let is_one = len == 8 || len == 15 || len == 22;
        assert_eq!(rt; Publication::decode(part(body, 0, len)).is_ok(), is_one);
        if !is_one {
            assert!(rt;
                matches!(
                    Publication::decode(part(body, 0, len)),
                    Err(BodyFault::Short)
                )
            );
        }
    }
    let mut swapped = PublicationBuilder::new(rt.alloc(), 2)?.body;
    swapped.extend_from_slice(part(body, 15, 22))?;
    swapped.extend_from_slice(part(body, 8, 15))?;
    assert!(rt; matches!(Publication::decode(&swapped), Err(BodyFault::NotAscending)));
    Ok(())
}
