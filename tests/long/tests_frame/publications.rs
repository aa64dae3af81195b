//! The log of publications that docs/FORMATS.md has as an example, and what a builder refuses. Its
//! bytes were computed by Python's hashlib and struct.
//!
//! Proved by `tests/long/run --prove`.

use publication_log::{ChangeFault, LogHeader, PublicationBuilder, log_name};
use std::alloc::{AllocError, Global};
use std::test::Fail;

// The header of the example: a snapshot of form 1 and version 1, whose seed is of zeros.
const HEADER: [u8; 81] = [
    0x50, 0x49, 0x52, 0x4c, 0x4f, 0x47, 0x30, 0x31, 0x01, 0x2a, 0xb8, 0xbf, 0x5d, 0x34, 0x12, 0x4c,
    0x9e, 0x7e, 0xaf, 0x2d, 0xd4, 0xcb, 0x4f, 0x65, 0x45, 0xc2, 0xbf, 0x0f, 0x5c, 0x90, 0xe0, 0xae,
    0xcf, 0x91, 0xa3, 0xf1, 0x46, 0xac, 0x72, 0xd2, 0xcd, 0x01, 0x00, 0x00, 0x00, 0x00, 0x00, 0x00,
    0x00, 0x00, 0x00, 0x00, 0x00, 0x00, 0x00, 0x00, 0x00, 0x00, 0x00, 0x00, 0x00, 0x00, 0x00, 0x00,
    0x00, 0x00, 0x00, 0x00, 0x00, 0x00, 0x00, 0x00, 0x00, 0x00, 0x00, 0x00, 0x00, 0x00, 0x00, 0x00,
    0x00,
];

// The body of its first publication: version 2, in which record 1 becomes `ff`, and `07` is
// appended.
const BODY: [u8; 22] = [
    2, 0, 0, 0, 0, 0, 0, 0, 1, 0, 0, 0, 1, 0, 0xff, 2, 0, 0, 0, 1, 0, 7,
];

const DIGEST: [u8; 32] = [
    0x2a, 0xb8, 0xbf, 0x5d, 0x34, 0x12, 0x4c, 0x9e, 0x7e, 0xaf, 0x2d, 0xd4, 0xcb, 0x4f, 0x65, 0x45,
    0xc2, 0xbf, 0x0f, 0x5c, 0x90, 0xe0, 0xae, 0xcf, 0x91, 0xa3, 0xf1, 0x46, 0xac, 0x72, 0xd2, 0xcd,
];

// The bytes of the example's header. They have no clause, which keeps them out of the proofs.
fn header_bytes(alloc: Global) -> Result<Vec<u8>, AllocError> {
    let header = LogHeader {
        form: 1,
        digest: DIGEST,
        version: 1,
        seed: [0; 32],
    };
    header.to_bytes(alloc)
}

#[test]
fn the_header_and_the_name_are_the_examples(rt: HostRuntime) -> Result<(), Fail> {
    assert_eq!(rt; header_bytes(rt.alloc())?.as_slice(), HEADER.as_slice());
    let name = log_name(rt.alloc(), "FILE", &DIGEST)?;
    assert_eq!(rt; name.as_str(), "FILE.log-2ab8bf5d34124c9e");
    Ok(())
}

#[test]
fn a_builder_makes_the_example_and_refuses_places_that_do_not_ascend(
    rt: HostRuntime,
) -> Result<(), Fail> {
    let mut publication = PublicationBuilder::new(rt.alloc(), 2)?;
    publication.push(1, &[0xff])?;
    publication.push(2, &[7])?;
    assert_eq!(rt; publication.push(2, &[]), Err(ChangeFault::NotAscending));
    assert_eq!(rt; publication.body.as_slice(), BODY.as_slice());
    Ok(())
}
