//! Tests of logs: worked bytes, torn and damaged bytes, a disk that fails, and a real file.

ghost use Rattle.std.specs.Prelude.{◌≡◌, IfOk};

use publication_log::{ChangeFault, LogHeader, PublicationBuilder};
use std::alloc::{AllocError, Global};

// How many bytes the header has, and how many it has with the first publication of the example.
const HEADER_LEN: usize = 81;

const FIRST_LEN: usize = 143;

// The snapshot of form 1 that docs/FORMATS.md has as an example. Its fields are not said, which
// keeps them out of the proofs.
fn header() -> LogHeader {
    LogHeader {
        form: 1,
        digest: [
            0x2a, 0xb8, 0xbf, 0x5d, 0x34, 0x12, 0x4c, 0x9e, 0x7e, 0xaf, 0x2d, 0xd4, 0xcb, 0x4f,
            0x65, 0x45, 0xc2, 0xbf, 0x0f, 0x5c, 0x90, 0xe0, 0xae, 0xcf, 0x91, 0xa3, 0xf1, 0x46,
            0xac, 0x72, 0xd2, 0xcd,
        ],
        version: 1,
        seed: [0; 32],
    }
}

// Version 2 of the example: record 1 becomes `ff`, and `07` is appended.
fn first(alloc: Global) -> Result<PublicationBuilder, ChangeFault>
    ensures { IfOk result (λ it. it.version ≡ 2) }
{
    let mut publication = PublicationBuilder::new(alloc, 2)?;
    publication.push(1, &[0xff])?;
    publication.push(2, &[7])?;
    Ok(publication)
}

// Version 3 of the example, which changes nothing.
fn second(alloc: Global) -> Result<PublicationBuilder, AllocError>
    ensures { IfOk result (λ it. it.version ≡ 3) }
{
    PublicationBuilder::new(alloc, 3)
}

// The bytes from one place to another, or none if they end before.
fn part(bytes: &[u8], start: usize, end: usize) -> &[u8] {
    bytes.get(start..end).unwrap_or(&[])
}
