//! What the tests of the server have in common.
//!
//! Proved by `tests/long/run --prove`.

use lane_kernels::Lanes;
use matrix_u32::{Kernel, Plain};
use server_core::{FeedError, ServerCore, SessionError, laws};
use std::alloc::Global;
use std::process::Abort;
use std::test::Fail;
use test_support::{RECORDS, TWO_RECORDS};
use version_store::{Header, Store};

// A greeting, but its key.
const GREETING: &[u8] = &[0x22, 0, 0, 0, 0x02, 1, 0];

// What an accepted greeting is answered at version 1, but the seed of zeros.
const WELCOME: &[u8] = &[
    0x35, 0, 0, 0, 0x82, 1, 0, 8, 1, 0, 1, 0, 2, 0, 0, 0, 1, 0, 0, 0, 0, 0, 0, 0, 1, 0,
];

const HINT_ASK: &[u8] = &[0x0d, 0, 0, 0, 0x03, 0, 1, 0, 0, 0, 0, 0, 0, 0, 0, 0, 0, 0];

const HINT_PART: &[u8] = &[
    0x11, 0, 0, 0, 0x83, 0, 1, 0, 0, 0, 0, 0, 0, 0, 0, 0, 0, 0, 0x9c, 0xf9, 0x2b, 0x7b,
];

const QUERY: &[u8] = &[
    0x11, 0, 0, 0, 0x05, 0, 1, 0, 0, 0, 0, 0, 0, 0, 0x16, 0, 0, 0, 0x21, 0, 0, 1,
];

const ANSWER: &[u8] = &[
    0x0d, 0, 0, 0, 0x85, 0, 1, 0, 0, 0, 0, 0, 0, 0, 0xa4, 0x1a, 0, 0xc8,
];

// The same query but for its first word, which is odd: the first record, 10, is added once more.
const ODD_QUERY: &[u8] = &[
    0x11, 0, 0, 0, 0x05, 0, 1, 0, 0, 0, 0, 0, 0, 0, 0x17, 0, 0, 0, 0x21, 0, 0, 1,
];

const ODD_ANSWER: &[u8] = &[
    0x0d, 0, 0, 0, 0x85, 0, 1, 0, 0, 0, 0, 0, 0, 0, 0xae, 0x1a, 0, 0xc8,
];

const BYE: &[u8] = &[0, 0, 0, 0, 0x08];

const ZEROS: &[u8] = &[0; 32];

// The calls below have no clause, so that a test doesn't carry theirs.

fn feed<K: Kernel>(
    server: &mut ServerCore<K>,
    id: u64,
    piece: &[u8],
    out: &mut Vec<u8>,
) -> Result<(), FeedError> {
    server.feed(id, piece, out)
}

fn open_session<K: Kernel>(server: &mut ServerCore<K>, id: u64) -> Result<(), SessionError> {
    server.open_session(id)
}

fn close_session<K: Kernel>(server: &mut ServerCore<K>, id: u64) -> bool {
    server.close_session(id)
}

fn has_session<K: Kernel>(server: &ServerCore<K>, id: u64) -> bool {
    server.has_session(id)
}

// The sizes of a store of so many records of one byte, each a column of its own.
fn header(count: u32, version: u64) -> Header {
    Header {
        count,
        version,
        ..TWO_RECORDS
    }
}

// A server of records of one byte, each a column of its own, with a session 0.
fn server<K: Kernel>(
    alloc: Global,
    kernel: K,
    records: &[u8],
    version: u64,
) -> Result<ServerCore<K>, Fail> {
    let header = header(u32::try_from(records.len()).unwrap_or(0), version);
    let snapshot = header.with_records(records.to_vec(alloc)?);
    let mut server = ServerCore::new(alloc, Store::open(alloc, kernel, snapshot)?);
    open_session(&mut server, 0)?;
    Ok(server)
}

// Bytes one after another.
fn joined(alloc: Global, parts: &[&[u8]]) -> Result<Vec<u8>, Fail> {
    let mut whole = Vec::new(alloc);
    for part in parts {
        whole.extend_from_slice(part)?;
    }
    Ok(whole)
}

// Pieces of one session, each with what it is answered.
type Dialogue = &'static [(&'static [&'static [u8]], &'static [&'static [u8]])];

// Feeds a session a piece, and compares what it is answered.
fn check<K: Kernel>(
    rt: &impl Abort,
    alloc: Global,
    server: &mut ServerCore<K>,
    id: u64,
    asked: &[&[u8]],
    reported: &[&[u8]],
) -> Result<(), Fail> {
    let piece = joined(alloc, asked)?;
    let wanted = joined(alloc, reported)?;
    let mut out = Vec::new(alloc);
    feed(server, id, &piece, &mut out)?;
    assert_eq!(rt; out.as_slice(), wanted.as_slice());
    Ok(())
}

// A reader's session. Nothing is said once it has taken its leave.
const RETRIEVAL: Dialogue = &[
    (&[GREETING, ZEROS], &[WELCOME, ZEROS]),
    (&[HINT_ASK], &[HINT_PART]),
    (&[QUERY], &[ANSWER]),
    (&[ODD_QUERY], &[ODD_ANSWER]),
    (&[BYE, QUERY], &[]),
    (&[GREETING, ZEROS, QUERY], &[]),
];
