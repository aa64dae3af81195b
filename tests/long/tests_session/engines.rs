//! What the tests of both engines have in common.
//!
//! Proved by `tests/long/run --prove`.

use blocking_io::{ConverseFault, Ending, ServeFault, converse, serve};
use client_core::{CallFault, ClientCore, Event};
use lane_kernels::Lanes;
use matrix_u32::{Kernel, Plain};
use server_core::ServerCore;
use std::alloc::{AllocError, Global};
use std::io::{Read, Write};
use std::process::Abort;
use std::test::Fail;
use test_support::{RECORDS, TWO_RECORDS};
use version_store::Store;

// A greeting but its key, and what it is answered but the seed of zeros.
const GREETING: &[u8] = &[0x22, 0, 0, 0, 0x02, 2, 0];

const WELCOME: &[u8] = &[
    0x35, 0, 0, 0, 0x82, 1, 0, 8, 1, 0, 1, 0, 2, 0, 0, 0, 1, 0, 0, 0, 0, 0, 0, 0, 1, 0,
];

const HINT_ASK: &[u8] = &[0x0d, 0, 0, 0, 0x03, 0, 1, 0, 0, 0, 0, 0, 0, 0, 0, 0, 0, 0];

const HINT_PART: &[u8] = &[
    0x11, 0, 0, 0, 0x83, 0, 1, 0, 0, 0, 0, 0, 0, 0, 0, 0, 0, 0, 0x9c, 0xf9, 0x2b, 0x7b,
];

const BYE: &[u8] = &[0, 0, 0, 0, 0x08];

const ZEROS: [u8; 32] = [0; 32];

const TURNS: u64 = 1000;

fn joined(alloc: Global, parts: &[&[u8]]) -> Result<Vec<u8>, AllocError> {
    let mut bytes = Vec::new(alloc);
    for part in parts {
        bytes.extend_from_slice(part)?;
    }
    Ok(bytes)
}

// A server of it, without a session.
fn server<K: Kernel>(alloc: Global, kernel: K) -> Result<ServerCore<K>, Fail> {
    let snapshot = TWO_RECORDS.with_records(RECORDS.to_vec(alloc)?);
    Ok(ServerCore::new(alloc, Store::open(alloc, kernel, snapshot)?))
}

fn client<K: Kernel>(alloc: Global, kernel: K) -> ClientCore<K> {
    ClientCore::new(alloc, kernel, ZEROS, 0)
}

// The calls below have no clause, so that a test doesn't carry theirs.

fn serve_all<K: Kernel, R: Read, W: Write>(
    alloc: Global,
    server: &mut ServerCore<K>,
    id: u64,
    reader: &mut R,
    writer: &mut W,
    turns: u64,
) -> Result<Ending, ServeFault> {
    serve(alloc, server, id, reader, writer, turns)
}

fn converse_all<K: Kernel, R: Read, W: Write>(
    alloc: Global,
    client: &mut ClientCore<K>,
    first: &[u8],
    reader: &mut R,
    writer: &mut W,
    turns: u64,
) -> Result<Event, ConverseFault> {
    converse(alloc, client, first, reader, writer, turns)
}

fn hello<K: Kernel>(client: &mut ClientCore<K>, key: [u8; 32]) -> Result<Vec<u8>, CallFault> {
    client.hello(key)
}
