//! What the tests of the store have in common.
//!
//! Proved by `tests/long/run --prove`.

use digit_pack::is_wide;
use lane_kernels::Lanes;
use matrix_u32::{Kernel, Plain};
use std::alloc::Global;
use std::process::Abort;
use std::test::Fail;
use test_support::{RECORDS, TWO_RECORDS};
use version_store::{
    AppendError, EditError, Header, OpenError, PublishError, Scheme, Snapshot, Store, laws,
    read_snapshot, write_snapshot,
};

/// The hints of both schemes for records 0a and c8, computed from the definitions by a program of
/// another language.
const FIRST_HINT: u32 = 2066479516;

const DOUBLE_HINT: [u32; 4] = [4027250084, 4280627063, 394247461, 1027848149];

// The calls below have no clause, so that a test doesn't carry theirs.

fn open<K: Kernel>(alloc: Global, kernel: K, snapshot: Snapshot) -> Result<Store<K>, OpenError> {
    Store::open(alloc, kernel, snapshot)
}

fn edit<K: Kernel>(store: &mut Store<K>, i: usize, bytes: &[u8]) -> Result<(), EditError> {
    store.edit(i, bytes)
}

fn append<K: Kernel>(store: &mut Store<K>, bytes: &[u8]) -> Result<(), AppendError> {
    store.append(bytes)
}

fn publish<K: Kernel>(store: &mut Store<K>) -> Result<u64, PublishError> {
    store.publish()
}

fn version<K: Kernel>(store: &Store<K>) -> u64 {
    store.version()
}

// The bytes of the records; none of a wide store's, which are in its digits alone.
fn bytes<K: Kernel>(store: &Store<K>) -> &[u8] {
    if is_wide(u16::from(store.form())) {
        return &[];
    }
    store.bytes()
}

fn digit_words<K: Kernel>(store: &Store<K>) -> &[u32] {
    store.digit_words()
}

fn server_words<K: Kernel>(store: &Store<K>) -> &[u32] {
    store.server_words()
}

fn hint_words<K: Kernel>(store: &Store<K>, scheme: Scheme) -> Option<&[u32]> {
    store.hint_words(scheme, 0)
}

// The store of two records, at some version.
fn two_records<K: Kernel>(alloc: Global, kernel: K, version: u64) -> Result<Store<K>, Fail> {
    let header = Header {
        version,
        ..TWO_RECORDS
    };
    let snapshot = header.with_records(RECORDS.to_vec(alloc)?);
    let store = open(alloc, kernel, snapshot)?;
    Ok(store)
}

// Compares words. It has no clause, so that a test carries none of them.
fn are_words(rt: &impl Abort, words: &[u32], wanted: &[u32]) {
    assert_eq!(rt; words, wanted);
}

// Compares the first part of a hint.
fn hint_is<K: Kernel>(rt: &impl Abort, store: &Store<K>, scheme: Scheme, wanted: &[u32]) {
    match hint_words(store, scheme) {
        Some(words) => are_words(rt, words, wanted),
        None => panic!(rt; "there is no hint"),
    }
}

// Compares the version, the records, the word of their digits and that of the first hint.
fn is_at<K: Kernel>(
    rt: &impl Abort,
    store: &Store<K>,
    number: u64,
    records: &[u8],
    digits: u32,
    hint: u32,
) {
    assert_eq!(rt; version(store), number);
    assert_eq!(rt; bytes(store), records);
    are_words(rt, digit_words(store), &[digits]);
    hint_is(rt, store, Scheme::Simple, &[hint]);
}

// A snapshot of the store, as a file has it.
fn written<K: Kernel>(alloc: Global, store: &Store<K>) -> Result<Vec<u8>, Fail> {
    let mut file = Vec::with_capacity(alloc, 125)?;
    write_snapshot(alloc, store, &mut file)?;
    Ok(file)
}

fn read_back(alloc: Global, mut file: &[u8]) -> Result<Snapshot, Fail> {
    let snapshot = read_snapshot(alloc, &mut file)?;
    Ok(snapshot)
}
