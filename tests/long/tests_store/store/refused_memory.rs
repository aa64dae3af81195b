//! Memory that is refused once: the call that reports it has changed nothing, and is done when it
//! is made again. With ample memory no call here is refused. `tests/memory/run --all` refuses each
//! request of these tests in turn, and they pass each time.
//!
//! Proved by `tests/long/run --prove`.

use super::*;
use std::alloc::AllocError;

// The bytes of seven records of three; some of them are others where `is_changed`.
fn seven_times_three(alloc: Global, is_changed: bool) -> Result<Vec<u8>, AllocError> {
    let mut bytes = Vec::new(alloc);
    for i in 0..21u8 {
        bytes.push(match i {
            4 if is_changed => 9,
            9 if is_changed => 0,
            20 if is_changed => 255,
            _ => i * 11,
        })?;
    }
    Ok(bytes)
}

// The store of these records, two to a column.
pub(crate) fn seven_records<K: Kernel>(
    alloc: Global,
    kernel: K,
    is_changed: bool,
) -> Result<Store<K>, OpenError> {
    let header = Header {
        form: 1,
        width: 6,
        record_len: 3,
        groups: 2,
        count: 7,
        dimension: 5,
        ..TWO_RECORDS
    };
    let Ok(bytes) = seven_times_three(alloc, is_changed) else {
        return Err(OpenError::Memory);
    };
    open(alloc, kernel, header.with_records(bytes))
}

// The store of seven records, opened again where memory was refused.
fn opened<K: Kernel>(alloc: Global, kernel: K, is_changed: bool) -> Result<Store<K>, OpenError> {
    match seven_records(alloc, kernel, is_changed) {
        Ok(store) => Ok(store),
        Err(_) => seven_records(alloc, kernel, is_changed),
    }
}

// Compares the first part of a hint of two stores.
fn holds_the_same_hint<K: Kernel>(
    rt: &impl Abort,
    store: &Store<K>,
    other: &Store<K>,
    scheme: Scheme,
) {
    match hint_words(other, scheme) {
        Some(wanted) => hint_is(rt, store, scheme, wanted),
        None => panic!(rt; "there is no hint"),
    }
}

// Compares all that two stores hold of their current versions, but the version's number.
pub(crate) fn holds_the_same<K: Kernel>(rt: &impl Abort, store: &Store<K>, other: &Store<K>) {
    assert_eq!(rt; bytes(store), bytes(other));
    are_words(rt, digit_words(store), digit_words(other));
    are_words(rt, server_words(store), server_words(other));
    holds_the_same_hint(rt, store, other, Scheme::Simple);
    holds_the_same_hint(rt, store, other, Scheme::Double);
}

// Edits a record, again where memory was refused: the first try has left the store as it was.
fn edits<K: Kernel>(
    rt: &impl Abort,
    store: &mut Store<K>,
    first: &Store<K>,
    i: usize,
    bytes: &[u8],
) {
    if let Err(fault) = edit(store, i, bytes) {
        assert_eq!(rt; fault, EditError::Memory);
        holds_the_same(rt, store, first);
        assert_eq!(rt; edit(store, i, bytes), Ok(()));
    }
}

// Publishes three edits, again where memory was refused: the first try has left the version, the
// bytes, the words of digits and hints, and the edits as they were.
fn publishes_the_edits<K: Kernel>(
    rt: &impl Abort,
    kept: &mut Store<K>,
    first: &Store<K>,
    made: &Store<K>,
) {
    for i in [1, 6, 3] {
        assert!(rt; i < made.layout().count());
        if !is_wide(u16::from(made.form())) {
            edits(rt, kept, first, i, made.bytes_of(i));
        }
    }
    if let Err(fault) = publish(kept) {
        assert_eq!(rt; fault, PublishError::Memory);
        assert_eq!(rt; version(kept), 1);
        holds_the_same(rt, kept, first);
        assert_eq!(rt; publish(kept), Ok(2));
    }
    assert_eq!(rt; version(kept), 2);
    holds_the_same(rt, kept, made);
    assert_eq!(rt; publish(kept), Err(PublishError::NothingToPublish));
}

// The same, with the store as it is after the three edits.
fn publishes_them_over<K: Kernel>(
    rt: &(impl Abort + AllocGlobal),
    kernel: K,
    kept: &mut Store<K>,
    first: &Store<K>,
) -> Result<(), Fail> {
    let made = opened(rt.alloc(), kernel, true)?;
    publishes_the_edits(rt, kept, first, &made);
    Ok(())
}

fn is_made_later<K: Kernel>(
    rt: &(impl Abort + AllocGlobal),
    kernel: K,
    kept: &mut Store<K>,
) -> Result<(), Fail> {
    let first = opened(rt.alloc(), kernel, false)?;
    publishes_them_over(rt, kernel, kept, &first)
}

#[test]
fn a_refused_publication_is_made_later(rt: HostRuntime) -> Result<(), Fail> {
    is_made_later(&rt, Plain, &mut opened(rt.alloc(), Plain, false)?)?;
    is_made_later(&rt, Lanes, &mut opened(rt.alloc(), Lanes, false)?)
}

// Five records of three bytes, and five slots of one byte at most. The store is opened with the
// first three, two to a column.
const ALIKE: [u8; 15] = [1, 2, 3, 4, 5, 6, 7, 8, 9, 10, 11, 12, 255, 0, 128];

const SLOTS: [u8; 15] = [1, 0, 9, 0, 0, 0, 1, 0, 255, 1, 0, 7, 1, 0, 128];

fn with_records<K: Kernel>(
    alloc: Global,
    kernel: K,
    form: u8,
    count: u32,
    bytes: &[u8],
) -> Result<Store<K>, OpenError> {
    let header = Header {
        form,
        width: 6,
        record_len: 3,
        groups: 2,
        count,
        dimension: 5,
        ..TWO_RECORDS
    };
    let Ok(records) = bytes.to_vec(alloc) else {
        return Err(OpenError::Memory);
    };
    open(alloc, kernel, header.with_records(records))
}

// The store of these records, opened again where memory was refused.
fn opened_with<K: Kernel>(
    alloc: Global,
    kernel: K,
    form: u8,
    count: u32,
    bytes: &[u8],
) -> Result<Store<K>, OpenError> {
    match with_records(alloc, kernel, form, count, bytes) {
        Ok(store) => Ok(store),
        Err(_) => with_records(alloc, kernel, form, count, bytes),
    }
}

fn count<K: Kernel>(store: &Store<K>) -> usize {
    store.layout().count()
}

// Appends a record to a draft of so many, again where memory was refused: the first try has left
// the version, the draft's count and the mark as they were.
fn appends<K: Kernel>(
    rt: &impl Abort,
    store: &mut Store<K>,
    first: &Store<K>,
    draft: usize,
    bytes: &[u8],
) {
    if let Err(fault) = append(store, bytes) {
        assert_eq!(rt; fault, AppendError::Memory);
        assert_eq!(rt; edit(store, draft, bytes), Err(EditError::BadIndex));
        if draft == count(store) {
            assert_eq!(rt; publish(store), Err(PublishError::NothingToPublish));
        }
        holds_the_same(rt, store, first);
        assert_eq!(rt; append(store, bytes), Ok(()));
    }
}

// Publishes two appends, of which the second makes a new column, again where memory was refused:
// the first try has left the version, its count, its bytes and words, and the draft as they were.
fn publishes_the_appends<K: Kernel>(
    rt: &impl Abort,
    kept: &mut Store<K>,
    first: &Store<K>,
    made: &Store<K>,
    appended: [&[u8]; 2],
) {
    appends(rt, kept, first, 3, appended[0]);
    appends(rt, kept, first, 4, appended[1]);
    if let Err(fault) = publish(kept) {
        assert_eq!(rt; fault, PublishError::Memory);
        assert_eq!(rt; version(kept), 1);
        assert_eq!(rt; count(kept), 3);
        holds_the_same(rt, kept, first);
        assert_eq!(rt; edit(kept, 5, appended[1]), Err(EditError::BadIndex));
        assert_eq!(rt; publish(kept), Ok(2));
    }
    assert_eq!(rt; version(kept), 2);
    assert_eq!(rt; count(kept), 5);
    holds_the_same(rt, kept, made);
    assert_eq!(rt; publish(kept), Err(PublishError::NothingToPublish));
}

// A store that grows: its form, its records after it, of which it has three before, and the two
// that are appended.
#[derive(Clone, Copy)]
struct Growth<'a> {
    form: u8,
    bytes: &'a [u8; 15],
    appended: [&'a [u8]; 2],
}

fn grows_later<K: Kernel>(
    rt: &(impl Abort + AllocGlobal),
    kernel: K,
    growth: Growth<'_>,
) -> Result<(), Fail> {
    let bytes = growth.bytes;
    let mut kept = opened_with(rt.alloc(), kernel, growth.form, 3, &bytes[..9])?;
    grows_from(rt, kernel, growth, &mut kept)
}

// The functions below own one store each, so that what is dropped on their way out is proved once.
fn grows_from<K: Kernel>(
    rt: &(impl Abort + AllocGlobal),
    kernel: K,
    growth: Growth<'_>,
    kept: &mut Store<K>,
) -> Result<(), Fail> {
    let bytes = growth.bytes;
    let first = opened_with(rt.alloc(), kernel, growth.form, 3, &bytes[..9])?;
    grows_to(rt, kernel, growth, kept, &first)
}

fn grows_to<K: Kernel>(
    rt: &(impl Abort + AllocGlobal),
    kernel: K,
    growth: Growth<'_>,
    kept: &mut Store<K>,
    first: &Store<K>,
) -> Result<(), Fail> {
    let bytes = growth.bytes;
    let made = opened_with(rt.alloc(), kernel, growth.form, 5, bytes)?;
    publishes_the_appends(rt, kept, first, &made, growth.appended);
    Ok(())
}

#[test]
fn a_refused_growth_is_made_later(rt: HostRuntime) -> Result<(), Fail> {
    let growth = Growth {
        form: 1,
        bytes: &ALIKE,
        appended: [&[10, 11, 12], &[255, 0, 128]],
    };
    grows_later(&rt, Plain, growth)?;
    grows_later(&rt, Lanes, growth)?;
    grows_later(
        &rt,
        Lanes,
        Growth {
            form: 129,
            ..growth
        },
    )
}

#[test]
fn a_refused_growth_of_slots_is_made_later(rt: HostRuntime) -> Result<(), Fail> {
    let growth = Growth {
        form: 2,
        bytes: &SLOTS,
        appended: [&[7], &[128]],
    };
    grows_later(&rt, Plain, growth)?;
    grows_later(&rt, Lanes, growth)?;
    grows_later(
        &rt,
        Lanes,
        Growth {
            form: 130,
            ..growth
        },
    )
}
