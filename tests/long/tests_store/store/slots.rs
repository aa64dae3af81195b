//! The store of two records in slots: each record has a length of its own.

use super::*;

const SLOTS: [u8; 6] = [0x01, 0x00, 0x0a, 0x01, 0x00, 0xc8];

// A store of slots, one to a column, be they good or not.
fn in_slots<K: Kernel>(
    alloc: Global,
    kernel: K,
    record_len: u16,
    slots: &[u8],
) -> Result<Store<K>, OpenError> {
    let header = Header {
        form: 2,
        record_len,
        count: (slots.len() / usize::from(record_len).max(1)) as u32,
        ..TWO_RECORDS
    };
    let Ok(records) = slots.to_vec(alloc) else {
        return Err(OpenError::Memory);
    };
    open(alloc, kernel, header.with_records(records))
}

fn record<K: Kernel>(store: &Store<K>, i: usize) -> Option<&[u8]> {
    if i < store.layout().count() {
        Some(store.bytes_of(i))
    } else {
        None
    }
}

fn rows_since<K: Kernel>(store: &Store<K>, version: u64) -> Result<Option<Vec<u32>>, Fail> {
    let rows = store.delta_since(version)?;
    Ok(rows)
}

// Record 1 has no bytes from version 2 on: its length changes, and its byte, and not the byte
// between.
fn has_records_of_their_lengths<K: Kernel>(
    rt: &impl Abort,
    store: &mut Store<K>,
) -> Result<(), Fail> {
    assert_eq!(rt; bytes(store), &SLOTS[..]);
    assert_eq!(rt; record(store, 1), Some(&[0xc8][..]));
    hint_is(rt, store, Scheme::Simple, &[1042197014, 0, 2066479516]);
    assert_eq!(rt; edit(store, 1, &[1, 2]), Err(EditError::BadLength));
    assert_eq!(rt; edit(store, 1, &[]), Ok(()));
    assert_eq!(rt; publish(store), Ok(2));
    assert_eq!(rt; record(store, 1), Some(&[][..]));
    assert_eq!(rt; bytes(store), &[0x01, 0x00, 0x0a, 0x00, 0x00, 0x00][..]);
    hint_is(rt, store, Scheme::Simple, &[2917185654, 0, 3402052764]);
    match rows_since(store, 1)? {
        Some(rows) => are_words(rt, rows.as_slice(), &[0, 2]),
        None => panic!(rt; "version 1 is not known"),
    }
    Ok(())
}

#[test]
fn records_have_lengths_of_their_own(rt: HostRuntime) -> Result<(), Fail> {
    has_records_of_their_lengths(&rt, &mut in_slots(rt.alloc(), Plain, 3, &SLOTS)?)?;
    has_records_of_their_lengths(&rt, &mut in_slots(rt.alloc(), Lanes, 3, &SLOTS)?)
}

#[test]
fn bad_slots_are_refused(rt: HostRuntime) {
    for first in [0x02, 0x00] {
        let slots = [first, 0x00, 0x0a, 0x01, 0x00, 0xc8];
        let refused = in_slots(rt.alloc(), Plain, 3, &slots).err();
        assert_eq!(rt; refused, Some(OpenError::BadRecords));
    }
    let refused = in_slots(rt.alloc(), Plain, 1, &RECORDS).err();
    assert_eq!(rt; refused, Some(OpenError::BadLayout));
}

#[test]
fn the_shortest_slots_and_the_longest(rt: HostRuntime) -> Result<(), Fail> {
    let store = in_slots(rt.alloc(), Lanes, 2, &[0, 0])?;
    assert_eq!(rt; record(&store, 0), Some(&[][..]));
    let mut store = in_slots(rt.alloc(), Lanes, 256, &[0; 256])?;
    assert_eq!(rt; edit(&mut store, 0, &[7; 255]), Err(EditError::BadLength));
    assert_eq!(rt; edit(&mut store, 0, &[7; 254]), Ok(()));
    assert_eq!(rt; publish(&mut store), Ok(2));
    assert_eq!(rt; record(&store, 0), Some(&[7; 254][..]));
    Ok(())
}
