//! Wide stores: more columns and more rows than an ordinary store has, edited, grown and published,
//! and what they refuse.

use super::deltas::gives;
use super::refused_memory::holds_the_same;
use super::*;
use snapshot_file::{WidenError, widen};

// Record i, of one byte.
fn byte(i: usize) -> u8 {
    (i * 7 % 251) as u8
}

// So many records of one byte, in slots of three bytes in a form of these.
fn records(alloc: Global, form: u8, count: usize) -> Result<Vec<u8>, Fail> {
    let mut bytes = Vec::new(alloc);
    for i in 0..count {
        if form == 130 {
            bytes.extend_from_slice(&[1, 0, byte(i)])?;
        } else {
            bytes.push(byte(i))?;
        }
    }
    Ok(bytes)
}

// A wide store's header.
fn header(form: u8, groups: u16, count: usize) -> Header {
    Header {
        form,
        record_len: if form == 130 { 3 } else { 1 },
        groups,
        count: count as u32,
        ..TWO_RECORDS
    }
}

// A store of these records, so many to a column.
fn store_of<K: Kernel>(
    alloc: Global,
    kernel: K,
    form: u8,
    groups: u16,
    count: usize,
) -> Result<Store<K>, Fail> {
    let snapshot = header(form, groups, count).with_records(records(alloc, form, count)?);
    Ok(open(alloc, kernel, snapshot)?)
}

// The digit matrix, and the words of a query, in both schemes.
fn has_sizes<K: Kernel>(
    rt: &impl Abort,
    store: &Store<K>,
    sides: (usize, usize),
    queries: (usize, usize),
) {
    let layout = store.layout();
    assert_eq!(rt; (layout.rows(), layout.cols()), sides);
    let simple = store.query_words(Scheme::Simple);
    let double = store.query_words(Scheme::Double);
    assert_eq!(rt; (simple, double), queries);
}

// The words of a hint, from a part's first one on.
fn begins_with<K: Kernel>(rt: &impl Abort, store: &Store<K>, wanted: &[u32]) {
    match hint_words(store, Scheme::Simple) {
        Some(words) => are_words(rt, &words[..wanted.len()], wanted),
        None => panic!(rt; "there is no hint"),
    }
}

// The hints were computed by tests/model.
fn five_thousand_columns_on<K: Kernel>(
    rt: &impl Abort,
    alloc: Global,
    kernel: K,
) -> Result<(), Fail> {
    let store = store_of(alloc, kernel, 129, 1, 5000)?;
    assert_eq!(rt; store.form(), 129);
    has_sizes(rt, &store, (1, 5000), (5000, 5001));
    hint_is(rt, &store, Scheme::Simple, &[345356065]);
    hint_is(rt, &store, Scheme::Double, &[2999401935, 2576790489, 267400731, 3379625644]);
    let store = store_of(alloc, kernel, 130, 1, 5000)?;
    assert_eq!(rt; store.form(), 130);
    has_sizes(rt, &store, (3, 5000), (5000, 5009));
    hint_is(rt, &store, Scheme::Simple, &[3749314622, 0, 345356065]);
    hint_is(rt, &store, Scheme::Double, &[1845578359, 1098360867, 2260107647, 4104974421]);
    Ok(())
}

#[test]
fn five_thousand_columns(rt: HostRuntime) -> Result<(), Fail> {
    five_thousand_columns_on(&rt, rt.alloc(), Plain)?;
    five_thousand_columns_on(&rt, rt.alloc(), Lanes)
}

fn five_thousand_rows_on<K: Kernel>(
    rt: &impl Abort,
    alloc: Global,
    kernel: K,
) -> Result<(), Fail> {
    let store = store_of(alloc, kernel, 129, 5000, 5000)?;
    has_sizes(rt, &store, (5000, 1), (1, 5001));
    begins_with(rt, &store, &[0, 3240430394, 2185893492]);
    are_words(rt, store.hint_row(4999), &[2739597296]);
    hint_is(rt, &store, Scheme::Double, &[2356261420, 1205452315, 2276203938, 2059040858]);
    let store = store_of(alloc, kernel, 130, 1700, 1700)?;
    has_sizes(rt, &store, (5100, 1), (1, 1 + 3 * 5100));
    begins_with(rt, &store, &[2917185654, 0, 0]);
    are_words(rt, store.hint_row(5099), &[876948544]);
    hint_is(rt, &store, Scheme::Double, &[2130013760, 2192763946, 3802448319, 3861275841]);
    Ok(())
}

#[test]
fn five_thousand_rows(rt: HostRuntime) -> Result<(), Fail> {
    five_thousand_rows_on(&rt, rt.alloc(), Plain)?;
    five_thousand_rows_on(&rt, rt.alloc(), Lanes)
}

// The byte of record i, or none if it has none.
fn record<K: Kernel>(store: &Store<K>, i: usize) -> Option<u8> {
    let mut room = [0; 3];
    let record_len = store.layout().record_len();
    let len = store.copy_record(i, &mut room[..record_len]);
    if len == 0 { None } else { Some(room[0]) }
}

// The answer to a query whose word is 1 in the last column and 0 in the others is that column.
fn answers_the_last_column<K: Kernel>(
    rt: &impl Abort,
    alloc: Global,
    store: &Store<K>,
    wanted: &[u32],
) -> Result<(), Fail> {
    let cols = store.query_words(Scheme::Simple);
    let mut words = vec![in alloc; 0u32; cols]?;
    words[cols - 1] = 1;
    let answer = store.answer_simple(&words)?;
    are_words(rt, &answer, wanted);
    Ok(())
}

// An edit in the last column; then an append that fills it, and one that begins a column. After
// each publication the store is that of all records, opened at once.
fn grows_across_a_column_on<K: Kernel>(
    rt: &impl Abort,
    alloc: Global,
    kernel: K,
) -> Result<(), Fail> {
    let mut store = store_of(alloc, kernel, 129, 2, 9999)?;
    has_sizes(rt, &store, (2, 5000), (5000, 5002));
    answers_the_last_column(rt, alloc, &store, &[u32::from(byte(9998)), 0])?;
    assert_eq!(rt; edit(&mut store, 9998, &[77]), Ok(()));
    assert_eq!(rt; publish(&mut store), Ok(2));
    gives(rt, &store, 1, Some(&[0]))?;
    answers_the_last_column(rt, alloc, &store, &[77, 0])?;
    assert_eq!(rt; edit(&mut store, 9998, &[byte(9998)]), Ok(()));
    assert_eq!(rt; append(&mut store, &[byte(9999)]), Ok(()));
    assert_eq!(rt; publish(&mut store), Ok(3));
    holds_the_same(rt, &store, &store_of(alloc, kernel, 129, 2, 10_000)?);
    assert_eq!(rt; append(&mut store, &[byte(10_000)]), Ok(()));
    assert_eq!(rt; publish(&mut store), Ok(4));
    has_sizes(rt, &store, (2, 5001), (5001, 5003));
    holds_the_same(rt, &store, &store_of(alloc, kernel, 129, 2, 10_001)?);
    gives(rt, &store, 3, Some(&[0]))?;
    gives(rt, &store, 1, Some(&[0, 1]))
}

#[test]
fn a_store_of_one_length_grows_across_a_column(rt: HostRuntime) -> Result<(), Fail> {
    grows_across_a_column_on(&rt, rt.alloc(), Plain)?;
    grows_across_a_column_on(&rt, rt.alloc(), Lanes)
}

// The same in slots: a record of no bytes, one as long as a slot takes, and one that is too long.
fn slots_change_and_grow_on<K: Kernel>(
    rt: &impl Abort,
    alloc: Global,
    kernel: K,
) -> Result<(), Fail> {
    let mut store = store_of(alloc, kernel, 130, 1, 5000)?;
    assert_eq!(rt; record(&store, 4999), Some(byte(4999)));
    assert_eq!(rt; edit(&mut store, 4999, &[1, 2]), Err(EditError::BadLength));
    assert_eq!(rt; append(&mut store, &[1, 2]), Err(AppendError::BadLength));
    assert_eq!(rt; edit(&mut store, 4999, &[]), Ok(()));
    assert_eq!(rt; publish(&mut store), Ok(2));
    assert_eq!(rt; record(&store, 4999), None);
    gives(rt, &store, 1, Some(&[0, 2]))?;
    assert_eq!(rt; edit(&mut store, 4999, &[byte(4999)]), Ok(()));
    assert_eq!(rt; append(&mut store, &[byte(5000)]), Ok(()));
    assert_eq!(rt; publish(&mut store), Ok(3));
    has_sizes(rt, &store, (3, 5001), (5001, 5010));
    holds_the_same(rt, &store, &store_of(alloc, kernel, 130, 1, 5001)?);
    Ok(())
}

#[test]
fn a_store_of_slots_changes_and_grows(rt: HostRuntime) -> Result<(), Fail> {
    slots_change_and_grow_on(&rt, rt.alloc(), Plain)?;
    slots_change_and_grow_on(&rt, rt.alloc(), Lanes)
}

// More rows change than a Delta may name; the store knows them all.
#[test]
fn edits_in_five_thousand_rows(rt: HostRuntime) -> Result<(), Fail> {
    let mut store = store_of(rt.alloc(), Lanes, 129, 5000, 5000)?;
    let mut changed = Vec::new(rt.alloc());
    let mut bytes = records(rt.alloc(), 129, 5000)?;
    for i in (1..5000).step_by(4) {
        assert_eq!(rt; edit(&mut store, i, &[255]), Ok(()));
        bytes[i] = 255;
        changed.push(i as u32)?;
    }
    assert_eq!(rt; publish(&mut store), Ok(2));
    gives(&rt, &store, 1, Some(&changed))?;
    let scratch = open(rt.alloc(), Lanes, header(129, 5000, 5000).with_records(bytes))?;
    holds_the_same(&rt, &store, &scratch);
    Ok(())
}

#[test]
fn a_draft_is_full_at_its_last_column(rt: HostRuntime) -> Result<(), Fail> {
    let mut store = store_of(rt.alloc(), Lanes, 129, 1, 32_767)?;
    assert_eq!(rt; append(&mut store, &[0, 0]), Err(AppendError::BadLength));
    assert_eq!(rt; append(&mut store, &[byte(32_767)]), Ok(()));
    assert_eq!(rt; append(&mut store, &[0]), Err(AppendError::Full));
    assert_eq!(rt; publish(&mut store), Ok(2));
    has_sizes(&rt, &store, (1, 32_768), (32_768, 32_769));
    holds_the_same(&rt, &store, &store_of(rt.alloc(), Lanes, 129, 1, 32_768)?);
    assert_eq!(rt; append(&mut store, &[0]), Err(AppendError::Full));
    Ok(())
}

// The fault of opening so many records.
fn refusal(
    alloc: Global,
    header: Header,
    records: usize,
) -> Result<Option<OpenError>, Fail> {
    let snapshot = header.with_records(vec![in alloc; 0u8; records]?);
    Ok(open(alloc, Lanes, snapshot).err())
}

#[test]
fn wide_stores_beyond_their_limits(rt: HostRuntime) -> Result<(), Fail> {
    let columns = header(129, 1, 32_769);
    let rows = header(129, 32_769, 1);
    let ten_bits = Header {
        width: 10,
        ..header(129, 1, 1)
    };
    let many_parts = Header {
        record_len: 256,
        ..header(129, 64, 1)
    };
    let fewer_parts = Header {
        record_len: 256,
        ..header(129, 63, 1)
    };
    let slotless = Header {
        record_len: 1,
        ..header(130, 1, 1)
    };
    let bad_layout = Some(OpenError::BadLayout);
    assert_eq!(rt; refusal(rt.alloc(), columns, 32_769)?, bad_layout);
    assert_eq!(rt; refusal(rt.alloc(), rows, 1)?, bad_layout);
    assert_eq!(rt; refusal(rt.alloc(), ten_bits, 1)?, bad_layout);
    assert_eq!(rt; refusal(rt.alloc(), many_parts, 256)?, bad_layout);
    assert_eq!(rt; refusal(rt.alloc(), fewer_parts, 256)?, None);
    assert_eq!(rt; refusal(rt.alloc(), slotless, 1)?, bad_layout);
    for form in [0, 3, 128, 131, 255] {
        assert_eq!(rt; refusal(rt.alloc(), header(form, 1, 2), 2)?, bad_layout, "{form}");
    }
    // no ordinary form has more columns or rows than before
    assert_eq!(rt; refusal(rt.alloc(), header(1, 1, 4097), 4097)?, bad_layout);
    assert_eq!(rt; refusal(rt.alloc(), header(1, 4097, 1), 1)?, bad_layout);
    let no_slots = refusal(rt.alloc(), Header { record_len: 3, ..header(130, 1, 2) }, 5)?;
    assert_eq!(rt; no_slots, Some(OpenError::BadRecords));
    Ok(())
}

#[test]
fn bad_slots_are_refused(rt: HostRuntime) -> Result<(), Fail> {
    for first in [0x02, 0x00] {
        let slots = [first, 0x00, 0x0a, 0x01, 0x00, 0xc8].to_vec(rt.alloc())?;
        let refused = open(rt.alloc(), Plain, header(130, 1, 2).with_records(slots)).err();
        assert_eq!(rt; refused, Some(OpenError::BadRecords));
    }
    Ok(())
}

#[test]
fn a_wide_store_is_written_and_read_back(rt: HostRuntime) -> Result<(), Fail> {
    for (form, len) in [(129, 124 + 5001), (130, 124 + 3 * 5001)] {
        let mut store = store_of(rt.alloc(), Lanes, form, 1, 5000)?;
        assert_eq!(rt; append(&mut store, &[byte(5000)]), Ok(()));
        assert_eq!(rt; edit(&mut store, 4095, &[250]), Ok(()));
        assert_eq!(rt; publish(&mut store), Ok(2));
        let file = written(rt.alloc(), &store)?;
        assert_eq!(rt; file.len(), len);
        let mut bytes = file.as_slice();
        let (again, digest) = Store::open_from(rt.alloc(), Lanes, &mut bytes)?;
        assert_eq!(rt; &digest[..], &file[len - 32..]);
        assert_eq!(rt; (version(&again), record(&again, 4095)), (2, Some(250)));
        holds_the_same(&rt, &store, &again);
        let snapshot = read_back(rt.alloc(), file.as_slice())?;
        assert_eq!(rt; (snapshot.form, snapshot.count, snapshot.version), (form, 5001, 2));
        holds_the_same(&rt, &store, &open(rt.alloc(), Lanes, snapshot)?);
    }
    Ok(())
}

// All records of two stores are the same.
fn has_the_records<K: Kernel>(rt: &impl Abort, store: &Store<K>, other: &Store<K>) {
    let count = other.layout().count();
    assert_eq!(rt; store.layout().count(), count);
    for i in 0..count {
        assert_eq!(rt; record(store, i), record(other, i), "record {i}");
    }
}

// An ordinary store made wide has its records, another hint, and then room for more columns.
#[test]
fn records_stay_when_a_store_is_made_wide(rt: HostRuntime) -> Result<(), Fail> {
    for form in [1, 2] {
        let ordinary = Header {
            form,
            ..header(form + 128, 1, 4096)
        };
        let bytes = records(rt.alloc(), form + 128, 4096)?;
        let snapshot = ordinary.with_records(bytes);
        let wide = widen(rt.alloc(), &snapshot, [0x33; 32])?;
        assert_eq!(rt; widen(rt.alloc(), &wide, [0; 32]).err(), Some(WidenError::NotOrdinary));
        let mut old = open(rt.alloc(), Lanes, snapshot)?;
        let mut store = open(rt.alloc(), Lanes, wide)?;
        assert_eq!(rt; (store.form(), *store.seed()), (form + 128, [0x33; 32]));
        assert_eq!(rt; (version(&store), store.publisher()), (1, old.publisher()));
        has_the_records(&rt, &store, &old);
        assert_eq!(rt; append(&mut old, &[1]), Err(AppendError::Full));
        assert_eq!(rt; append(&mut store, &[1]), Ok(()));
        assert_eq!(rt; publish(&mut store), Ok(2));
        assert_eq!(rt; record(&store, 4096), Some(1));
    }
    Ok(())
}

// Records of form 129 moved into slots are those of form 130, under the same seed.
#[test]
fn records_stay_when_a_wide_store_gets_slots(rt: HostRuntime) -> Result<(), Fail> {
    let one_length = header(129, 1, 5000).with_records(records(rt.alloc(), 129, 5000)?);
    let moved = version_store::migrate(rt.alloc(), &one_length)?;
    assert_eq!(rt; (moved.form, moved.record_len), (130, 3));
    let store = open(rt.alloc(), Lanes, moved)?;
    holds_the_same(&rt, &store, &store_of(rt.alloc(), Lanes, 130, 1, 5000)?);
    has_the_records(&rt, &store, &open(rt.alloc(), Lanes, one_length)?);
    Ok(())
}
