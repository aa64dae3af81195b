//! Records that are appended: the version after is, word by word, that of a store which was opened
//! with them.

use super::deltas::gives;
use super::refused_memory::holds_the_same;
use super::*;

// A store of these bytes, one record each, so many to a column; in form 2 they are those of slots
// of three bytes.
fn store_of<K: Kernel>(
    alloc: Global,
    kernel: K,
    form: u8,
    groups: u16,
    bytes: &[u8],
) -> Result<Store<K>, Fail> {
    let record_len = if form == 2 { 3 } else { 1 };
    let header = Header {
        form,
        record_len,
        groups,
        count: (bytes.len() / usize::from(record_len)) as u32,
        dimension: 5,
        ..TWO_RECORDS
    };
    let store = open(alloc, kernel, header.with_records(bytes.to_vec(alloc)?))?;
    Ok(store)
}

fn count<K: Kernel>(store: &Store<K>) -> usize {
    store.layout().count()
}

fn record<K: Kernel>(store: &Store<K>, i: usize) -> Option<&[u8]> {
    if i < count(store) {
        Some(store.bytes_of(i))
    } else {
        None
    }
}

fn sees_an_append_after_its_publication<K: Kernel>(
    rt: &impl Abort,
    store: &mut Store<K>,
    scratch: &Store<K>,
) -> Result<(), Fail> {
    assert_eq!(rt; append(store, &[1, 2]), Err(AppendError::BadLength));
    assert_eq!(rt; edit(store, 2, &[5]), Err(EditError::BadIndex));
    assert_eq!(rt; publish(store), Err(PublishError::NothingToPublish));
    assert_eq!(rt; append(store, &[5]), Ok(()));
    assert_eq!(rt; count(store), 2);
    is_at(rt, store, 1, &[10, 200], 204810, FIRST_HINT);
    assert_eq!(rt; publish(store), Ok(2));
    assert_eq!(rt; count(store), 3);
    is_at(rt, store, 2, &[10, 200, 5], 5447690, 4131376092);
    holds_the_same(rt, store, scratch);
    gives(rt, store, 1, Some(&[0]))?;
    gives(rt, store, 2, Some(&[]))?;
    assert_eq!(rt; publish(store), Err(PublishError::NothingToPublish));
    Ok(())
}

#[test]
fn an_append_is_seen_after_its_publication(rt: HostRuntime) -> Result<(), Fail> {
    let header = Header {
        count: 3,
        ..TWO_RECORDS
    };
    let plain = header.with_records([10, 200, 5].to_vec(rt.alloc())?);
    let lanes = header.with_records([10, 200, 5].to_vec(rt.alloc())?);
    sees_an_append_after_its_publication(
        &rt,
        &mut two_records(rt.alloc(), Plain, 1)?,
        &open(rt.alloc(), Plain, plain)?,
    )?;
    sees_an_append_after_its_publication(
        &rt,
        &mut two_records(rt.alloc(), Lanes, 1)?,
        &open(rt.alloc(), Lanes, lanes)?,
    )
}

#[test]
fn an_appended_record_is_edited_before_its_publication(rt: HostRuntime) -> Result<(), Fail> {
    let mut store = two_records(rt.alloc(), Lanes, 1)?;
    assert_eq!(rt; append(&mut store, &[5]), Ok(()));
    assert_eq!(rt; edit(&mut store, 2, &[6]), Ok(()));
    assert_eq!(rt; edit(&mut store, 3, &[6]), Err(EditError::BadIndex));
    assert_eq!(rt; record(&store, 2), None);
    assert_eq!(rt; publish(&mut store), Ok(2));
    assert_eq!(rt; record(&store, 2), Some(&[6][..]));
    Ok(())
}

#[test]
fn versions_are_used_up_for_appends_too(rt: HostRuntime) -> Result<(), Fail> {
    let mut store = two_records(rt.alloc(), Lanes, u64::MAX)?;
    assert_eq!(rt; append(&mut store, &[5]), Ok(()));
    assert_eq!(rt; publish(&mut store), Err(PublishError::VersionsUsedUp));
    assert_eq!(rt; count(&store), 2);
    Ok(())
}

#[test]
fn a_draft_is_full_at_its_layouts_limit(rt: HostRuntime) -> Result<(), Fail> {
    let mut store = store_of(rt.alloc(), Lanes, 1, 1, &[7; 4096])?;
    assert_eq!(rt; append(&mut store, &[0, 0]), Err(AppendError::BadLength));
    assert_eq!(rt; append(&mut store, &[0]), Err(AppendError::Full));
    let mut store = store_of(rt.alloc(), Lanes, 1, 1, &[7; 4095])?;
    assert_eq!(rt; append(&mut store, &[0]), Ok(()));
    assert_eq!(rt; append(&mut store, &[0, 0]), Err(AppendError::BadLength));
    assert_eq!(rt; append(&mut store, &[0]), Err(AppendError::Full));
    assert_eq!(rt; publish(&mut store), Ok(2));
    assert_eq!(rt; count(&store), 4096);
    Ok(())
}

// Appends records one by one, each with a publication: after each the store is that of all bytes so
// far.
fn grows<K: Kernel>(
    rt: &impl Abort,
    alloc: Global,
    kernel: K,
    form: u8,
    groups: u16,
    bytes: &[u8],
    records: &[&[u8]],
) -> Result<(), Fail> {
    let width = bytes.len() / records.len();
    let mut store = store_of(alloc, kernel, form, groups, &bytes[..width])?;
    for i in 1..records.len() {
        assert_eq!(rt; append(&mut store, records[i]), Ok(()));
        assert_eq!(rt; publish(&mut store), Ok(i as u64 + 1));
        assert_eq!(rt; record(&store, i), Some(records[i]));
        let scratch = store_of(alloc, kernel, form, groups, &bytes[..width * (i + 1)])?;
        holds_the_same(rt, &store, &scratch);
    }
    Ok(())
}

#[test]
fn appends_with_a_new_column_and_without(rt: HostRuntime) -> Result<(), Fail> {
    let bytes = [9, 0, 255, 7, 128, 1, 200, 33];
    let records = bytes.each_ref().map(|byte| std::slice::from_ref(byte));
    for groups in [1, 2, 3] {
        grows(&rt, rt.alloc(), Plain, 1, groups, &bytes, &records)?;
        grows(&rt, rt.alloc(), Lanes, 1, groups, &bytes, &records)?;
    }
    Ok(())
}

#[test]
fn appends_in_slots(rt: HostRuntime) -> Result<(), Fail> {
    let bytes = [1, 0, 9, 0, 0, 0, 1, 0, 255, 0, 0, 0, 1, 0, 7];
    let records: [&[u8]; 5] = [&[9], &[], &[255], &[], &[7]];
    for groups in [1, 2, 3] {
        grows(&rt, rt.alloc(), Plain, 2, groups, &bytes, &records)?;
        grows(&rt, rt.alloc(), Lanes, 2, groups, &bytes, &records)?;
    }
    let mut store = store_of(rt.alloc(), Lanes, 2, 1, &bytes)?;
    assert_eq!(rt; append(&mut store, &[1, 2]), Err(AppendError::BadLength));
    Ok(())
}

// Several appends and edits in one publication, of records of the version and of appended ones.
#[test]
fn a_publication_takes_appends_and_edits(rt: HostRuntime) -> Result<(), Fail> {
    let mut store = store_of(rt.alloc(), Lanes, 1, 2, &[1, 2, 3])?;
    assert_eq!(rt; edit(&mut store, 0, &[11]), Ok(()));
    for byte in [4, 5, 6, 7] {
        assert_eq!(rt; append(&mut store, &[byte]), Ok(()));
    }
    assert_eq!(rt; edit(&mut store, 5, &[66]), Ok(()));
    assert_eq!(rt; publish(&mut store), Ok(2));
    let scratch = store_of(rt.alloc(), Lanes, 1, 2, &[11, 2, 3, 4, 5, 66, 7])?;
    holds_the_same(&rt, &store, &scratch);
    Ok(())
}

#[test]
fn appended_zeros_change_no_row(rt: HostRuntime) -> Result<(), Fail> {
    let mut store = two_records(rt.alloc(), Lanes, 1)?;
    assert_eq!(rt; append(&mut store, &[0]), Ok(()));
    assert_eq!(rt; publish(&mut store), Ok(2));
    assert_eq!(rt; count(&store), 3);
    gives(&rt, &store, 1, Some(&[]))
}

#[test]
fn sixteen_publications_are_known_with_appends_in_some(rt: HostRuntime) -> Result<(), Fail> {
    let mut store = two_records(rt.alloc(), Lanes, 1)?;
    for byte in 0..17u8 {
        if byte % 3 == 0 {
            assert_eq!(rt; append(&mut store, &[byte + 1]), Ok(()));
        } else {
            assert_eq!(rt; edit(&mut store, 0, &[byte]), Ok(()));
        }
        assert_eq!(rt; publish(&mut store), Ok(u64::from(byte) + 2));
    }
    assert_eq!(rt; count(&store), 8);
    gives(&rt, &store, 1, None)?;
    gives(&rt, &store, 2, Some(&[0]))
}

#[test]
fn a_grown_store_is_written_and_read_back(rt: HostRuntime) -> Result<(), Fail> {
    let mut store = two_records(rt.alloc(), Lanes, 1)?;
    assert_eq!(rt; append(&mut store, &[5]), Ok(()));
    assert_eq!(rt; publish(&mut store), Ok(2));
    let file = written(rt.alloc(), &store)?;
    assert_eq!(rt; file.len(), 126);
    let snapshot = read_back(rt.alloc(), file.as_slice())?;
    assert_eq!(rt; snapshot.count, 3);
    holds_the_same(&rt, &store, &open(rt.alloc(), Lanes, snapshot)?);
    Ok(())
}
