//! A draft that is dropped: the store is as if nothing had been edited or appended since the last
//! publication.

use super::refused_memory::holds_the_same;
use super::*;

// Edits and appends, and drops that.
fn drops_a_draft<K: Kernel>(
    rt: &impl Abort,
    store: &mut Store<K>,
    scratch: &Store<K>,
) -> Result<(), Fail> {
    assert_eq!(rt; edit(store, 0, &[99]), Ok(()));
    assert_eq!(rt; append(store, &[5]), Ok(()));
    assert!(rt; store.is_marked());
    store.drop_draft();
    assert!(rt; !store.is_marked());
    assert!(rt; store.draft_change(0).is_none());
    assert_eq!(rt; publish(store), Err(PublishError::NothingToPublish));
    assert_eq!(rt; edit(store, 2, &[5]), Err(EditError::BadIndex));
    holds_the_same(rt, store, scratch);
    store.drop_draft();
    assert_eq!(rt; append(store, &[7]), Ok(()));
    assert_eq!(rt; publish(store), Ok(2));
    assert_eq!(rt; store.layout().count(), 3);
    assert_eq!(rt; store.bytes_of(0), [10].as_slice());
    assert_eq!(rt; store.bytes_of(2), [7].as_slice());
    Ok(())
}

#[test]
fn a_dropped_draft_is_gone(rt: HostRuntime) -> Result<(), Fail> {
    let alloc = rt.alloc();
    let header = Header {
        groups: 1,
        dimension: 5,
        ..TWO_RECORDS
    };
    let records = [10, 200];
    let mut store = open(alloc, Lanes, header.with_records(records.to_vec(alloc)?))?;
    let scratch = open(alloc, Lanes, header.with_records(records.to_vec(alloc)?))?;
    drops_a_draft(&rt, &mut store, &scratch)
}
