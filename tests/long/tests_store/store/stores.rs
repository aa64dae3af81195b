//! What a store reports, which edits and snapshots it refuses, and hints that follow edits across
//! columns.

use super::refused_memory::seven_records;
use super::*;
use test_support::PUBLISHER;

// The fault of opening a snapshot.
fn refusal<K: Kernel>(
    alloc: Global,
    kernel: K,
    header: Header,
    bytes: &[u8],
) -> Result<Option<OpenError>, Fail> {
    let snapshot = header.with_records(bytes.to_vec(alloc)?);
    match Store::open(alloc, kernel, snapshot) {
        Ok(_) => Ok(None),
        Err(fault) => Ok(Some(fault)),
    }
}

fn reports_its_sizes<K: Kernel>(rt: &impl Abort, store: &Store<K>) {
    assert_eq!(rt; store.version(), 1);
    assert_eq!(rt; store.layout().count(), 2);
    assert_eq!(rt; store.dimension(), 1);
    assert_eq!(rt; *store.seed(), [0; 32]);
    assert_eq!(rt; *store.publisher(), PUBLISHER);
    assert_eq!(rt; store.bytes_of(1), &[200u8][..]);
    assert_eq!(rt; store.bytes(), &[10u8, 200][..]);
    assert_eq!(rt; store.query_words(Scheme::Simple), 2);
    assert_eq!(rt; store.query_words(Scheme::Double), 3);
}

fn reports_its_hints<K: Kernel>(rt: &impl Abort, store: &Store<K>) {
    assert_eq!(rt; store.layout().rows(), 1);
    assert_eq!(rt;
        store.hint_words(Scheme::Simple, 0),
        Some(&[FIRST_HINT][..])
    );
    assert_eq!(rt; store.hint_row(0), &[FIRST_HINT][..]);
    assert_eq!(rt; store.hint_words(Scheme::Simple, 1), None);
    assert_eq!(rt; store.hint_words(Scheme::Double, 0), Some(&DOUBLE_HINT[..]));
    assert_eq!(rt; store.hint_words(Scheme::Double, 1), None);
}

fn reports_its_header<K: Kernel>(rt: &impl Abort, store: &Store<K>) {
    assert_eq!(rt; store.header(), TWO_RECORDS);
}

// All that a store reports.
pub fn reports_all<K: Kernel>(rt: &impl Abort, store: &Store<K>) {
    reports_its_sizes(rt, store);
    reports_its_hints(rt, store);
    reports_its_header(rt, store);
}

#[test]
fn a_store_reports_what_it_has(rt: HostRuntime) -> Result<(), Fail> {
    reports_all(&rt, &two_records(rt.alloc(), Plain, 1)?);
    reports_all(&rt, &two_records(rt.alloc(), Lanes, 1)?);
    Ok(())
}

fn counts_the_later_edit<K: Kernel>(rt: &impl Abort, store: &mut Store<K>) {
    assert_eq!(rt; store.edit(0, &[1]), Ok(()));
    assert_eq!(rt; store.edit(0, &[10]), Ok(()));
    assert_eq!(rt; store.publish(), Ok(8));
    assert_eq!(rt; store.bytes(), &[10u8, 200][..]);
    assert_eq!(rt;
        store.hint_words(Scheme::Simple, 0),
        Some(&[FIRST_HINT][..])
    );
}

#[test]
fn the_later_of_two_edits_counts(rt: HostRuntime) -> Result<(), Fail> {
    counts_the_later_edit(&rt, &mut two_records(rt.alloc(), Plain, 7)?);
    counts_the_later_edit(&rt, &mut two_records(rt.alloc(), Lanes, 7)?);
    Ok(())
}

fn refuses_edits<K: Kernel>(rt: &impl Abort, store: &mut Store<K>) {
    assert_eq!(rt; store.edit(2, &[]), Err(EditError::BadIndex));
    assert_eq!(rt; store.edit(1, &[]), Err(EditError::BadLength));
    assert_eq!(rt; store.edit(0, &[1, 2]), Err(EditError::BadLength));
    assert_eq!(rt; store.publish(), Err(PublishError::NothingToPublish));
}

#[test]
fn edits_are_refused(rt: HostRuntime) -> Result<(), Fail> {
    refuses_edits(&rt, &mut two_records(rt.alloc(), Plain, 1)?);
    refuses_edits(&rt, &mut two_records(rt.alloc(), Lanes, 1)?);
    Ok(())
}

fn stays_at_the_last_version<K: Kernel>(rt: &impl Abort, store: &mut Store<K>) {
    assert_eq!(rt; store.edit(1, &[100]), Ok(()));
    assert_eq!(rt; store.publish(), Err(PublishError::VersionsUsedUp));
    assert_eq!(rt; store.publish(), Err(PublishError::VersionsUsedUp));
    assert_eq!(rt; store.version(), u64::MAX);
    assert_eq!(rt; store.bytes(), &[10u8, 200][..]);
}

#[test]
fn the_last_version_stays(rt: HostRuntime) -> Result<(), Fail> {
    stays_at_the_last_version(&rt, &mut two_records(rt.alloc(), Plain, u64::MAX)?);
    stays_at_the_last_version(&rt, &mut two_records(rt.alloc(), Lanes, u64::MAX)?);
    Ok(())
}

fn refuses_by_the_first_cause<K: Kernel>(
    rt: &(impl Abort + AllocGlobal),
    kernel: K,
) -> Result<(), Fail> {
    let two = [10u8, 200];
    let three = [10u8, 200, 3];
    let alloc = rt.alloc();
    assert_eq!(rt; refusal(alloc, kernel, TWO_RECORDS, &two)?, None);
    for header in [
        Header {
            dimension: 1025,
            ..TWO_RECORDS
        },
        Header {
            dimension: 0,
            version: 0,
            ..TWO_RECORDS
        },
        Header {
            width: 11,
            version: 0,
            ..TWO_RECORDS
        },
        Header { groups: 0, ..TWO_RECORDS },
    ] {
        assert_eq!(rt;
            refusal(alloc, kernel, header, &three)?,
            Some(OpenError::BadLayout)
        );
    }
    let none = Header {
        version: 0,
        ..TWO_RECORDS
    };
    assert_eq!(rt;
        refusal(alloc, kernel, none, &two)?,
        Some(OpenError::BadVersion)
    );
    assert_eq!(rt;
        refusal(alloc, kernel, none, &three)?,
        Some(OpenError::BadVersion)
    );
    assert_eq!(rt;
        refusal(alloc, kernel, TWO_RECORDS, &three)?,
        Some(OpenError::BadRecords)
    );
    assert_eq!(rt;
        refusal(alloc, kernel, TWO_RECORDS, &[])?,
        Some(OpenError::BadRecords)
    );
    Ok(())
}

#[test]
fn snapshots_are_refused_by_their_first_cause(rt: HostRuntime) -> Result<(), Fail> {
    refuses_by_the_first_cause(&rt, Plain)?;
    refuses_by_the_first_cause(&rt, Lanes)
}

fn keeps_its_hints<K: Kernel>(rt: &impl Abort, kept: &mut Store<K>, made: &Store<K>) {
    for i in [1, 6, 3] {
        assert!(rt; i < made.layout().count());
        assert_eq!(rt; kept.edit(i, made.bytes_of(i)), Ok(()));
    }
    assert_eq!(rt; kept.publish(), Ok(2));
    assert_eq!(rt; kept.bytes(), made.bytes());
    assert_eq!(rt; kept.digit_words(), made.digit_words());
    assert_eq!(rt; kept.server_words(), made.server_words());
    for scheme in [Scheme::Simple, Scheme::Double] {
        assert_eq!(rt; kept.hint_words(scheme, 0), made.hint_words(scheme, 0));
    }
}

#[test]
fn edits_across_columns_keep_the_hints(rt: HostRuntime) -> Result<(), Fail> {
    let alloc = rt.alloc();
    keeps_its_hints(
        &rt,
        &mut seven_records(alloc, Plain, false)?,
        &seven_records(alloc, Plain, true)?,
    );
    keeps_its_hints(
        &rt,
        &mut seven_records(alloc, Lanes, false)?,
        &seven_records(alloc, Lanes, true)?,
    );
    Ok(())
}
