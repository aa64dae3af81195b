//! The worked examples.
//!
//! Proved by `tests/long/run --prove`.

use super::*;

// 204810 is 10 + 200 * 1024; the server's hint has the four bytes of the first hint, one in a row.
fn lends_its_words<K: Kernel>(rt: &impl Abort, store: &Store<K>) {
    assert_eq!(rt; digit_words(store), &[204810u32][..]);
    assert_eq!(rt; server_words(store), &[156u32, 249, 43, 123][..]);
}

#[test]
fn digits_are_lent_three_in_a_word(rt: HostRuntime) -> Result<(), Fail> {
    lends_its_words(&rt, &two_records(rt.alloc(), Plain, 1)?);
    lends_its_words(&rt, &two_records(rt.alloc(), Lanes, 1)?);
    Ok(())
}

fn answers_the_current_version<K: Kernel>(rt: &impl Abort, store: &Store<K>) -> Result<(), Fail> {
    let words = [22, 16777249];
    assert_eq!(rt; store.query_words(Scheme::Simple), words.len());
    let answer = store.answer_simple(&words)?;
    assert_eq!(rt; answer.as_slice(), &[3355450020u32][..]);
    Ok(())
}

#[test]
fn an_answer_is_of_the_current_version(rt: HostRuntime) -> Result<(), Fail> {
    answers_the_current_version(&rt, &two_records(rt.alloc(), Plain, 1)?)?;
    answers_the_current_version(&rt, &two_records(rt.alloc(), Lanes, 1)?)
}

// 12 words: the digits of 3355450020 times the second public matrix; the digits of the hint times
// 44; and the digits of 3355450020 times 44.
fn answers_double<K: Kernel>(rt: &impl Abort, store: &Store<K>) -> Result<(), Fail> {
    let words = [22, 16777249, 44];
    assert_eq!(rt; store.query_words(Scheme::Double), words.len());
    let answer = store.answer_double(&words)?;
    let expected = [
        2802119964, 3534519878, 0, 3731485368, 6864, 10956, 1892, 5412, 7216, 1144, 0, 8800,
    ];
    assert_eq!(rt; answer.as_slice(), &expected[..]);
    Ok(())
}

#[test]
fn a_double_answer_is_of_the_current_version(rt: HostRuntime) -> Result<(), Fail> {
    answers_double(&rt, &two_records(rt.alloc(), Plain, 1)?)?;
    answers_double(&rt, &two_records(rt.alloc(), Lanes, 1)?)
}

fn sees_an_edit_after_its_publication<K: Kernel>(rt: &impl Abort, store: &mut Store<K>) {
    assert_eq!(rt; publish(store), Err(PublishError::NothingToPublish));
    assert_eq!(rt; edit(store, 1, &[100]), Ok(()));
    is_at(rt, store, 1, &[10, 200], 204810, FIRST_HINT);
    assert_eq!(rt; publish(store), Ok(2));
    is_at(rt, store, 2, &[10, 100], 102410, 586782492);
    let double = [2154495524, 3182343673, 4280627063, 2309389758];
    hint_is(rt, store, Scheme::Double, &double);
    assert_eq!(rt; publish(store), Err(PublishError::NothingToPublish));
}

#[test]
fn an_edit_is_seen_after_its_publication(rt: HostRuntime) -> Result<(), Fail> {
    sees_an_edit_after_its_publication(&rt, &mut two_records(rt.alloc(), Plain, 1)?);
    sees_an_edit_after_its_publication(&rt, &mut two_records(rt.alloc(), Lanes, 1)?);
    Ok(())
}

// Compares the fields and the records with those of the store as it was opened.
fn is_as_opened(rt: &impl Abort, snapshot: &Snapshot) {
    assert_eq!(rt; snapshot.header(), TWO_RECORDS);
    assert_eq!(rt; snapshot.records.as_slice(), &RECORDS[..]);
}

// An edit that isn't published isn't written.
fn is_written_and_read_back<K: Kernel>(
    rt: &(impl Abort + AllocGlobal),
    store: &mut Store<K>,
) -> Result<(), Fail> {
    assert_eq!(rt; edit(store, 1, &[100]), Ok(()));
    let file = written(rt.alloc(), store)?;
    assert_eq!(rt; file.len(), 125);
    is_as_opened(rt, &read_back(rt.alloc(), file.as_slice())?);
    Ok(())
}

#[test]
fn a_store_is_written_and_read_back(rt: HostRuntime) -> Result<(), Fail> {
    is_written_and_read_back(&rt, &mut two_records(rt.alloc(), Plain, 1)?)?;
    is_written_and_read_back(&rt, &mut two_records(rt.alloc(), Lanes, 1)?)
}

#[test]
fn the_laws_can_be_called() {
    laws::each_run_stands();
    laws::unchanged_rows_stay();
    laws::migrated_records_stay();
    laws::widened_records_stay();
}
