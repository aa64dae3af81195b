//! What differs since earlier versions of a wide store, by the old bytes that it keeps.

use super::*;
use hint_changes::{PublicRow, are_entries, move_by_entries};
use matrix_u32::Matrix;

// A store of so many records of one byte, record i of which is byte i. Their hint has `dimension`
// words, an eighth of whose bytes is half as many.
fn store_of<K: Kernel>(
    alloc: Global,
    kernel: K,
    form: u8,
    count: u8,
    dimension: u16,
) -> Result<Store<K>, Fail> {
    let mut bytes = Vec::new(alloc);
    for i in 0..count {
        bytes.push(i)?;
    }
    let header = Header {
        form,
        count: u32::from(count),
        dimension,
        ..TWO_RECORDS
    };
    Ok(open(alloc, kernel, header.with_records(bytes))?)
}

// These records become such bytes, and are published.
fn publish_all<K: Kernel>(store: &mut Store<K>, records: &[(usize, u8)]) -> Result<(), Fail> {
    for (i, byte) in records {
        edit(store, *i, &[*byte])?;
    }
    publish(store)?;
    Ok(())
}

// Record 3 becomes such a byte in each of so many versions: 100, 101 and so on.
fn publish_often<K: Kernel>(store: &mut Store<K>, count: u8) -> Result<(), Fail> {
    for k in 0..count {
        publish_all(store, &[(3, 100 + k)])?;
    }
    Ok(())
}

fn changes<K: Kernel>(
    store: &Store<K>,
    version: u64,
    most: usize,
) -> Result<Option<Vec<u8>>, Fail> {
    Ok(store.changes_since(version, most)?)
}

// Since a version these records differ: their places, the bytes that they had, and those that they
// have.
fn differ<K: Kernel>(
    rt: &(impl Abort + AllocGlobal),
    store: &Store<K>,
    version: u64,
    records: &[(u8, u8, u8)],
) -> Result<(), Fail> {
    let mut wanted = Vec::new(rt.alloc());
    for (i, old, new) in records {
        wanted.extend_from_slice(&[*i, 0, 0, 0, *old, *new])?;
    }
    match changes(store, version, usize::MAX)? {
        Some(found) => assert_eq!(rt; found.as_slice(), wanted.as_slice(), "{version}"),
        None => panic!(rt; "there is no answer for {version}"),
    }
    Ok(())
}

// What differs since a version isn't known.
fn is_unknown<K: Kernel>(rt: &impl Abort, store: &Store<K>, version: u64) -> Result<(), Fail> {
    assert!(rt; changes(store, version, usize::MAX)?.is_none(), "{version}");
    Ok(())
}

#[test]
fn a_fresh_store_knows_its_own_version(rt: HostRuntime) -> Result<(), Fail> {
    for form in [1, 129] {
        let store = store_of(rt.alloc(), Plain, form, 5, 100)?;
        differ(&rt, &store, 1, &[])?;
        is_unknown(&rt, &store, 0)?;
        is_unknown(&rt, &store, 2)?;
        is_unknown(&rt, &store, u64::MAX)?;
    }
    Ok(())
}

#[test]
fn an_ordinary_store_knows_no_other_version(rt: HostRuntime) -> Result<(), Fail> {
    let mut store = store_of(rt.alloc(), Plain, 1, 5, 100)?;
    publish_often(&mut store, 3)?;
    differ(&rt, &store, 4, &[])?;
    for version in [0, 1, 2, 3, 5] {
        is_unknown(&rt, &store, version)?;
    }
    Ok(())
}

fn knows_sixteen_on<K: Kernel>(rt: &(impl Abort + AllocGlobal), kernel: K) -> Result<(), Fail> {
    let mut store = store_of(rt.alloc(), kernel, 129, 5, 100)?;
    publish_often(&mut store, 1)?;
    differ(rt, &store, 1, &[(3, 3, 100)])?;
    publish_all(&mut store, &[(3, 3)])?;
    publish_often(&mut store, 13)?;
    // Fifteen publications.
    differ(rt, &store, 1, &[(3, 3, 112)])?;
    differ(rt, &store, 2, &[(3, 100, 112)])?;
    differ(rt, &store, 15, &[(3, 111, 112)])?;
    differ(rt, &store, 16, &[])?;
    publish_all(&mut store, &[(4, 200)])?;
    differ(rt, &store, 1, &[(3, 3, 112), (4, 4, 200)])?;
    differ(rt, &store, 16, &[(4, 4, 200)])?;
    publish_all(&mut store, &[(3, 113)])?;
    is_unknown(rt, &store, 1)?;
    differ(rt, &store, 2, &[(3, 100, 113), (4, 4, 200)])?;
    differ(rt, &store, 3, &[(3, 3, 113), (4, 4, 200)])?;
    differ(rt, &store, 17, &[(3, 112, 113)])?;
    differ(rt, &store, 18, &[])?;
    is_unknown(rt, &store, 19)
}

#[test]
fn the_newest_sixteen_publications_are_known(rt: HostRuntime) -> Result<(), Fail> {
    knows_sixteen_on(&rt, Plain)?;
    knows_sixteen_on(&rt, Lanes)
}

#[test]
fn equal_bytes_are_no_change(rt: HostRuntime) -> Result<(), Fail> {
    let mut store = store_of(rt.alloc(), Plain, 129, 5, 100)?;
    publish_all(&mut store, &[(3, 3), (0, 0)])?;
    differ(&rt, &store, 1, &[])?;
    publish_all(&mut store, &[(3, 9), (4, 4), (3, 7)])?;
    differ(&rt, &store, 1, &[(3, 3, 7)])?;
    differ(&rt, &store, 2, &[(3, 3, 7)])
}

#[test]
fn a_record_that_is_as_it_was_does_not_differ(rt: HostRuntime) -> Result<(), Fail> {
    let mut store = store_of(rt.alloc(), Plain, 129, 5, 100)?;
    publish_all(&mut store, &[(3, 9), (1, 8)])?;
    publish_all(&mut store, &[(3, 3)])?;
    differ(&rt, &store, 1, &[(1, 1, 8)])?;
    differ(&rt, &store, 2, &[(3, 9, 3)])?;
    // A draft is not seen.
    edit(&mut store, 0, &[77])?;
    append(&mut store, &[78])?;
    differ(&rt, &store, 1, &[(1, 1, 8)])
}

#[test]
fn a_record_in_three_versions(rt: HostRuntime) -> Result<(), Fail> {
    let mut store = store_of(rt.alloc(), Plain, 129, 5, 100)?;
    publish_all(&mut store, &[(2, 20)])?;
    publish_all(&mut store, &[(2, 30), (4, 40)])?;
    publish_all(&mut store, &[(2, 50), (0, 60)])?;
    differ(&rt, &store, 1, &[(0, 0, 60), (2, 2, 50), (4, 4, 40)])?;
    differ(&rt, &store, 2, &[(0, 0, 60), (2, 20, 50), (4, 4, 40)])?;
    differ(&rt, &store, 3, &[(0, 0, 60), (2, 30, 50)])
}

#[test]
fn appended_records_were_blanks(rt: HostRuntime) -> Result<(), Fail> {
    let mut store = store_of(rt.alloc(), Plain, 129, 5, 100)?;
    append(&mut store, &[50])?;
    append(&mut store, &[0])?;
    append(&mut store, &[70])?;
    publish(&mut store)?;
    differ(&rt, &store, 1, &[(5, 0, 50), (7, 0, 70)])?;
    append(&mut store, &[80])?;
    edit(&mut store, 8, &[81])?;
    publish_all(&mut store, &[(5, 51), (6, 61), (1, 11)])?;
    differ(
        &rt,
        &store,
        1,
        &[(1, 1, 11), (5, 0, 51), (6, 0, 61), (7, 0, 70), (8, 0, 81)],
    )?;
    differ(
        &rt,
        &store,
        2,
        &[(1, 1, 11), (5, 50, 51), (6, 0, 61), (8, 0, 81)],
    )?;
    differ(&rt, &store, 3, &[])
}

#[test]
fn slots_differ_by_their_bytes(rt: HostRuntime) -> Result<(), Fail> {
    let header = Header {
        form: 130,
        record_len: 4,
        dimension: 100,
        ..TWO_RECORDS
    };
    let slots = [1, 0, 9, 0, 2, 0, 7, 8].to_vec(rt.alloc())?;
    let mut store = open(rt.alloc(), Plain, header.with_records(slots))?;
    edit(&mut store, 1, &[])?;
    append(&mut store, &[6])?;
    publish(&mut store)?;
    let wanted = [
        [1, 0, 0, 0, 2, 0, 7, 8, 0, 0, 0, 0],
        [2, 0, 0, 0, 0, 0, 0, 0, 1, 0, 6, 0],
    ];
    match changes(&store, 1, 24)? {
        Some(found) => {
            assert_eq!(&rt; &found[..12], &wanted[0][..]);
            assert_eq!(&rt; &found[12..], &wanted[1][..]);
        }
        None => panic!(&rt; "there is no answer"),
    }
    Ok(())
}

#[test]
fn no_more_entries_than_are_asked_for(rt: HostRuntime) -> Result<(), Fail> {
    let mut store = store_of(rt.alloc(), Plain, 129, 5, 100)?;
    publish_all(&mut store, &[(2, 20)])?;
    publish_all(&mut store, &[(4, 40)])?;
    for (version, size) in [(1, 12), (2, 6), (3, 0)] {
        for most in 0..size {
            assert!(&rt;
                changes(&store, version, most)?.is_none(),
                "{version} {most}"
            );
        }
        for most in [size, size + 1, usize::MAX] {
            match changes(&store, version, most)? {
                Some(found) => assert_eq!(&rt; found.len(), size, "{version} {most}"),
                None => panic!(&rt; "there is no answer for {version} {most}"),
            }
        }
    }
    Ok(())
}

#[test]
fn an_eighth_of_the_hint_is_kept(rt: HostRuntime) -> Result<(), Fail> {
    // Seven words of four bytes: three old bytes at most.
    let mut store = store_of(rt.alloc(), Plain, 129, 5, 7)?;
    publish_all(&mut store, &[(0, 10)])?;
    publish_all(&mut store, &[(1, 11), (2, 12)])?;
    differ(&rt, &store, 1, &[(0, 0, 10), (1, 1, 11), (2, 2, 12)])?;
    publish_all(&mut store, &[(3, 13)])?;
    is_unknown(&rt, &store, 1)?;
    differ(&rt, &store, 2, &[(1, 1, 11), (2, 2, 12), (3, 3, 13)])?;
    publish_all(&mut store, &[(4, 14)])?;
    is_unknown(&rt, &store, 2)?;
    differ(&rt, &store, 3, &[(3, 3, 13), (4, 4, 14)])?;
    // A publication of more bytes leaves none.
    publish_all(&mut store, &[(0, 20), (1, 21), (2, 22), (3, 23)])?;
    is_unknown(&rt, &store, 5)?;
    differ(&rt, &store, 6, &[])?;
    publish_all(&mut store, &[(0, 30)])?;
    is_unknown(&rt, &store, 5)?;
    differ(&rt, &store, 6, &[(0, 20, 30)])
}

// The words of the first hint.
fn hint_of<K: Kernel>(rt: &(impl Abort + AllocGlobal), store: &Store<K>) -> Result<Vec<u32>, Fail> {
    match hint_words(store, Scheme::Simple) {
        Some(words) => Ok(words.to_vec(rt.alloc())?),
        None => panic!(rt; "there is no hint"),
    }
}

fn moves_on<K: Kernel>(rt: &(impl Abort + AllocGlobal), kernel: K) -> Result<(), Fail> {
    let mut store = store_of(rt.alloc(), kernel, 129, 5, 40)?;
    let mut hints = Vec::new(rt.alloc());
    for k in 0..9u8 {
        hints.push(hint_of(rt, &store)?)?;
        append(&mut store, &[200 + k])?;
        publish_all(&mut store, &[(usize::from(k), 100 + k)])?;
    }
    let mut public = PublicRow::new(rt.alloc(), store.seed(), 40)?;
    let newest = hint_of(rt, &store)?;
    for k in 0..9usize {
        let Some(entries) = changes(&store, k as u64 + 1, usize::MAX)? else {
            panic!(rt; "there is no answer for {k}");
        };
        assert!(rt; are_entries(store.layout(), &entries));
        let mut hint = Matrix::from_words(1, 40, hints[k].to_vec(rt.alloc())?)?;
        move_by_entries(kernel, store.layout(), &mut public, &mut hint, &entries);
        are_words(rt, hint.words(), &newest);
    }
    Ok(())
}

#[test]
fn what_differs_moves_an_earlier_hint(rt: HostRuntime) -> Result<(), Fail> {
    moves_on(&rt, Plain)?;
    moves_on(&rt, Lanes)
}
