//! Answers that are made in steps: kept for their very queries and version, and given once.

use super::*;

// Makes all steps of the answers that are begun.
fn make_all<K: Kernel>(rt: &impl Abort, store: &mut Store<K>) {
    let mut count = 0;
    while !store.step_answers() {
        count += 1;
        assert!(rt; count < 100);
    }
}

// Begins an answer and makes all its steps.
fn make<K: Kernel>(
    rt: &(impl Abort + AllocGlobal),
    store: &mut Store<K>,
    scheme: Scheme,
    words: &[u32],
) -> Result<(), Fail> {
    store.begin_answer(scheme, words.to_vec(rt.alloc())?)?;
    make_all(rt, store);
    Ok(())
}

// The answer that was begun, if it is given.
fn taken<K: Kernel>(store: &mut Store<K>, scheme: Scheme, words: &[u32]) -> Option<Vec<u32>> {
    store.take_answer(scheme, words)
}

fn at_once<K: Kernel>(store: &Store<K>, scheme: Scheme, words: &[u32]) -> Result<Vec<u32>, Fail> {
    let room = store.answer_buffers(scheme)?;
    Ok(store.answer_in(room, words))
}

fn kept_for_its_query<K: Kernel>(
    rt: &(impl Abort + AllocGlobal),
    kernel: K,
    scheme: Scheme,
    words: &[u32],
    others: &[u32],
) -> Result<(), Fail> {
    let mut store = two_records(rt.alloc(), kernel, 1)?;
    assert!(rt; !store.has_steps(scheme));
    // Nothing was begun.
    assert!(rt; store.step_answers() && taken(&mut store, scheme, words).is_none());
    store.begin_answer(scheme, words.to_vec(rt.alloc())?)?;
    assert!(rt; taken(&mut store, scheme, words).is_none());
    make(rt, &mut store, scheme, words)?;
    // Not that of another query, nor of the other scheme; and neither takes it away.
    let other = match scheme {
        Scheme::Simple => Scheme::Double,
        Scheme::Double => Scheme::Simple,
    };
    assert!(rt; taken(&mut store, scheme, others).is_none());
    assert!(rt; taken(&mut store, other, words).is_none());
    assert!(rt; taken(&mut store, scheme, &words[1..]).is_none());
    let wanted = at_once(&store, scheme, words)?;
    let Some(found) = taken(&mut store, scheme, words) else {
        panic!(rt; "the answer is there");
    };
    assert_eq!(rt; found.as_slice(), wanted.as_slice());
    // It is given once, and given up by `drop_answers` and by a publication.
    assert!(rt; taken(&mut store, scheme, words).is_none());
    make(rt, &mut store, scheme, words)?;
    store.drop_answers();
    assert!(rt; store.step_answers() && taken(&mut store, scheme, words).is_none());
    make(rt, &mut store, scheme, words)?;
    edit(&mut store, 0, &[0xff])?;
    publish(&mut store)?;
    assert!(rt; store.step_answers() && taken(&mut store, scheme, words).is_none());
    // An edit alone changes no version.
    edit(&mut store, 1, &[0xff])?;
    make(rt, &mut store, scheme, words)?;
    edit(&mut store, 0, &[0x01])?;
    let wanted = at_once(&store, scheme, words)?;
    let Some(found) = taken(&mut store, scheme, words) else {
        panic!(rt; "the answer is there");
    };
    assert_eq!(rt; found.as_slice(), wanted.as_slice());
    Ok(())
}

#[test]
fn an_answer_that_was_begun(rt: HostRuntime) -> Result<(), Fail> {
    kept_for_its_query(&rt, Plain, Scheme::Simple, &[3, 5], &[3, 6])?;
    kept_for_its_query(&rt, Lanes, Scheme::Simple, &[3, 5], &[3, 6])?;
    kept_for_its_query(&rt, Plain, Scheme::Double, &[3, 5, 7], &[3, 5, 8])?;
    kept_for_its_query(&rt, Lanes, Scheme::Double, &[3, 5, 7], &[3, 5, 8])
}

// The answers to several queries that are begun together, of which the fifth is left out, are those
// that are made at once, in any order.
fn together_as_at_once<K: Kernel>(
    rt: &(impl Abort + AllocGlobal),
    kernel: K,
    asked: &[(Scheme, &[u32])],
) -> Result<(), Fail> {
    let mut store = two_records(rt.alloc(), kernel, 1)?;
    for count in 1..=asked.len() {
        let begun = &asked[..count];
        for k in 0..count {
            let (scheme, words) = begun[k];
            let words = words.to_vec(rt.alloc())?;
            match k {
                0 => store.begin_answer(scheme, words)?,
                _ => store.add_answer(scheme, words)?,
            }
        }
        make_all(rt, &mut store);
        for k in 0..count {
            // The last first, but for one that was not begun.
            let (scheme, words) = begun[count - 1 - k];
            let wanted = at_once(&store, scheme, words)?;
            match taken(&mut store, scheme, words) {
                Some(found) => assert_eq!(rt; found.as_slice(), wanted.as_slice()),
                None => assert_eq!(rt; count - 1 - k, 4),
            }
            assert!(rt; taken(&mut store, scheme, words).is_none());
        }
    }
    // One that is as far as no other: it is made by itself.
    let (scheme, words) = asked[0];
    make(rt, &mut store, scheme, words)?;
    store.add_answer(Scheme::Simple, [8, 9].to_vec(rt.alloc())?)?;
    make_all(rt, &mut store);
    let wanted = at_once(&store, Scheme::Simple, &[8, 9])?;
    let found = taken(&mut store, Scheme::Simple, &[8, 9]);
    assert!(rt; found.is_some_and(|found| found.as_slice() == wanted.as_slice()));
    store.drop_answers();
    assert!(rt; taken(&mut store, scheme, words).is_none());
    Ok(())
}

#[test]
fn answers_that_were_begun_together(rt: HostRuntime) -> Result<(), Fail> {
    let simple: [(Scheme, &[u32]); 5] = [
        (Scheme::Simple, &[3, 5]),
        (Scheme::Simple, &[4_294_967_295, 7]),
        (Scheme::Simple, &[0, 1]),
        (Scheme::Simple, &[11, 2]),
        (Scheme::Simple, &[6, 6]),
    ];
    together_as_at_once(&rt, Plain, &simple)?;
    together_as_at_once(&rt, Lanes, &simple)?;
    let both: [(Scheme, &[u32]); 4] = [
        (Scheme::Simple, &[3, 5]),
        (Scheme::Double, &[3, 5, 7]),
        (Scheme::Double, &[2, 5, 7]),
        (Scheme::Simple, &[4, 5]),
    ];
    together_as_at_once(&rt, Plain, &both)?;
    together_as_at_once(&rt, Lanes, &both)
}
