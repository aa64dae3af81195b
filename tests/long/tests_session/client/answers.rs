//! Both records of a server of two.
//!
//! Proved by `tests/long/run --prove`.

use super::*;

/// The word that a server of [`TWO_RECORDS`] answers to a query's frame: the digits 10 and 200
/// times its words.
fn answered_word(rt: &(impl Abort + AllocGlobal), sent: &[u8]) -> Result<u32, Fail> {
    let mut frames = Vec::new(rt.alloc());
    Reader::new(rt.alloc()).feed(false, sent, &mut frames)?;
    let Some(
        Frame::Query {
            scheme,
            version,
            words,
        },
    ) = frames.pop()
    else {
        panic!(rt; "no query");
    };
    assert_eq!(rt; (scheme, version, frames.len()), (0, 1, 0));
    let words = words.as_slice();
    assert_eq!(rt; words.len(), 2);
    Ok(
        words[0]
            .wrapping_mul(10)
            .wrapping_add(words[1].wrapping_mul(200)),
    )
}

/// Asks for one of two records, and takes the answer.
pub(crate) fn retrieves<K: Kernel>(
    rt: &(impl Abort + AllocGlobal),
    client: &mut ClientCore<K>,
    index: u32,
    wanted: &str,
) -> Result<(), Fail> {
    let sent = call(client, Wanted::Ask(index))?;
    let word = answered_word(rt, sent.as_slice())?;
    let frame = answer(rt, 0, 1, &[word])?;
    feeds(rt, client, frame.as_slice(), wanted)
}

#[test]
fn both_records_of_two(rt: HostRuntime) -> Result<(), Fail> {
    both_records_of_two_on(&rt, Plain)?;
    both_records_of_two_on(&rt, Lanes)
}

fn both_records_of_two_on<K: Kernel>(
    rt: &(impl Abort + AllocGlobal),
    kernel: K,
) -> Result<(), Fail> {
    let mut client = synced(rt, TWO_RECORDS, 0, &[TWO_RECORDS_HINT], kernel)?;
    retrieves(rt, &mut client, 0, "retrieved 0 1 a ")?;
    counts(rt, &client, 1);
    retrieves(rt, &mut client, 1, "retrieved 1 1 c8 ")?;
    counts(rt, &client, 2);
    Ok(())
}
