//! The kinds and lengths of the frames that a client sends.

use super::*;

/// Makes a call, and adds the kind and the payload's length of the one frame that it sends.
fn adds<K: Kernel>(
    rt: &(impl Abort + AllocGlobal),
    shapes: &mut String,
    client: &mut ClientCore<K>,
    wanted: Wanted,
) -> Result<(), Fail> {
    let sent = call(client, wanted)?;
    assert!(rt; sent.len() >= 5 && sent.len() < 261);
    let len = sent.len() - 5;
    let kind = sent[4];
    assert_eq!(rt; &sent[..4], [len as u8, 0, 0, 0].as_slice());
    let shape = format!(in rt.alloc(); "({kind},{len}) ")?;
    shapes.push_str(&shape)?;
    Ok(())
}

/// Asks for a hint of the version last known, and takes it in one part.
fn takes_hint<K: Kernel>(
    rt: &(impl Abort + AllocGlobal),
    shapes: &mut String,
    client: &mut ClientCore<K>,
    version: u64,
    words: &[u32],
) -> Result<(), Fail> {
    adds(rt, shapes, client, Wanted::Sync(Scheme::Simple))?;
    let frame = part(rt, 0, version, 0, words)?;
    let wanted = format!(in rt.alloc(); "synced simple {version} ")?;
    feeds(rt, client, frame.as_slice(), &wanted)
}

/// Asks for what has changed in the hint since version 1, and for the parts of version 2, since it
/// isn't known.
fn moves_hint<K: Kernel>(
    rt: &(impl Abort + AllocGlobal),
    shapes: &mut String,
    client: &mut ClientCore<K>,
) -> Result<(), Fail> {
    adds(rt, shapes, client, Wanted::Sync(Scheme::Simple))?;
    let frame = no_delta(rt, 2, 2)?;
    let fed = client.feed(frame.as_slice());
    assert_eq!(rt; fed.out.len(), 18);
    shapes.push_str("(3,13) ")?;
    let frame = part(rt, 0, 2, 0, &[TWO_RECORDS_HINT])?;
    feeds(rt, client, frame.as_slice(), "synced simple 2 ")
}

/// Greets, and takes the Welcome of [`TWO_RECORDS`].
fn greets<K: Kernel>(
    rt: &(impl Abort + AllocGlobal),
    shapes: &mut String,
    client: &mut ClientCore<K>,
) -> Result<(), Fail> {
    adds(rt, shapes, client, Wanted::Hello(0))?;
    let frame = welcome(rt, TWO_RECORDS)?;
    feeds(rt, client, frame.as_slice(), "welcomed 1 ")
}

/// A reader by SimplePIR whose first query comes after a publication: it asks for one record twice.
fn shapes_across_versions<K: Kernel>(
    rt: &(impl Abort + AllocGlobal),
    index: u32,
    kernel: K,
) -> Result<String, Fail> {
    let mut shapes = String::new(rt.alloc());
    let mut client = newcomer(rt, 0, kernel);
    greets(rt, &mut shapes, &mut client)?;
    takes_hint(rt, &mut shapes, &mut client, 1, &[TWO_RECORDS_HINT])?;
    adds(rt, &mut shapes, &mut client, Wanted::Ask(index))?;
    let frame = stale(rt, 2, 2)?;
    feeds(rt, &mut client, frame.as_slice(), "stale 2 ")?;
    moves_hint(rt, &mut shapes, &mut client)?;
    adds(rt, &mut shapes, &mut client, Wanted::Ask(index))?;
    Ok(shapes)
}

/// A reader by DoublePIR, which asks for one record.
fn shapes_of_double<K: Kernel>(
    rt: &(impl Abort + AllocGlobal),
    index: u32,
    kernel: K,
) -> Result<String, Fail> {
    let mut shapes = String::new(rt.alloc());
    let mut client = newcomer(rt, 0, kernel);
    greets(rt, &mut shapes, &mut client)?;
    adds(rt, &mut shapes, &mut client, Wanted::Sync(Scheme::Double))?;
    let frame = part(rt, 1, 1, 0, &[0, 0, 0, 0])?;
    feeds(rt, &mut client, frame.as_slice(), "synced double 1 ")?;
    adds(rt, &mut shapes, &mut client, Wanted::Ask(index))?;
    Ok(shapes)
}

#[test]
fn frames_of_two_readers_whatever_they_ask_for(rt: HostRuntime) -> Result<(), Fail> {
    frames_of_two_readers_whatever_they_ask_for_on(&rt, Plain)?;
    frames_of_two_readers_whatever_they_ask_for_on(&rt, Lanes)
}

fn frames_of_two_readers_whatever_they_ask_for_on<K: Kernel>(
    rt: &(impl Abort + AllocGlobal),
    kernel: K,
) -> Result<(), Fail> {
    let first = "(2,34) (3,13) (5,17) (4,8) (3,13) (5,17) ";
    assert_eq!(rt; shapes_across_versions(rt, 1, kernel)?.as_str(), first);
    assert_eq!(rt; shapes_across_versions(rt, 0, kernel)?.as_str(), first);
    let second = "(2,34) (3,13) (5,21) ";
    assert_eq!(rt; shapes_of_double(rt, 1, kernel)?.as_str(), second);
    assert_eq!(rt; shapes_of_double(rt, 0, kernel)?.as_str(), second);
    Ok(())
}

/// The words of the first query of a seed of 11 bytes, for one of two records.
fn words_of_query<K: Kernel>(
    rt: &(impl Abort + AllocGlobal),
    index: u32,
    kernel: K,
) -> Result<[u32; 2], Fail> {
    let mut client = ClientCore::new(rt.alloc(), kernel, [0x11; 32], 0);
    let_in(rt, &mut client, TWO_RECORDS)?;
    fetches(rt, &mut client, 1, &[TWO_RECORDS_HINT])?;
    let sent = call(&mut client, Wanted::Ask(index))?;
    let mut frames = Vec::new(rt.alloc());
    Reader::new(rt.alloc()).feed(false, sent.as_slice(), &mut frames)?;
    let Some(Frame::Query { words, .. }) = frames.pop() else {
        panic!(rt; "no query");
    };
    let words = words.as_slice();
    assert_eq!(rt; words.len(), 2);
    Ok([words[0], words[1]])
}

#[test]
fn queries_for_two_records_differ_by_delta_at_their_columns(rt: HostRuntime) -> Result<(), Fail> {
    queries_for_two_records_differ_by_delta_at_their_columns_on(&rt, Plain)?;
    queries_for_two_records_differ_by_delta_at_their_columns_on(&rt, Lanes)
}

fn queries_for_two_records_differ_by_delta_at_their_columns_on<K: Kernel>(
    rt: &(impl Abort + AllocGlobal),
    kernel: K,
) -> Result<(), Fail> {
    let first = words_of_query(rt, 0, kernel)?;
    let second = words_of_query(rt, 1, kernel)?;
    assert_eq!(rt; first[0].wrapping_sub(second[0]), 16_777_216);
    assert_eq!(rt; second[1].wrapping_sub(first[1]), 16_777_216);
    Ok(())
}
