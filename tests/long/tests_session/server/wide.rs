//! Sessions of wide stores: who is let in by which store, and what a store of 5,000 columns
//! answers.

use super::*;

// Two records in a store of a form; in forms of slots each stands in three bytes.
fn two_of_form<K: Kernel>(alloc: Global, kernel: K, form: u8) -> Result<ServerCore<K>, Fail> {
    let slotted = form == 2 || form == 130;
    let header = Header {
        form,
        record_len: if slotted { 3 } else { 1 },
        ..TWO_RECORDS
    };
    let bytes: &[u8] = if slotted {
        &[1, 0, 0x0a, 1, 0, 0xc8]
    } else {
        &RECORDS
    };
    let snapshot = header.with_records(bytes.to_vec(alloc)?);
    let mut server = ServerCore::new(alloc, Store::open(alloc, kernel, snapshot)?);
    open_session(&mut server, 0)?;
    Ok(server)
}

// A greeting in a profile, but its key.
fn greeting(profile: u16) -> [u8; 7] {
    let [low, high] = profile.to_le_bytes();
    [0x22, 0, 0, 0, 0x02, low, high]
}

// The Welcome to two records of a form at version 1, but the seed of zeros.
fn welcome(form: u8) -> [u8; 26] {
    let record_len = if form == 2 || form == 130 { 3 } else { 1 };
    [
        0x35, 0, 0, 0, 0x82, form, 0, 8, record_len, 0, 1, 0, 2, 0, 0, 0, 1, 0, 0, 0, 0, 0, 0, 0,
        1, 0,
    ]
}

const REFUSED_PROFILE: &[u8] = &[1, 0, 0, 0, 0x8f, 3];

const REFUSED_KEY: &[u8] = &[1, 0, 0, 0, 0x8f, 4];

const TWOS: &[u8] = &[2; 32];

const ONES: &[u8] = &[1; 32];

/// Each form, and the profiles that its store accepts.
const ACCEPTED: [(u8, &[u16]); 4] = [(1, &[1, 2]), (2, &[2]), (129, &[129, 130]), (130, &[130])];

// Each greeting leaves the session as it was where it is refused, so that one session takes all of
// them. A profile that is not accepted is refused for it, whatever the key is.
fn greets_each_store_on<K: Kernel>(rt: &impl Abort, alloc: Global, kernel: K) -> Result<(), Fail> {
    for (form, accepted) in ACCEPTED {
        let mut server = two_of_form(alloc, kernel, form)?;
        for profile in [0, 1, 2, 3, 127, 128, 129, 130, 131, 257, 258, 385, 386, 65_535] {
            let asked = greeting(profile);
            if accepted.contains(&profile) {
                check(rt, alloc, &mut server, 0, &[&asked, ZEROS], &[&welcome(form), ZEROS])?;
                check(rt, alloc, &mut server, 0, &[&asked, ONES], &[&welcome(form), ZEROS])?;
                check(rt, alloc, &mut server, 0, &[&asked, TWOS], &[REFUSED_KEY])?;
            } else {
                check(rt, alloc, &mut server, 0, &[&asked, ZEROS], &[REFUSED_PROFILE])?;
                check(rt, alloc, &mut server, 0, &[&asked, TWOS], &[REFUSED_PROFILE])?;
            }
        }
    }
    Ok(())
}

#[test]
fn each_profile_against_each_form(rt: HostRuntime) -> Result<(), Fail> {
    greets_each_store_on(&rt, rt.alloc(), Plain)?;
    greets_each_store_on(&rt, rt.alloc(), Lanes)
}

// A server of so many records of form 129, one to a column: record i is the byte i modulo 251. Its
// publisher is let in.
fn large_server<K: Kernel>(alloc: Global, kernel: K, count: u32) -> Result<ServerCore<K>, Fail> {
    let mut records = Vec::new(alloc);
    for i in 0..count {
        records.push((i % 251) as u8)?;
    }
    let header = Header {
        form: 129,
        count,
        ..TWO_RECORDS
    };
    let store = Store::open(alloc, kernel, header.with_records(records))?;
    let mut server = ServerCore::new(alloc, store);
    open_session(&mut server, 0)?;
    let mut out = Vec::new(alloc);
    feed(&mut server, 0, &joined(alloc, &[&greeting(130), ONES])?, &mut out)?;
    Ok(server)
}

// A frame's length and kind.
fn head(len: u32, kind: u8) -> [u8; 5] {
    let [a, b, c, d] = len.to_le_bytes();
    [a, b, c, d, kind]
}

// A query of SimplePIR of a version with so many words, which are 0 but for the last, which is 1.
fn query(alloc: Global, version: u64, words: u32) -> Result<Vec<u8>, Fail> {
    let mut frame = Vec::new(alloc);
    frame.extend_from_slice(&head(9 + 4 * words, 0x05))?;
    frame.push(0)?;
    frame.extend_from_slice(&version.to_le_bytes())?;
    for word in 1..=words {
        let last = if word == words { 1u32 } else { 0 };
        frame.extend_from_slice(&last.to_le_bytes())?;
    }
    Ok(frame)
}

// The answer of one word at a version.
fn answer(version: u8, word: u8) -> [u8; 18] {
    [
        0x0d, 0, 0, 0, 0x85, 0, version, 0, 0, 0, 0, 0, 0, 0, word, 0, 0, 0,
    ]
}

// A version and a count of records, in a frame of 12 payload bytes.
fn numbered(kind: u8, version: u8, count: u32) -> [u8; 17] {
    let [a, b, c, d] = count.to_le_bytes();
    [0x0c, 0, 0, 0, kind, version, 0, 0, 0, 0, 0, 0, 0, a, b, c, d]
}

const APPEND: &[u8] = &[1, 0, 0, 0, 0x09, 77];

const PUBLISH: &[u8] = &[0, 0, 0, 0, 0x07];

const DONE_1: &[u8] = &[8, 0, 0, 0, 0x87, 1, 0, 0, 0, 0, 0, 0, 0];

const DONE_2: &[u8] = &[8, 0, 0, 0, 0x87, 2, 0, 0, 0, 0, 0, 0, 0];

const REFUSED_LENGTH: &[u8] = &[1, 0, 0, 0, 0x8f, 11];

const REFUSED_FULL: &[u8] = &[1, 0, 0, 0, 0x8f, 14];

// Record 4,999, which is the byte 4999 modulo 251, is alone in the last column. Then one column
// more is published, and the old query is stale.
fn a_column_more_on<K: Kernel>(rt: &impl Abort, alloc: Global, kernel: K) -> Result<(), Fail> {
    let mut server = large_server(alloc, kernel, 5000)?;
    let first = query(alloc, 1, 5000)?;
    let longer = query(alloc, 1, 5001)?;
    check(rt, alloc, &mut server, 0, &[&first], &[&answer(1, (4999 % 251) as u8)])?;
    check(rt, alloc, &mut server, 0, &[&longer], &[REFUSED_LENGTH])?;
    check(rt, alloc, &mut server, 0, &[APPEND, PUBLISH], &[DONE_1, DONE_2])?;
    for old in [&first, &longer] {
        check(rt, alloc, &mut server, 0, &[old], &[&numbered(0x86, 2, 5001)])?;
    }
    let second = query(alloc, 2, 5001)?;
    check(rt, alloc, &mut server, 0, &[&second], &[&answer(2, 77)])?;
    // version 0 was never seen
    let since = [8, 0, 0, 0, 0x04, 0, 0, 0, 0, 0, 0, 0, 0];
    check(rt, alloc, &mut server, 0, &[&since], &[&numbered(0x88, 2, 5001)])
}

#[test]
fn a_query_before_a_column_more_is_stale(rt: HostRuntime) -> Result<(), Fail> {
    a_column_more_on(&rt, rt.alloc(), Plain)?;
    a_column_more_on(&rt, rt.alloc(), Lanes)
}

// The Delta names row 0 and the new count; its word is that of the hint's only part.
fn a_delta_on<K: Kernel>(rt: &impl Abort, alloc: Global, kernel: K) -> Result<(), Fail> {
    let mut server = large_server(alloc, kernel, 5000)?;
    check(rt, alloc, &mut server, 0, &[APPEND, PUBLISH], &[DONE_1, DONE_2])?;
    let mut part = Vec::new(alloc);
    let ask = [0x0d, 0, 0, 0, 0x03, 0, 2, 0, 0, 0, 0, 0, 0, 0, 0, 0, 0, 0];
    feed(&mut server, 0, &ask, &mut part)?;
    assert_eq!(rt; part.len(), 5 + 13 + 4);
    let word = part.get(18..).unwrap_or(&[]);
    let since = [8, 0, 0, 0, 0x04, 1, 0, 0, 0, 0, 0, 0, 0];
    let [a, b, c, d] = 5001u32.to_le_bytes();
    let delta = [
        0x1e, 0, 0, 0, 0x84, 1, 0, 0, 0, 0, 0, 0, 0, 2, 0, 0, 0, 0, 0, 0, 0, a, b, c, d, 1, 0, 0,
        0, 0, 0,
    ];
    check(rt, alloc, &mut server, 0, &[&since], &[&delta, word])
}

#[test]
fn a_delta_over_a_column_more(rt: HostRuntime) -> Result<(), Fail> {
    a_delta_on(&rt, rt.alloc(), Plain)?;
    a_delta_on(&rt, rt.alloc(), Lanes)
}

#[test]
fn a_full_wide_store_has_no_room(rt: HostRuntime) -> Result<(), Fail> {
    let mut server = large_server(rt.alloc(), Lanes, 32_767)?;
    check(&rt, rt.alloc(), &mut server, 0, &[APPEND], &[DONE_1])?;
    check(&rt, rt.alloc(), &mut server, 0, &[APPEND], &[REFUSED_FULL])?;
    check(&rt, rt.alloc(), &mut server, 0, &[PUBLISH], &[DONE_2])?;
    check(&rt, rt.alloc(), &mut server, 0, &[APPEND], &[REFUSED_FULL])?;
    let last = query(rt.alloc(), 2, 32_768)?;
    check(&rt, rt.alloc(), &mut server, 0, &[&last], &[&answer(2, 77)])
}
