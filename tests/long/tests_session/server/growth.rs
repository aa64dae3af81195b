//! A publisher that appends records.

use super::dialogues::*;
use super::*;
use version_store::AppendError;

// The byte 5 is one record more.
const APPEND: &[u8] = &[1, 0, 0, 0, 0x09, 5];

const APPEND_NO_BYTES: &[u8] = &[0, 0, 0, 0, 0x09];

const APPEND_TWO_BYTES: &[u8] = &[2, 0, 0, 0, 0x09, 5, 5];

// Record 2, which was appended, becomes the byte 100.
const EDIT_OF_THE_THIRD: &[u8] = &[5, 0, 0, 0, 0x06, 2, 0, 0, 0, 0x64];

const WELCOME_OF_THREE: &[u8] = &[
    0x35, 0, 0, 0, 0x82, 1, 0, 8, 1, 0, 1, 0, 3, 0, 0, 0, 2, 0, 0, 0, 0, 0, 0, 0, 1, 0,
];

const STALE_OF_THREE: &[u8] = &[0x0c, 0, 0, 0, 0x86, 2, 0, 0, 0, 0, 0, 0, 0, 3, 0, 0, 0];

// A query of version 1 with the words that version 2 wants.
const LONGER_QUERY: &[u8] = &[
    0x15, 0, 0, 0, 0x05, 0, 1, 0, 0, 0, 0, 0, 0, 0, 1, 0, 0, 0, 2, 0, 0, 0, 3, 0, 0, 0,
];

const QUERY_OF_TWO: &[u8] = &[
    0x11, 0, 0, 0, 0x05, 0, 2, 0, 0, 0, 0, 0, 0, 0, 1, 0, 0, 0, 2, 0, 0, 0,
];

const QUERY_OF_THREE: &[u8] = &[
    0x15, 0, 0, 0, 0x05, 0, 2, 0, 0, 0, 0, 0, 0, 0, 1, 0, 0, 0, 2, 0, 0, 0, 3, 0, 0, 0,
];

// 10 + 2 * 200 + 3 * 5
const ANSWER_OF_THREE: &[u8] = &[
    0x0d, 0, 0, 0, 0x85, 0, 2, 0, 0, 0, 0, 0, 0, 0, 0xa9, 1, 0, 0,
];

// Row 0 of the hint of version 2.
const DELTA: &[u8] = &[
    0x1e, 0, 0, 0, 0x84, 1, 0, 0, 0, 0, 0, 0, 0, 2, 0, 0, 0, 0, 0, 0, 0, 3, 0, 0, 0, 1, 0, 0, 0, 0,
    0, 0xdc, 0xcb, 0x3f, 0xf6,
];

// Each refusal in its order; then a record that no reader sees before it is published, and that
// every frame goes by after.
const APPENDS: Dialogue = &[
    (&[APPEND], &[REFUSED, &[2]]),
    (&[GREETING, ZEROS], &[WELCOME, ZEROS]),
    (&[APPEND], &[REFUSED, &[5]]),
    (&[APPEND_TWO_BYTES], &[REFUSED, &[5]]),
    (&[GREETING, ONES], &[WELCOME, ZEROS]),
    (&[APPEND_TWO_BYTES], &[REFUSED, &[7]]),
    (&[APPEND_NO_BYTES], &[REFUSED, &[7]]),
    (&[EDIT_OF_THE_THIRD], &[REFUSED, &[6]]),
    (&[PUBLISH], &[REFUSED, &[8]]),
    (&[APPEND], &[DONE_1]),
    (&[GREETING, ONES], &[WELCOME, ZEROS]),
    (&[DELTA_ASK], &[NO_ROWS]),
    (&[QUERY], &[ANSWER]),
    (&[LONGER_QUERY], &[REFUSED, &[11]]),
    (&[PUBLISH], &[DONE_2]),
    (&[QUERY], &[STALE_OF_THREE]),
    (&[LONGER_QUERY], &[STALE_OF_THREE]),
    (&[DELTA_ASK], &[DELTA]),
    (&[GREETING, ONES], &[WELCOME_OF_THREE, ZEROS]),
    (&[QUERY_OF_TWO], &[REFUSED, &[11]]),
    (&[QUERY_OF_THREE], &[ANSWER_OF_THREE]),
    (&[PUBLISH], &[REFUSED, &[8]]),
];

#[test]
fn a_record_is_appended(rt: HostRuntime) -> Result<(), Fail> {
    a_record_is_appended_on(
        &rt,
        rt.alloc(),
        &mut server(rt.alloc(), Plain, &RECORDS, 1)?,
    )?;
    a_record_is_appended_on(
        &rt,
        rt.alloc(),
        &mut server(rt.alloc(), Lanes, &RECORDS, 1)?,
    )
}

fn a_record_is_appended_on<K: Kernel>(
    rt: &impl Abort,
    alloc: Global,
    server: &mut ServerCore<K>,
) -> Result<(), Fail> {
    for (asked, reported) in APPENDS {
        check(rt, alloc, server, 0, asked, reported)?;
    }
    Ok(())
}

// 10 + 2 * 200 + 3 * 100
const ANSWER_EDITED: &[u8] = &[
    0x0d, 0, 0, 0, 0x85, 0, 2, 0, 0, 0, 0, 0, 0, 0, 0xc6, 2, 0, 0,
];

#[test]
fn an_appended_record_is_edited_before_it_is_published(rt: HostRuntime) -> Result<(), Fail> {
    an_appended_record_is_edited_before_it_is_published_on(
        &rt,
        rt.alloc(),
        &mut server(rt.alloc(), Plain, &RECORDS, 1)?,
    )?;
    an_appended_record_is_edited_before_it_is_published_on(
        &rt,
        rt.alloc(),
        &mut server(rt.alloc(), Lanes, &RECORDS, 1)?,
    )
}

fn an_appended_record_is_edited_before_it_is_published_on<K: Kernel>(
    rt: &impl Abort,
    alloc: Global,
    server: &mut ServerCore<K>,
) -> Result<(), Fail> {
    check(
        rt,
        alloc,
        server,
        0,
        &[GREETING, ONES, APPEND, EDIT_OF_THE_THIRD, PUBLISH],
        &[WELCOME, ZEROS, DONE_1, DONE_1, DONE_2],
    )?;
    check(rt, alloc, server, 0, &[QUERY_OF_THREE], &[ANSWER_EDITED])
}

// Where no layout has one record more, the length is judged all the same, and before it.
const FULL: Dialogue = &[
    (&[APPEND], &[REFUSED, &[14]]),
    (&[APPEND_TWO_BYTES], &[REFUSED, &[7]]),
    (&[APPEND_NO_BYTES], &[REFUSED, &[7]]),
];

// A server of so many records of one byte, let in as the publisher.
fn large_server<K: Kernel>(alloc: Global, kernel: K, count: usize) -> Result<ServerCore<K>, Fail> {
    let mut server = server(alloc, kernel, &vec![in alloc; 0u8; count]?, 1)?;
    let mut out = Vec::new(alloc);
    feed(&mut server, 0, &joined(alloc, &[GREETING, ONES])?, &mut out)?;
    Ok(server)
}

#[test]
fn a_full_store_has_no_room(rt: HostRuntime) -> Result<(), Fail> {
    a_full_store_has_no_room_on(&rt, rt.alloc(), Plain)?;
    a_full_store_has_no_room_on(&rt, rt.alloc(), Lanes)
}

fn a_full_store_has_no_room_on<K: Kernel>(
    rt: &impl Abort,
    alloc: Global,
    kernel: K,
) -> Result<(), Fail> {
    let mut full = large_server(alloc, kernel, 4096)?;
    for (asked, reported) in FULL {
        check(rt, alloc, &mut full, 0, asked, reported)?;
    }
    // the draft is full before its last record is published, and after
    let mut server = large_server(alloc, kernel, 4095)?;
    check(rt, alloc, &mut server, 0, &[APPEND], &[DONE_1])?;
    for (asked, reported) in FULL {
        check(rt, alloc, &mut server, 0, asked, reported)?;
    }
    check(rt, alloc, &mut server, 0, &[PUBLISH], &[DONE_2])?;
    for (asked, reported) in FULL {
        check(rt, alloc, &mut server, 0, asked, reported)?;
    }
    Ok(())
}

fn append<K: Kernel>(server: &mut ServerCore<K>, bytes: &[u8]) -> Result<(), AppendError> {
    server.append(bytes)
}

#[test]
fn the_server_appends_to_its_store(rt: HostRuntime) -> Result<(), Fail> {
    the_server_appends_to_its_store_on(
        &rt,
        rt.alloc(),
        &mut server(rt.alloc(), Plain, &RECORDS, 1)?,
    )?;
    the_server_appends_to_its_store_on(
        &rt,
        rt.alloc(),
        &mut server(rt.alloc(), Lanes, &RECORDS, 1)?,
    )
}

fn the_server_appends_to_its_store_on<K: Kernel>(
    rt: &impl Abort,
    alloc: Global,
    server: &mut ServerCore<K>,
) -> Result<(), Fail> {
    assert_eq!(rt; append(server, &[5, 5]), Err(AppendError::BadLength));
    assert_eq!(rt; append(server, &[5]), Ok(()));
    assert_eq!(rt; publish(server), Ok(2));
    check(
        rt,
        alloc,
        server,
        0,
        &[GREETING, ZEROS, DELTA_ASK, QUERY_OF_THREE],
        &[WELCOME_OF_THREE, ZEROS, DELTA, ANSWER_OF_THREE],
    )
}
