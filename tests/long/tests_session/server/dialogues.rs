//! Refusals, streams cut anywhere, and sessions beside one another.

use super::*;
use version_store::{EditError, PublishError};

// A greeting in another profile, but its key.
pub const OTHER_PROFILE: &[u8] = &[0x22, 0, 0, 0, 0x02, 9, 0];

// Record 1 becomes the byte 100, which is 64 in hex.
pub const EDIT: &[u8] = &[5, 0, 0, 0, 0x06, 1, 0, 0, 0, 0x64];

pub const PUBLISH: &[u8] = &[0, 0, 0, 0, 0x07];

// The rows since version 1 are asked for, and at version 1 there is none.
pub const DELTA_ASK: &[u8] = &[8, 0, 0, 0, 0x04, 1, 0, 0, 0, 0, 0, 0, 0];

pub const NO_ROWS: &[u8] = &[
    0x16, 0, 0, 0, 0x84, 1, 0, 0, 0, 0, 0, 0, 0, 1, 0, 0, 0, 0, 0, 0, 0, 2, 0, 0, 0, 1, 0,
];

pub const LOAD: &[u8] = &[7, 0, 0, 0, 0x01, 1, 0, 1, 0, 8, 0x0a, 0xc8];

pub const STALE: &[u8] = &[0x0c, 0, 0, 0, 0x86, 2, 0, 0, 0, 0, 0, 0, 0, 2, 0, 0, 0];

// A refusal, but its code.
pub const REFUSED: &[u8] = &[1, 0, 0, 0, 0x8f];

pub const DONE_1: &[u8] = &[8, 0, 0, 0, 0x87, 1, 0, 0, 0, 0, 0, 0, 0];

pub const DONE_2: &[u8] = &[8, 0, 0, 0, 0x87, 2, 0, 0, 0, 0, 0, 0, 0];

pub const ONES: &[u8] = &[1; 32];

pub const TWOS: &[u8] = &[2; 32];

pub fn edit<K: Kernel>(
    server: &mut ServerCore<K>,
    index: usize,
    bytes: &[u8],
) -> Result<(), EditError> {
    server.edit(index, bytes)
}

pub fn publish<K: Kernel>(server: &mut ServerCore<K>) -> Result<u64, PublishError> {
    server.publish()
}

pub fn is_open<K: Kernel>(server: &ServerCore<K>, id: u64) -> bool {
    server.is_open(id)
}

#[test]
fn a_stream_can_be_cut_anywhere(rt: HostRuntime) -> Result<(), Fail> {
    a_stream_can_be_cut_anywhere_on(&rt, rt.alloc(), Plain)?;
    a_stream_can_be_cut_anywhere_on(&rt, rt.alloc(), Lanes)
}

fn a_stream_can_be_cut_anywhere_on<K: Kernel>(
    rt: &impl Abort,
    alloc: Global,
    kernel: K,
) -> Result<(), Fail> {
    let stream = joined(alloc, &[GREETING, ZEROS, HINT_ASK, DELTA_ASK, QUERY, BYE])?;
    let wanted = joined(alloc, &[WELCOME, ZEROS, HINT_PART, NO_ROWS, ANSWER])?;
    for cut in 0..=stream.len() {
        let (piece, later) = stream.split_at(cut);
        let mut server = server(alloc, kernel, &RECORDS, 1)?;
        let mut out = Vec::new(alloc);
        feed(&mut server, 0, piece, &mut out)?;
        feed(&mut server, 0, later, &mut out)?;
        assert_eq!(rt; out.as_slice(), wanted.as_slice(), "cut at {cut}");
    }
    Ok(())
}

#[test]
fn a_stream_can_come_byte_by_byte(rt: HostRuntime) -> Result<(), Fail> {
    a_stream_can_come_byte_by_byte_on(&rt, rt.alloc(), Plain)?;
    a_stream_can_come_byte_by_byte_on(&rt, rt.alloc(), Lanes)
}

fn a_stream_can_come_byte_by_byte_on<K: Kernel>(
    rt: &impl Abort,
    alloc: Global,
    kernel: K,
) -> Result<(), Fail> {
    let stream = joined(alloc, &[GREETING, ZEROS, HINT_ASK, DELTA_ASK, QUERY, BYE])?;
    let wanted = joined(alloc, &[WELCOME, ZEROS, HINT_PART, NO_ROWS, ANSWER])?;
    let mut server = server(alloc, kernel, &RECORDS, 1)?;
    let mut out = Vec::new(alloc);
    for byte in stream.chunks(1) {
        feed(&mut server, 0, byte, &mut out)?;
    }
    assert_eq!(rt; out.as_slice(), wanted.as_slice());
    Ok(())
}

// Frames of one session that are refused or done, in this order, each with its reply.
const REFUSALS: Dialogue = &[
    (&[QUERY], &[REFUSED, &[2]]),
    (&[OTHER_PROFILE, ZEROS], &[REFUSED, &[3]]),
    (&[GREETING, TWOS], &[REFUSED, &[4]]),
    (&[HINT_ASK], &[REFUSED, &[2]]),
    (&[EDIT], &[REFUSED, &[2]]),
    (&[PUBLISH], &[REFUSED, &[2]]),
    (&[GREETING, ZEROS], &[WELCOME, ZEROS]),
    (&[EDIT], &[REFUSED, &[5]]),
    (&[PUBLISH], &[REFUSED, &[5]]),
    (&[GREETING, ONES], &[WELCOME, ZEROS]),
    (&[GREETING, TWOS], &[REFUSED, &[4]]),
    (&[&[5, 0, 0, 0, 0x06, 2, 0, 0, 0, 1]], &[REFUSED, &[6]]),
    (&[&[6, 0, 0, 0, 0x06, 0, 0, 0, 0, 1, 1]], &[REFUSED, &[7]]),
    (&[PUBLISH], &[REFUSED, &[8]]),
    (&[EDIT], &[DONE_1]),
    (&[QUERY], &[ANSWER]),
    (&[PUBLISH], &[DONE_2]),
    (&[PUBLISH], &[REFUSED, &[8]]),
    (&[QUERY], &[STALE]),
    (
        &[&[0x0d, 0, 0, 0, 0x03, 0, 2, 0, 0, 0, 0, 0, 0, 0, 1, 0, 0, 0]],
        &[REFUSED, &[10]],
    ),
    (
        &[&[0x0d, 0, 0, 0, 0x03, 2, 2, 0, 0, 0, 0, 0, 0, 0, 1, 0, 0, 0]],
        &[REFUSED, &[13]],
    ),
    (
        &[&[9, 0, 0, 0, 0x05, 2, 2, 0, 0, 0, 0, 0, 0, 0]],
        &[REFUSED, &[13]],
    ),
    (
        &[&[
            0x15, 0, 0, 0, 0x05, 0, 2, 0, 0, 0, 0, 0, 0, 0, 1, 0, 0, 0, 2, 0, 0, 0, 3, 0, 0, 0,
        ]],
        &[REFUSED, &[11]],
    ),
    (&[LOAD], &[REFUSED, &[1]]),
    (&[GREETING, ZEROS], &[]),
];

#[test]
fn refusals_come_in_this_order(rt: HostRuntime) -> Result<(), Fail> {
    refusals_come_in_this_order_on(&rt, rt.alloc(), &mut server(rt.alloc(), Plain, &RECORDS, 1)?)?;
    refusals_come_in_this_order_on(&rt, rt.alloc(), &mut server(rt.alloc(), Lanes, &RECORDS, 1)?)
}

fn refusals_come_in_this_order_on<K: Kernel>(
    rt: &impl Abort,
    alloc: Global,
    server: &mut ServerCore<K>,
) -> Result<(), Fail> {
    for (asked, reported) in REFUSALS {
        check(rt, alloc, server, 0, asked, reported)?;
    }
    Ok(())
}

// An ask for part 0 of the hint of DoublePIR, and a query of it with three words.
const DOUBLE_HINT_ASK: &[u8] = &[0x0d, 0, 0, 0, 0x03, 1, 1, 0, 0, 0, 0, 0, 0, 0, 0, 0, 0, 0];

const DOUBLE_QUERY: &[u8] = &[
    0x15, 0, 0, 0, 0x05, 1, 1, 0, 0, 0, 0, 0, 0, 0, 1, 0, 0, 0, 2, 0, 0, 0, 3, 0, 0, 0,
];

#[test]
fn hints_and_answers_of_double_pir(rt: HostRuntime) -> Result<(), Fail> {
    hints_and_answers_of_double_pir_on(&rt, rt.alloc(), Plain)?;
    hints_and_answers_of_double_pir_on(&rt, rt.alloc(), Lanes)
}

fn hints_and_answers_of_double_pir_on<K: Kernel>(
    rt: &impl Abort,
    alloc: Global,
    kernel: K,
) -> Result<(), Fail> {
    let mut server = server(alloc, kernel, &RECORDS, 1)?;
    let stream = joined(alloc, &[GREETING, ZEROS, DOUBLE_HINT_ASK, DOUBLE_QUERY])?;
    let mut out = Vec::new(alloc);
    feed(&mut server, 0, &stream, &mut out)?;
    // after the 58 bytes of the Welcome a part of four words, and then an answer of twelve
    assert_eq!(rt; out.len(), 58 + 34 + 62);
    assert_eq!(rt; &out[58..65], [29, 0, 0, 0, 0x83, 1, 1].as_slice());
    assert_eq!(rt; &out[92..99], [57, 0, 0, 0, 0x85, 1, 1].as_slice());
    Ok(())
}

// Stale at version 3 of five records.
const STALE_3: &[u8] = &[0x0c, 0, 0, 0, 0x86, 3, 0, 0, 0, 0, 0, 0, 0, 5, 0, 0, 0];

const FIVE_WORDS: &[u8] = &[0; 20];

// Queries of versions 2 and 4, of 2 with no words, and of 3.
const QUERIES: Dialogue = &[
    (
        &[
            &[0x1d, 0, 0, 0, 0x05, 0, 2, 0, 0, 0, 0, 0, 0, 0],
            FIVE_WORDS,
        ],
        &[STALE_3],
    ),
    (
        &[
            &[0x1d, 0, 0, 0, 0x05, 0, 4, 0, 0, 0, 0, 0, 0, 0],
            FIVE_WORDS,
        ],
        &[STALE_3],
    ),
    (
        &[&[9, 0, 0, 0, 0x05, 0, 2, 0, 0, 0, 0, 0, 0, 0]],
        &[STALE_3],
    ),
    (
        &[
            &[0x1d, 0, 0, 0, 0x05, 0, 3, 0, 0, 0, 0, 0, 0, 0],
            FIVE_WORDS,
        ],
        &[&[0x0d, 0, 0, 0, 0x85, 0, 3, 0, 0, 0, 0, 0, 0, 0, 0, 0, 0, 0]],
    ),
];

#[test]
fn an_old_version_is_reported_before_the_word_count(rt: HostRuntime) -> Result<(), Fail> {
    an_old_version_is_reported_before_the_word_count_on(
        &rt,
        rt.alloc(),
        &mut server(rt.alloc(), Plain, &[1, 2, 3, 4, 5], 3)?,
    )?;
    an_old_version_is_reported_before_the_word_count_on(
        &rt,
        rt.alloc(),
        &mut server(rt.alloc(), Lanes, &[1, 2, 3, 4, 5], 3)?,
    )
}

fn an_old_version_is_reported_before_the_word_count_on<K: Kernel>(
    rt: &impl Abort,
    alloc: Global,
    server: &mut ServerCore<K>,
) -> Result<(), Fail> {
    let mut out = Vec::new(alloc);
    feed(server, 0, &joined(alloc, &[GREETING, ZEROS])?, &mut out)?;
    for (asked, reported) in QUERIES {
        check(rt, alloc, server, 0, asked, reported)?;
    }
    Ok(())
}

// The last version number.
const LAST: &[u8] = &[0xff; 8];

const TWO_WORDS: &[u8] = &[0x16, 0, 0, 0, 0x21, 0, 0, 1];

// The publisher's session at the last version.
const LAST_VERSION: Dialogue = &[
    (
        &[GREETING, ONES],
        &[
            &[0x35, 0, 0, 0, 0x82, 1, 0, 8, 1, 0, 1, 0, 2, 0, 0, 0],
            LAST,
            &[1, 0],
            ZEROS,
        ],
    ),
    (&[EDIT], &[&[8, 0, 0, 0, 0x87], LAST]),
    (&[PUBLISH], &[REFUSED, &[9]]),
    (
        &[&[0x11, 0, 0, 0, 0x05, 0], LAST, TWO_WORDS],
        &[&[0x0d, 0, 0, 0, 0x85, 0], LAST, &[0xa4, 0x1a, 0, 0xc8]],
    ),
];

#[test]
fn the_last_version_is_served_and_not_followed(rt: HostRuntime) -> Result<(), Fail> {
    the_last_version_is_served_and_not_followed_on(
        &rt,
        rt.alloc(),
        &mut server(rt.alloc(), Plain, &RECORDS, u64::MAX)?,
    )?;
    the_last_version_is_served_and_not_followed_on(
        &rt,
        rt.alloc(),
        &mut server(rt.alloc(), Lanes, &RECORDS, u64::MAX)?,
    )
}

fn the_last_version_is_served_and_not_followed_on<K: Kernel>(
    rt: &impl Abort,
    alloc: Global,
    server: &mut ServerCore<K>,
) -> Result<(), Fail> {
    for (asked, reported) in LAST_VERSION {
        check(rt, alloc, server, 0, asked, reported)?;
    }
    Ok(())
}

// Sessions with a payload that is too long, a kind that there is not, and a question that lacks a
// byte.
const FAULTS: &[(u64, &[u8])] = &[
    (1, &[1, 0, 0, 1]),
    (2, &[0, 0, 0, 0, 0x7f]),
    (3, &[12, 0, 0, 0, 0x03, 0, 1, 0, 0, 0, 0, 0, 0, 0, 0, 0, 0]),
];

#[test]
fn a_session_is_served_beside_closed_ones(rt: HostRuntime) -> Result<(), Fail> {
    a_session_is_served_beside_closed_ones_on(
        &rt,
        rt.alloc(),
        &mut server(rt.alloc(), Plain, &RECORDS, 1)?,
    )?;
    a_session_is_served_beside_closed_ones_on(
        &rt,
        rt.alloc(),
        &mut server(rt.alloc(), Lanes, &RECORDS, 1)?,
    )
}

fn a_session_is_served_beside_closed_ones_on<K: Kernel>(
    rt: &impl Abort,
    alloc: Global,
    server: &mut ServerCore<K>,
) -> Result<(), Fail> {
    check(rt, alloc, server, 0, &[GREETING, ZEROS], &[WELCOME, ZEROS])?;
    for (id, fault) in FAULTS {
        let id = *id;
        open_session(server, id)?;
        check(rt, alloc, server, id, &[fault], &[REFUSED, &[1]])?;
        check(rt, alloc, server, id, &[GREETING, ZEROS], &[])?;
        assert_eq!(rt; has_session(server, id), true);
        check(rt, alloc, server, 0, &[QUERY], &[ANSWER])?;
    }
    Ok(())
}

#[test]
fn a_query_is_served_when_its_last_byte_comes(rt: HostRuntime) -> Result<(), Fail> {
    a_query_is_served_when_its_last_byte_comes_on(
        &rt,
        rt.alloc(),
        &mut server(rt.alloc(), Plain, &RECORDS, 1)?,
    )?;
    a_query_is_served_when_its_last_byte_comes_on(
        &rt,
        rt.alloc(),
        &mut server(rt.alloc(), Lanes, &RECORDS, 1)?,
    )
}

fn a_query_is_served_when_its_last_byte_comes_on<K: Kernel>(
    rt: &impl Abort,
    alloc: Global,
    server: &mut ServerCore<K>,
) -> Result<(), Fail> {
    let (prefix, rest) = QUERY.split_at(11);
    check(
        rt,
        alloc,
        server,
        0,
        &[GREETING, ZEROS, prefix],
        &[WELCOME, ZEROS],
    )?;
    open_session(server, 1)?;
    check(
        rt,
        alloc,
        server,
        1,
        &[GREETING, ONES, EDIT, PUBLISH],
        &[WELCOME, ZEROS, DONE_1, DONE_2],
    )?;
    check(rt, alloc, server, 0, &[rest], &[STALE])
}

#[test]
fn a_session_is_open_until_it_is_closed(rt: HostRuntime) -> Result<(), Fail> {
    a_session_is_open_until_it_is_closed_on(
        &rt,
        rt.alloc(),
        &mut server(rt.alloc(), Plain, &RECORDS, 1)?,
    )?;
    a_session_is_open_until_it_is_closed_on(
        &rt,
        rt.alloc(),
        &mut server(rt.alloc(), Lanes, &RECORDS, 1)?,
    )
}

fn a_session_is_open_until_it_is_closed_on<K: Kernel>(
    rt: &impl Abort,
    alloc: Global,
    server: &mut ServerCore<K>,
) -> Result<(), Fail> {
    let mut out = Vec::new(alloc);
    assert_eq!(rt; is_open(server, 0), true);
    assert_eq!(rt; is_open(server, 1), false);
    feed(server, 0, BYE, &mut out)?;
    assert_eq!(rt; is_open(server, 0), false);
    assert_eq!(rt; has_session(server, 0), true);
    Ok(())
}

// The prefix of a frame of 16,777,216 payload bytes, the most that there may be.
const LONG_EDIT: &[u8] = &[0, 0, 0, 1, 0x06];

#[test]
fn a_long_frame_that_never_comes_holds_up_nobody(rt: HostRuntime) -> Result<(), Fail> {
    a_long_frame_that_never_comes_holds_up_nobody_on(
        &rt,
        rt.alloc(),
        &mut server(rt.alloc(), Plain, &RECORDS, 1)?,
    )?;
    a_long_frame_that_never_comes_holds_up_nobody_on(
        &rt,
        rt.alloc(),
        &mut server(rt.alloc(), Lanes, &RECORDS, 1)?,
    )
}

fn a_long_frame_that_never_comes_holds_up_nobody_on<K: Kernel>(
    rt: &impl Abort,
    alloc: Global,
    server: &mut ServerCore<K>,
) -> Result<(), Fail> {
    check(rt, alloc, server, 0, &[GREETING, ZEROS], &[WELCOME, ZEROS])?;
    check(rt, alloc, server, 0, &[LONG_EDIT], &[])?;
    open_session(server, 1)?;
    for (asked, reported) in RETRIEVAL {
        check(rt, alloc, server, 1, asked, reported)?;
    }
    assert_eq!(rt; is_open(server, 0), true);
    check(rt, alloc, server, 0, &[&[0; 64]], &[])
}

#[test]
fn a_thousand_sessions_are_opened_and_left(rt: HostRuntime) -> Result<(), Fail> {
    a_thousand_sessions_are_opened_and_left_on(
        &rt,
        rt.alloc(),
        &mut server(rt.alloc(), Plain, &RECORDS, 1)?,
    )?;
    a_thousand_sessions_are_opened_and_left_on(
        &rt,
        rt.alloc(),
        &mut server(rt.alloc(), Lanes, &RECORDS, 1)?,
    )
}

fn a_thousand_sessions_are_opened_and_left_on<K: Kernel>(
    rt: &impl Abort,
    alloc: Global,
    server: &mut ServerCore<K>,
) -> Result<(), Fail> {
    for id in 1..1000 {
        open_session(server, id)?;
        check(rt, alloc, server, id, &[LONG_EDIT], &[])?;
    }
    for (asked, reported) in RETRIEVAL {
        check(rt, alloc, server, 0, asked, reported)?;
    }
    for id in 1..1000 {
        assert_eq!(rt; is_open(server, id), true, "{id}");
        assert_eq!(rt; close_session(server, id), true, "{id}");
    }
    Ok(())
}

// An empty piece says nothing, wherever it comes, and is no fault: between frames, within one, and
// after a Bye.
const EMPTY_PIECES: Dialogue = &[
    (&[], &[]),
    (&[GREETING], &[]),
    (&[], &[]),
    (&[ZEROS], &[WELCOME, ZEROS]),
    (&[], &[]),
    (&[HINT_ASK], &[HINT_PART]),
    (&[BYE], &[]),
    (&[], &[]),
];

#[test]
fn an_empty_piece_says_nothing(rt: HostRuntime) -> Result<(), Fail> {
    an_empty_piece_says_nothing_on(
        &rt,
        rt.alloc(),
        &mut server(rt.alloc(), Plain, &[10, 200], 1)?,
    )?;
    an_empty_piece_says_nothing_on(
        &rt,
        rt.alloc(),
        &mut server(rt.alloc(), Lanes, &[10, 200], 1)?,
    )
}

fn an_empty_piece_says_nothing_on<K: Kernel>(
    rt: &impl Abort,
    alloc: Global,
    server: &mut ServerCore<K>,
) -> Result<(), Fail> {
    for (asked, reported) in EMPTY_PIECES {
        check(rt, alloc, server, 0, asked, reported)?;
    }
    Ok(())
}

#[test]
fn the_server_edits_its_store(rt: HostRuntime) -> Result<(), Fail> {
    the_server_edits_its_store_on(&rt, rt.alloc(), &mut server(rt.alloc(), Plain, &RECORDS, 1)?)?;
    the_server_edits_its_store_on(&rt, rt.alloc(), &mut server(rt.alloc(), Lanes, &RECORDS, 1)?)
}

fn the_server_edits_its_store_on<K: Kernel>(
    rt: &impl Abort,
    alloc: Global,
    server: &mut ServerCore<K>,
) -> Result<(), Fail> {
    assert_eq!(rt; edit(server, 1, &[100]), Ok(()));
    assert_eq!(rt; publish(server), Ok(2));
    assert_eq!(rt; server.store().version(), 2);
    check(
        rt,
        alloc,
        server,
        0,
        &[GREETING, ZEROS, QUERY],
        &[
            &[
                0x35, 0, 0, 0, 0x82, 1, 0, 8, 1, 0, 1, 0, 2, 0, 0, 0, 2, 0, 0, 0, 0, 0, 0, 0, 1, 0,
            ],
            ZEROS,
            STALE,
        ],
    )
}
