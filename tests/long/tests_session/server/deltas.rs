//! Rows of a hint that have changed.

use super::dialogues::*;
use super::*;

// The rows since version 1, 2, 0 and 3 are asked for.
const ASK_1: &[u8] = &[8, 0, 0, 0, 0x04, 1, 0, 0, 0, 0, 0, 0, 0];

const ASK_2: &[u8] = &[8, 0, 0, 0, 0x04, 2, 0, 0, 0, 0, 0, 0, 0];

const ASK_0: &[u8] = &[8, 0, 0, 0, 0x04, 0, 0, 0, 0, 0, 0, 0, 0];

const ASK_3: &[u8] = &[8, 0, 0, 0, 0x04, 3, 0, 0, 0, 0, 0, 0, 0];

// Row 0 of the hint of version 2.
const DELTA: &[u8] = &[
    0x1e, 0, 0, 0, 0x84, 1, 0, 0, 0, 0, 0, 0, 0, 2, 0, 0, 0, 0, 0, 0, 0, 2, 0, 0, 0, 1, 0, 0, 0, 0,
    0, 0x1c, 0x97, 0xf9, 0x22,
];

// No row since version 1 at version 1, and since version 2 at version 2.
const NO_ROWS_1: &[u8] = &[
    0x16, 0, 0, 0, 0x84, 1, 0, 0, 0, 0, 0, 0, 0, 1, 0, 0, 0, 0, 0, 0, 0, 2, 0, 0, 0, 1, 0,
];

const NO_ROWS_2: &[u8] = &[
    0x16, 0, 0, 0, 0x84, 2, 0, 0, 0, 0, 0, 0, 0, 2, 0, 0, 0, 0, 0, 0, 0, 2, 0, 0, 0, 1, 0,
];

const NO_DELTA: &[u8] = &[0x0c, 0, 0, 0, 0x88, 2, 0, 0, 0, 0, 0, 0, 0, 2, 0, 0, 0];

// The publisher asks before its greeting, before its publication and after it; a Delta is no frame
// for a server.
const DELTAS: Dialogue = &[
    (&[ASK_1], &[REFUSED, &[2]]),
    (&[GREETING, ONES], &[WELCOME, ZEROS]),
    (&[ASK_1], &[NO_ROWS_1]),
    (&[EDIT, PUBLISH], &[DONE_1, DONE_2]),
    (&[ASK_1], &[DELTA]),
    (&[ASK_2], &[NO_ROWS_2]),
    (&[ASK_0], &[NO_DELTA]),
    (&[ASK_3], &[NO_DELTA]),
    (&[DELTA], &[REFUSED, &[1]]),
    (&[ASK_1], &[]),
];

#[test]
fn changed_rows_are_given(rt: HostRuntime) -> Result<(), Fail> {
    changed_rows_are_given_on(&rt, rt.alloc(), Plain)?;
    changed_rows_are_given_on(&rt, rt.alloc(), Lanes)
}

fn changed_rows_are_given_on<K: Kernel>(
    rt: &impl Abort,
    alloc: Global,
    kernel: K,
) -> Result<(), Fail> {
    let mut server = server(alloc, kernel, &RECORDS, 1)?;
    for (asked, reported) in DELTAS {
        check(rt, alloc, &mut server, 0, asked, reported)?;
    }
    Ok(())
}

#[test]
fn a_client_sends_no_no_delta(rt: HostRuntime) -> Result<(), Fail> {
    a_client_sends_no_no_delta_on(&rt, rt.alloc(), Plain)?;
    a_client_sends_no_no_delta_on(&rt, rt.alloc(), Lanes)
}

fn a_client_sends_no_no_delta_on<K: Kernel>(
    rt: &impl Abort,
    alloc: Global,
    kernel: K,
) -> Result<(), Fail> {
    let mut server = server(alloc, kernel, &RECORDS, 1)?;
    check(rt, alloc, &mut server, 0, &[NO_DELTA], &[REFUSED, &[1]])
}

// Record 1 becomes the byte c8, which it has already.
const EDIT_TO_EQUAL: &[u8] = &[5, 0, 0, 0, 0x06, 1, 0, 0, 0, 0xc8];

// No row since version 1 at version 2.
const NO_ROWS_1_TO_2: &[u8] = &[
    0x16, 0, 0, 0, 0x84, 1, 0, 0, 0, 0, 0, 0, 0, 2, 0, 0, 0, 0, 0, 0, 0, 2, 0, 0, 0, 1, 0,
];

#[test]
fn equal_bytes_change_no_row(rt: HostRuntime) -> Result<(), Fail> {
    equal_bytes_change_no_row_on(&rt, rt.alloc(), Plain)?;
    equal_bytes_change_no_row_on(&rt, rt.alloc(), Lanes)
}

fn equal_bytes_change_no_row_on<K: Kernel>(
    rt: &impl Abort,
    alloc: Global,
    kernel: K,
) -> Result<(), Fail> {
    let mut server = server(alloc, kernel, &RECORDS, 1)?;
    let asked = [GREETING, ONES, EDIT_TO_EQUAL, PUBLISH];
    let said = [WELCOME, ZEROS, DONE_1, DONE_2];
    check(rt, alloc, &mut server, 0, &asked, &said)?;
    check(rt, alloc, &mut server, 0, &[ASK_1], &[NO_ROWS_1_TO_2])
}

// A server of 2000 rows of one digit each, of which the first ones changed in version 2.
fn changed_server<K: Kernel>(
    rt: &impl Abort,
    alloc: Global,
    kernel: K,
    changed: usize,
) -> Result<ServerCore<K>, Fail> {
    let header = Header {
        groups: 2000,
        count: 2000,
        ..TWO_RECORDS
    };
    let snapshot = header.with_records(vec![in alloc; 0u8; 2000]?);
    let mut server = ServerCore::new(alloc, Store::open(alloc, kernel, snapshot)?);
    server.open_session(0)?;
    edit_first(rt, &mut server, changed);
    Ok(server)
}

// The first records become 1, and are published.
fn edit_first<K: Kernel>(rt: &impl Abort, server: &mut ServerCore<K>, changed: usize) {
    for i in 0..changed {
        assert_eq!(rt; server.edit(i, &[1]), Ok(()));
    }
    assert_eq!(rt; server.publish(), Ok(2));
}

// What a reader is answered that asks for the rows since version 1.
fn answered<K: Kernel>(alloc: Global, server: &mut ServerCore<K>) -> Result<Vec<u8>, Fail> {
    let mut welcome = Vec::new(alloc);
    server.feed(0, &joined(alloc, &[GREETING, ZEROS])?, &mut welcome)?;
    let mut out = Vec::new(alloc);
    server.feed(0, ASK_1, &mut out)?;
    Ok(out)
}

#[test]
fn a_delta_has_1024_rows_at_most(rt: HostRuntime) -> Result<(), Fail> {
    a_delta_has_1024_rows_at_most_on(&rt, rt.alloc(), Plain)?;
    a_delta_has_1024_rows_at_most_on(&rt, rt.alloc(), Lanes)
}

fn a_delta_has_1024_rows_at_most_on<K: Kernel>(
    rt: &impl Abort,
    alloc: Global,
    kernel: K,
) -> Result<(), Fail> {
    let mut server = changed_server(rt, alloc, kernel, 1024)?;
    let out = answered(alloc, &mut server)?;
    assert_eq!(rt; out.len(), 5 + 8214);
    assert_eq!(rt; out.get(..5), Some([0x16, 0x20, 0, 0, 0x84].as_slice()));
    let mut server = changed_server(rt, alloc, kernel, 1025)?;
    let out = answered(alloc, &mut server)?;
    let none = [
        0x0c, 0, 0, 0, 0x88, 2, 0, 0, 0, 0, 0, 0, 0, 0xd0, 0x07, 0, 0,
    ];
    assert_eq!(rt; out.as_slice(), none.as_slice());
    Ok(())
}
