//! Memory that is refused once to a server: a reply that finds none is Refused 12, and the session
//! goes on; where there is no room for that either, the session alone is closed. A frame that was
//! refused has changed nothing, and is served when it comes again. With ample memory none is
//! refused here; `tests/memory/run --all` refuses each request of this test in turn.
//!
//! Proved by `tests/long/run --prove`.

use super::*;

const NO_MEMORY: &[u8] = &[1, 0, 0, 0, 0x8f, 12];

// The publisher's greeting.
const HELLO: &[u8] = &[
    0x22, 0, 0, 0, 0x02, 1, 0, 1, 1, 1, 1, 1, 1, 1, 1, 1, 1, 1, 1, 1, 1, 1, 1, 1, 1, 1, 1, 1, 1, 1,
    1, 1, 1, 1, 1, 1, 1, 1, 1,
];

const WHOLE_WELCOME: &[u8] = &[
    0x35, 0, 0, 0, 0x82, 1, 0, 8, 1, 0, 1, 0, 2, 0, 0, 0, 1, 0, 0, 0, 0, 0, 0, 0, 1, 0, 0, 0, 0, 0,
    0, 0, 0, 0, 0, 0, 0, 0, 0, 0, 0, 0, 0, 0, 0, 0, 0, 0, 0, 0, 0, 0, 0, 0, 0, 0, 0, 0,
];

// Record 1 becomes 64, in version 2.
const EDIT: &[u8] = &[5, 0, 0, 0, 0x06, 1, 0, 0, 0, 0x64];

const EDITED: &[u8] = &[8, 0, 0, 0, 0x87, 1, 0, 0, 0, 0, 0, 0, 0];

const PUBLISH: &[u8] = &[0, 0, 0, 0, 0x07];

const PUBLISHED: &[u8] = &[8, 0, 0, 0, 0x87, 2, 0, 0, 0, 0, 0, 0, 0];

const QUERY_2: &[u8] = &[
    0x11, 0, 0, 0, 0x05, 0, 2, 0, 0, 0, 0, 0, 0, 0, 0x16, 0, 0, 0, 0x21, 0, 0, 1,
];

// 10 * 22 + 100 * (33 + 2^24)
const ANSWER_2: &[u8] = &[
    0x0d, 0, 0, 0, 0x85, 0, 2, 0, 0, 0, 0, 0, 0, 0, 0xc0, 0x0d, 0, 0x64,
];

// The byte 5 is one record more, in version 3.
const APPEND: &[u8] = &[1, 0, 0, 0, 0x09, 5];

const APPENDED: &[u8] = &[8, 0, 0, 0, 0x87, 2, 0, 0, 0, 0, 0, 0, 0];

const FRAMES: [(&[u8], &[u8]); 7] = [
    (HELLO, WHOLE_WELCOME),
    (HINT_ASK, HINT_PART),
    (QUERY, ANSWER),
    (EDIT, EDITED),
    (PUBLISH, PUBLISHED),
    (QUERY_2, ANSWER_2),
    (APPEND, APPENDED),
];

fn is_open<K: Kernel>(server: &ServerCore<K>, id: u64) -> bool {
    server.is_open(id)
}

// Feeds a frame, again where it was refused for memory, and compares the reply. Answers whether the
// session is open still: where it was closed, it was answered nothing, and takes nothing more.
fn is_answered<K: Kernel>(
    rt: &impl Abort,
    alloc: Global,
    server: &mut ServerCore<K>,
    id: u64,
    frame: &[u8],
    reply: &[u8],
) -> bool {
    let mut out = Vec::new(alloc);
    let fed = feed(server, id, frame, &mut out);
    if let Err(fault) = fed {
        assert_eq!(rt; fault, FeedError::Memory);
        assert_eq!(rt; feed(server, id, frame, &mut out), Ok(()));
        assert_eq!(rt; out.len(), 0);
        return false;
    }
    if out.as_slice() == NO_MEMORY {
        out.clear();
        assert_eq!(rt; feed(server, id, frame, &mut out), Ok(()));
    }
    assert_eq!(rt; out.as_slice(), reply);
    true
}

// Opens a session, again where memory was refused: the first try has opened none.
fn opens<K: Kernel>(rt: &impl Abort, server: &mut ServerCore<K>, id: u64) {
    if let Err(fault) = open_session(server, id) {
        assert_eq!(rt; fault, SessionError::Memory);
        assert!(rt; !has_session(server, id));
        assert_eq!(rt; open_session(server, id), Ok(()));
    }
}

// Greets in a session of this number, and feeds it a frame.
fn is_answered_later<K: Kernel>(
    rt: &impl Abort,
    alloc: Global,
    server: &mut ServerCore<K>,
    id: u64,
    frame: &[u8],
    reply: &[u8],
) {
    opens(rt, server, id);
    let mut out = Vec::new(alloc);
    assert_eq!(rt; feed(server, id, HELLO, &mut out), Ok(()));
    assert_eq!(rt; out.len(), WHOLE_WELCOME.len());
    assert!(rt; is_answered(rt, alloc, server, id, frame, reply));
}

// Feeds the frames, in session 1 and in session 2 after memory that closed it.
fn answers_each<K: Kernel>(rt: &impl Abort, alloc: Global, server: &mut ServerCore<K>) {
    opens(rt, server, 1);
    let mut id = 1;
    for (frame, reply) in FRAMES {
        if !is_answered(rt, alloc, server, id, frame, reply) {
            id = 2;
            is_answered_later(rt, alloc, server, id, frame, reply);
        }
    }
    // The session beside them was asked nothing, and is open still.
    assert!(rt; is_open(server, 0));
    assert!(rt; !is_open(server, 1) || id == 1);
}

fn try_server<K: Kernel>(alloc: Global, kernel: K) -> Option<ServerCore<K>> {
    let snapshot = header(2, 1).with_records(RECORDS.to_vec(alloc).ok()?);
    let mut server = ServerCore::new(alloc, Store::open(alloc, kernel, snapshot).ok()?);
    open_session(&mut server, 0).ok()?;
    Some(server)
}

// A server with a session 0, made again where memory was refused.
fn started<K: Kernel>(alloc: Global, kernel: K) -> Result<ServerCore<K>, Fail> {
    match try_server(alloc, kernel) {
        Some(made) => Ok(made),
        None => server(alloc, kernel, &RECORDS, 1),
    }
}

#[test]
fn a_refused_frame_is_served_later(rt: HostRuntime) -> Result<(), Fail> {
    answers_each(&rt, rt.alloc(), &mut started(rt.alloc(), Plain)?);
    answers_each(&rt, rt.alloc(), &mut started(rt.alloc(), Lanes)?);
    Ok(())
}
