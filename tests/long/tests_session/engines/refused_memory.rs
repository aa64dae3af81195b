//! Memory that is refused once to an engine: the call that reports it has written whole replies
//! alone, and a session or a conversation that begins anew goes to its end. With ample memory none
//! is refused here; `tests/memory/run --all` refuses each request of these tests in turn.
//!
//! Proved by `tests/long/run --prove`.

use super::*;
use test_support::Output;

// A reader's greeting, its ask for the hint, and its leave.
const SAID: &[u8] = &[
    0x22, 0, 0, 0, 0x02, 1, 0, 0, 0, 0, 0, 0, 0, 0, 0, 0, 0, 0, 0, 0, 0, 0, 0, 0, 0, 0, 0, 0, 0, 0,
    0, 0, 0, 0, 0, 0, 0, 0, 0, 0x0d, 0, 0, 0, 0x03, 0, 1, 0, 0, 0, 0, 0, 0, 0, 0, 0, 0, 0, 0, 0, 0,
    0, 0x08,
];

// The Welcome, and then the hint's part.
const REPLIES: &[u8] = &[
    0x35, 0, 0, 0, 0x82, 1, 0, 8, 1, 0, 1, 0, 2, 0, 0, 0, 1, 0, 0, 0, 0, 0, 0, 0, 1, 0, 0, 0, 0, 0,
    0, 0, 0, 0, 0, 0, 0, 0, 0, 0, 0, 0, 0, 0, 0, 0, 0, 0, 0, 0, 0, 0, 0, 0, 0, 0, 0, 0, 0x11, 0, 0,
    0, 0x83, 0, 1, 0, 0, 0, 0, 0, 0, 0, 0, 0, 0, 0, 0x9c, 0xf9, 0x2b, 0x7b,
];

const WELCOME_LEN: usize = 58;

// Refused 12, and what the ask for the hint is answered without a greeting.
const NO_MEMORY: &[u8] = &[1, 0, 0, 0, 0x8f, 12];

const NOT_WELCOME: &[u8] = &[1, 0, 0, 0, 0x8f, 2];

// A writer with room for all, made again where memory was refused. Writing to it asks for no more.
fn make_output(alloc: Global) -> Result<Output, AllocError> {
    let bytes = match Vec::with_capacity(alloc, 256) {
        Ok(bytes) => bytes,
        Err(_) => Vec::with_capacity(alloc, 256)?,
    };
    Ok(Output {
        bytes,
        most: 256,
        room: 256,
        fails: false,
    })
}

fn serves<K: Kernel>(
    alloc: Global,
    server: &mut ServerCore<K>,
    writer: &mut Output,
) -> Result<Ending, ServeFault> {
    let mut reader = SAID;
    serve_all(alloc, server, 0, &mut reader, writer, TURNS)
}

// Whether these are whole replies, of which memory was refused to one.
fn are_refused(said: &[u8]) -> bool {
    if let Some(rest) = said.strip_prefix(NO_MEMORY) {
        return rest == NOT_WELCOME;
    }
    match said.split_at_checked(WELCOME_LEN) {
        Some((welcome, rest)) => REPLIES.starts_with(welcome) && rest == NO_MEMORY,
        None => false,
    }
}

// Whether these are the first of the replies, and whole.
fn are_first(said: &[u8]) -> bool {
    let is_whole = said.is_empty() || said.len() == WELCOME_LEN || said.len() == REPLIES.len();
    is_whole && REPLIES.starts_with(said)
}

// Serves a session, again where memory was refused: it is closed then, and its number is free.
fn is_served<K: Kernel>(
    rt: &impl Abort,
    alloc: Global,
    server: &mut ServerCore<K>,
) -> Result<(), Fail> {
    let mut writer = make_output(alloc)?;
    match serves(alloc, server, &mut writer) {
        Ok(ending) => {
            assert_eq!(rt; ending, Ending::Closed);
            assert!(rt; are_first(&writer.bytes) || are_refused(&writer.bytes));
        }
        Err(fault) => {
            assert_eq!(rt; fault, ServeFault::Memory);
            assert!(rt; are_first(&writer.bytes));
        }
    }
    if writer.bytes.as_slice() != REPLIES {
        let mut writer = make_output(alloc)?;
        assert_eq!(rt; serves(alloc, server, &mut writer), Ok(Ending::Closed));
        assert_eq!(rt; writer.bytes.as_slice(), REPLIES);
    }
    Ok(())
}

fn try_server<K: Kernel>(alloc: Global, kernel: K) -> Option<ServerCore<K>> {
    let snapshot = TWO_RECORDS.with_records(RECORDS.to_vec(alloc).ok()?);
    Some(ServerCore::new(alloc, Store::open(alloc, kernel, snapshot).ok()?))
}

// A server without a session, made again where memory was refused.
fn started<K: Kernel>(alloc: Global, kernel: K) -> Result<ServerCore<K>, Fail> {
    match try_server(alloc, kernel) {
        Some(made) => Ok(made),
        None => server(alloc, kernel),
    }
}

#[test]
fn a_refused_session_is_served_later(rt: HostRuntime) -> Result<(), Fail> {
    is_served(&rt, rt.alloc(), &mut started(rt.alloc(), Plain)?)?;
    is_served(&rt, rt.alloc(), &mut started(rt.alloc(), Lanes)?)
}

// The first call of a client, made again where memory was refused.
fn greeting_of<K: Kernel>(client: &mut ClientCore<K>) -> Result<Vec<u8>, CallFault> {
    match hello(client, ZEROS) {
        Err(CallFault::Memory) => hello(client, ZEROS),
        answer => answer,
    }
}

// Greets a server that welcomes the client: where memory was refused, the client's call is
// outstanding still and nothing was written, or the client has failed.
fn is_welcomed<K: Kernel>(rt: &impl Abort, alloc: Global, kernel: K) -> Result<bool, Fail> {
    let mut client = client(alloc, kernel);
    let first = greeting_of(&mut client)?;
    let mut writer = make_output(alloc)?;
    let mut reader = REPLIES.get(..WELCOME_LEN).unwrap_or(&[]);
    let event = converse_all(alloc, &mut client, &first, &mut reader, &mut writer, TURNS);
    match event {
        Ok(event) => {
            assert!(rt; matches!(event, Event::Welcomed(1)));
            assert_eq!(rt; writer.bytes.as_slice(), first.as_slice());
            Ok(true)
        }
        Err(fault) => {
            assert_eq!(rt; fault, ConverseFault::Memory);
            let later = hello(&mut client, ZEROS).err();
            if writer.bytes.is_empty() {
                assert_eq!(rt; later, Some(CallFault::Busy));
            } else {
                assert_eq!(rt; writer.bytes.as_slice(), first.as_slice());
                assert_eq!(rt; later, Some(CallFault::Failed));
            }
            Ok(false)
        }
    }
}

#[test]
fn a_refused_conversation_begins_anew(rt: HostRuntime) -> Result<(), Fail> {
    a_refused_conversation_begins_anew_on(&rt, rt.alloc(), Plain)?;
    a_refused_conversation_begins_anew_on(&rt, rt.alloc(), Lanes)
}

fn a_refused_conversation_begins_anew_on<K: Kernel>(
    rt: &impl Abort,
    alloc: Global,
    kernel: K,
) -> Result<(), Fail> {
    if !is_welcomed(rt, alloc, kernel)? {
        assert!(rt; is_welcomed(rt, alloc, kernel)?);
    }
    Ok(())
}
