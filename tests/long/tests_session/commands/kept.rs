//! Calls one by one, over a hint that one client leaves to the next.

use super::{
    ANSWER, HELLO, HINT_ASK, HINT_PART, ONES, QUERY, Replies, STALE, WELCOME, ZEROS, client,
    stream_of,
};
use client_commands::{CommandError, ask, ask_with_rows, greet, sync};
use client_core::{CallFault, ClientCore, Event, SavedClient, Scheme};
use matrix_u32::Plain;
use std::alloc::Global;
use std::process::Abort;
use std::test::Fail;

// The two calls with which a client comes to a hint. They have no contract, so that what uses them
// carries no clause of the client.
fn holds_a_hint(
    alloc: Global,
    client: &mut ClientCore<Plain>,
    reader: &mut Replies,
    writer: &mut Vec<u8>,
) -> bool {
    let greeted = greet(alloc, client, reader, writer);
    let synced = sync(alloc, client, reader, writer, Scheme::Simple);
    matches!(greeted, Ok(Event::Welcomed(1)))
        && matches!(synced, Ok(Event::Synced(Scheme::Simple, 1)))
}

fn is_let_in(
    alloc: Global,
    client: &mut ClientCore<Plain>,
    reader: &mut Replies,
    writer: &mut Vec<u8>,
) -> bool {
    matches!(
        greet(alloc, client, reader, writer),
        Ok(Event::Welcomed(1))
    )
}

fn asked(
    alloc: Global,
    client: &mut ClientCore<Plain>,
    reader: &mut Replies,
    writer: &mut Vec<u8>,
) -> Result<Event, CommandError> {
    ask(alloc, client, reader, writer, 1)
}

fn asked_over(
    alloc: Global,
    client: &mut ClientCore<Plain>,
    reader: &mut Replies,
    writer: &mut Vec<u8>,
    saved: SavedClient,
) -> Result<Option<Event>, CommandError> {
    ask_with_rows(alloc, client, reader, writer, saved, 1)
}

// Whether the event is that of record 1 at version 1, whose byte is c8.
fn is_the_record(event: &Event) -> bool {
    match event {
        Event::Retrieved {
            index: 1,
            version: 1,
            bytes,
        } => bytes.as_slice() == [0xc8].as_slice(),
        _ => false,
    }
}

// What a client leaves that holds a hint.
fn left(rt: &(impl Abort + AllocGlobal)) -> Result<SavedClient, Fail> {
    let mut reader = stream_of(rt.alloc(), &[WELCOME, &ZEROS, HINT_PART])?;
    let mut writer = Vec::new(rt.alloc());
    let mut client = client(rt.alloc());
    assert!(rt; holds_a_hint(rt.alloc(), &mut client, &mut reader, &mut writer));
    Ok(client.into_saved())
}

#[test]
fn each_ask_spends_the_next_number(rt: HostRuntime) -> Result<(), Fail> {
    let alloc = rt.alloc();
    let parts: [&[u8]; 6] = [WELCOME, &ZEROS, HINT_PART, ANSWER, ANSWER, STALE];
    let mut reader = stream_of(alloc, &parts)?;
    let mut writer = Vec::new(alloc);
    let mut client = client(alloc);
    assert!(rt; holds_a_hint(alloc, &mut client, &mut reader, &mut writer));
    assert_eq!(rt; client.next_number(), 0);
    for number in 1..3 {
        match asked(alloc, &mut client, &mut reader, &mut writer) {
            Ok(event) => assert!(rt; is_the_record(&event)),
            Err(_) => assert!(rt; false),
        }
        assert_eq!(rt; client.next_number(), number);
    }
    let stale = asked(alloc, &mut client, &mut reader, &mut writer);
    assert!(rt; matches!(stale, Err(CommandError::Stale(2))));
    assert_eq!(rt; client.next_number(), 3);
    // The hint is none of the version known, so the client refuses the next.
    let refused = asked(alloc, &mut client, &mut reader, &mut writer);
    assert!(rt; matches!(refused, Err(CommandError::Call(CallFault::NotReady))));
    assert_eq!(rt; client.next_number(), 3);
    let first = HELLO + HINT_ASK;
    assert_eq!(rt; writer.len(), first + 3 * QUERY);
    assert!(rt; writer[first..first + QUERY] != writer[first + QUERY..first + 2 * QUERY]);
    Ok(())
}

#[test]
fn a_hint_is_taken_up_for_one_ask(rt: HostRuntime) -> Result<(), Fail> {
    let alloc = rt.alloc();
    let saved = left(&rt)?;
    let mut reader = stream_of(alloc, &[WELCOME, &ZEROS, ANSWER])?;
    let mut writer = Vec::new(alloc);
    let mut client = client(alloc);
    assert!(rt; is_let_in(alloc, &mut client, &mut reader, &mut writer));
    match asked_over(alloc, &mut client, &mut reader, &mut writer, saved) {
        Ok(Some(event)) => assert!(rt; is_the_record(&event)),
        _ => assert!(rt; false),
    }
    assert!(rt; client.hint().is_none());
    assert_eq!(rt; client.next_number(), 1);
    assert_eq!(rt; writer.len(), HELLO + QUERY);
    Ok(())
}

#[test]
fn a_hint_of_another_store_is_asked_over_by_none(rt: HostRuntime) -> Result<(), Fail> {
    let alloc = rt.alloc();
    let saved = left(&rt)?;
    let mut reader = stream_of(alloc, &[WELCOME, &ONES, ANSWER])?;
    let mut writer = Vec::new(alloc);
    let mut client = client(alloc);
    assert!(rt; is_let_in(alloc, &mut client, &mut reader, &mut writer));
    let none = asked_over(alloc, &mut client, &mut reader, &mut writer, saved);
    assert!(rt; matches!(none, Ok(None)));
    assert_eq!(rt; client.next_number(), 0);
    assert_eq!(rt; writer.len(), HELLO);
    Ok(())
}

#[test]
fn nothing_is_asked_before_the_welcome(rt: HostRuntime) -> Result<(), Fail> {
    let alloc = rt.alloc();
    let saved = left(&rt)?;
    let mut reader = stream_of(alloc, &[WELCOME, &ZEROS])?;
    let mut writer = Vec::new(alloc);
    let mut client = client(alloc);
    let refused = asked_over(alloc, &mut client, &mut reader, &mut writer, saved);
    assert!(rt; matches!(refused, Err(CommandError::Call(CallFault::NotReady))));
    let refused = asked(alloc, &mut client, &mut reader, &mut writer);
    assert!(rt; matches!(refused, Err(CommandError::Call(CallFault::NotReady))));
    assert_eq!(rt; client.next_number(), 0);
    assert_eq!(rt; writer.len(), 0);
    Ok(())
}
