//! The client's side.

ghost use Rattle.std.specs.Prelude.{◌≤◌};

use super::helpers::*;
use super::*;
use client_core::{CallFault, Event, Scheme};
use frame_codec::{Bytes32, Frame, Words, write_frame};

// The number that an event carries, with a letter for its kind.
fn shown(answer: &Result<Event, ConverseFault>) -> Result<(char, u64), ConverseFault> {
    match answer {
        Ok(Event::Welcomed(version)) => Ok(('w', *version)),
        Ok(Event::Synced(Scheme::Simple, version)) => Ok(('s', *version)),
        Ok(Event::Synced(Scheme::Double, version)) => Ok(('d', *version)),
        Ok(Event::Retrieved { version, .. }) => Ok(('r', *version)),
        Ok(Event::Unreadable { version, .. }) => Ok(('u', *version)),
        Ok(Event::Stale(version)) => Ok(('t', *version)),
        Ok(Event::Done(version)) => Ok(('e', *version)),
        Ok(Event::Refused(code)) => Ok(('x', u64::from(*code))),
        Err(fault) => Err(*fault),
    }
}

// A client that was let in with a key.
fn welcomed<K: Kernel>(
    rt: &impl Abort,
    alloc: Global,
    key: [u8; 32],
    kernel: K,
) -> Result<ClientCore<K>, Fail> {
    let mut client = client(alloc, kernel);
    let first = hello(&mut client, key)?;
    let welcome = joined(alloc, &[WELCOME, &ZEROS])?;
    let mut reader = welcome.as_slice();
    let mut writer = Vec::new(alloc);
    let result = converse_all(alloc, &mut client, &first, &mut reader, &mut writer, TURNS);
    assert_eq!(rt; shown(&result), Ok(('w', 1)));
    assert_eq!(rt; writer.as_slice(), first.as_slice());
    Ok(client)
}

#[test]
fn a_greeting_is_welcomed(rt: HostRuntime) -> Result<(), Fail> {
    a_greeting_is_welcomed_on(&rt, rt.alloc(), Plain)?;
    a_greeting_is_welcomed_on(&rt, rt.alloc(), Lanes)
}

fn a_greeting_is_welcomed_on<K: Kernel>(
    rt: &impl Abort,
    alloc: Global,
    kernel: K,
) -> Result<(), Fail> {
    let first = joined(alloc, &[GREETING, &ZEROS])?;
    let welcome = joined(alloc, &[WELCOME, &ZEROS])?;
    for most in [1, 7, PIECE] {
        let mut client = client(alloc, kernel);
        assert_eq!(rt; hello(&mut client, ZEROS)?.as_slice(), first.as_slice());
        let mut reader = Input {
            bytes: &welcome,
            most,
            fails: true,
        };
        let mut writer = Vec::new(alloc);
        let result = converse_all(alloc, &mut client, &first, &mut reader, &mut writer, TURNS);
        assert_eq!(rt; shown(&result), Ok(('w', 1)), "{most} bytes a read");
        assert_eq!(rt; writer.as_slice(), first.as_slice(), "{most} bytes a read");
    }
    Ok(())
}

#[test]
fn a_publishers_edit_is_done(rt: HostRuntime) -> Result<(), Fail> {
    a_publishers_edit_is_done_on(&rt, rt.alloc(), Plain)?;
    a_publishers_edit_is_done_on(&rt, rt.alloc(), Lanes)
}

fn a_publishers_edit_is_done_on<K: Kernel>(
    rt: &impl Abort,
    alloc: Global,
    kernel: K,
) -> Result<(), Fail> {
    let mut client = welcomed(rt, alloc, ONES, kernel)?;
    let first = edit(&mut client, 1, &[100])?;
    let mut reader = DONE;
    let mut writer = Vec::new(alloc);
    let result = converse_all(alloc, &mut client, &first, &mut reader, &mut writer, TURNS);
    assert_eq!(rt; shown(&result), Ok(('e', 1)));
    assert_eq!(rt; writer.as_slice(), EDIT);
    Ok(())
}

#[test]
fn a_publishers_record_is_appended(rt: HostRuntime) -> Result<(), Fail> {
    a_publishers_record_is_appended_on(&rt, rt.alloc(), Plain)?;
    a_publishers_record_is_appended_on(&rt, rt.alloc(), Lanes)
}

fn a_publishers_record_is_appended_on<K: Kernel>(
    rt: &impl Abort,
    alloc: Global,
    kernel: K,
) -> Result<(), Fail> {
    let mut client = welcomed(rt, alloc, ONES, kernel)?;
    let first = append(&mut client, &[5])?;
    let mut reader = DONE;
    let mut writer = Vec::new(alloc);
    let result = converse_all(alloc, &mut client, &first, &mut reader, &mut writer, TURNS);
    assert_eq!(rt; shown(&result), Ok(('e', 1)));
    assert_eq!(rt; writer.as_slice(), APPEND);
    Ok(())
}

// Adds a part of so many words, all of them 0.
fn put_part(alloc: Global, part: u32, count: usize, out: &mut Vec<u8>) -> Result<(), Fail>
    requires { count ≤ 65536 }
{
    let words = Words::new(Vec::from_elem(alloc, 0u32, count)?);
    let frame = Frame::HintPart {
        scheme: 0,
        version: 1,
        part,
        words,
    };
    write_frame(&frame, out)?;
    Ok(())
}

#[test]
fn a_hint_of_two_parts_is_asked_for_part_by_part(rt: HostRuntime) -> Result<(), Fail> {
    a_hint_of_two_parts_is_asked_for_part_by_part_on(&rt, rt.alloc(), Plain)?;
    a_hint_of_two_parts_is_asked_for_part_by_part_on(&rt, rt.alloc(), Lanes)
}

fn a_hint_of_two_parts_is_asked_for_part_by_part_on<K: Kernel>(
    rt: &impl Abort,
    alloc: Global,
    kernel: K,
) -> Result<(), Fail> {
    let mut client = client(alloc, kernel);
    let mut stream = Vec::new(alloc);
    let welcome = Frame::Welcome {
        profile: 1,
        width: 8,
        record_len: 1,
        groups: 66,
        count: 66,
        version: 1,
        dimension: 1024,
        seed: Bytes32::copied(&ZEROS),
    };
    write_frame(&welcome, &mut stream)?;
    let first = hello(&mut client, ZEROS)?;
    let mut reader = stream.as_slice();
    let mut writer = Vec::new(alloc);
    let result = converse_all(alloc, &mut client, &first, &mut reader, &mut writer, TURNS);
    assert_eq!(rt; shown(&result), Ok(('w', 1)));
    let mut parts = Vec::new(alloc);
    put_part(alloc, 0, PIECE, &mut parts)?;
    put_part(alloc, 1, 2048, &mut parts)?;
    let first = sync(&mut client, Scheme::Simple)?;
    let mut reader = parts.as_slice();
    let mut writer = Vec::new(alloc);
    let result = converse_all(alloc, &mut client, &first, &mut reader, &mut writer, TURNS);
    assert_eq!(rt; shown(&result), Ok(('s', 1)));
    let second: &[u8] = &[0x0d, 0, 0, 0, 0x03, 0, 1, 0, 0, 0, 0, 0, 0, 0, 1, 0, 0, 0];
    assert_eq!(rt;
        writer.as_slice(),
        joined(alloc, &[HINT_ASK, second])?.as_slice()
    );
    Ok(())
}

#[test]
fn the_servers_stream_may_end(rt: HostRuntime) -> Result<(), Fail> {
    the_servers_stream_may_end_on(&rt, rt.alloc(), Plain)?;
    the_servers_stream_may_end_on(&rt, rt.alloc(), Lanes)
}

fn the_servers_stream_may_end_on<K: Kernel>(
    rt: &impl Abort,
    alloc: Global,
    kernel: K,
) -> Result<(), Fail> {
    let first = joined(alloc, &[GREETING, &ZEROS])?;
    for len in [0, 26] {
        let mut client = client(alloc, kernel);
        hello(&mut client, ZEROS)?;
        let mut reader = &WELCOME[..len];
        let mut writer = Vec::new(alloc);
        let result = converse_all(alloc, &mut client, &first, &mut reader, &mut writer, TURNS);
        assert_eq!(rt; shown(&result), Err(ConverseFault::Ended));
        assert_eq!(rt; writer.as_slice(), first.as_slice());
    }
    Ok(())
}

#[test]
fn a_reader_that_fails(rt: HostRuntime) -> Result<(), Fail> {
    a_reader_that_fails_on(&rt, rt.alloc(), Plain)?;
    a_reader_that_fails_on(&rt, rt.alloc(), Lanes)
}

fn a_reader_that_fails_on<K: Kernel>(
    rt: &impl Abort,
    alloc: Global,
    kernel: K,
) -> Result<(), Fail> {
    let welcome = joined(alloc, &[WELCOME, &ZEROS])?;
    for len in 0..58 {
        let mut client = client(alloc, kernel);
        let first = hello(&mut client, ZEROS)?;
        let mut reader = Input {
            bytes: welcome.get(..len).unwrap_or(&[]),
            most: 9,
            fails: true,
        };
        let mut writer = Vec::new(alloc);
        let result = converse_all(alloc, &mut client, &first, &mut reader, &mut writer, TURNS);
        assert_eq!(rt; shown(&result), Err(ConverseFault::Read));
        assert_eq!(rt; writer.as_slice(), first.as_slice());
    }
    Ok(())
}

#[test]
fn a_writer_that_fails_or_takes_nothing(rt: HostRuntime) -> Result<(), Fail> {
    a_writer_that_fails_or_takes_nothing_on(&rt, rt.alloc(), Plain)?;
    a_writer_that_fails_or_takes_nothing_on(&rt, rt.alloc(), Lanes)
}

fn a_writer_that_fails_or_takes_nothing_on<K: Kernel>(
    rt: &impl Abort,
    alloc: Global,
    kernel: K,
) -> Result<(), Fail> {
    for room in 0..39 {
        for fails in [false, true] {
            let mut client = client(alloc, kernel);
            let first = hello(&mut client, ZEROS)?;
            let mut reader = WELCOME;
            let mut writer = Output {
                bytes: Vec::new(alloc),
                room,
                fails,
            };
            let result = converse_all(alloc, &mut client, &first, &mut reader, &mut writer, TURNS);
            assert_eq!(rt; shown(&result), Err(ConverseFault::Write));
            assert_eq!(rt; Some(writer.bytes.as_slice()), first.get(..room));
            assert_eq!(rt; reader, WELCOME);
        }
    }
    Ok(())
}

#[test]
fn all_turns_are_used_up(rt: HostRuntime) -> Result<(), Fail> {
    all_turns_are_used_up_on(&rt, rt.alloc(), Plain)?;
    all_turns_are_used_up_on(&rt, rt.alloc(), Lanes)
}

fn all_turns_are_used_up_on<K: Kernel>(
    rt: &impl Abort,
    alloc: Global,
    kernel: K,
) -> Result<(), Fail> {
    for turns in [0, 25] {
        let mut client = client(alloc, kernel);
        let first = hello(&mut client, ZEROS)?;
        let mut reader = Input {
            bytes: WELCOME,
            most: 1,
            fails: false,
        };
        let mut writer = Vec::new(alloc);
        let result = converse_all(alloc, &mut client, &first, &mut reader, &mut writer, turns);
        assert_eq!(rt; shown(&result), Err(ConverseFault::TurnsUsedUp));
        assert_eq!(rt; writer.as_slice(), first.as_slice());
        assert_eq!(rt; reader.bytes.len() as u64 + turns, WELCOME.len() as u64);
    }
    Ok(())
}

#[test]
fn a_bad_welcome(rt: HostRuntime) -> Result<(), Fail> {
    a_bad_welcome_on(&rt, rt.alloc(), Plain)?;
    a_bad_welcome_on(&rt, rt.alloc(), Lanes)
}

fn a_bad_welcome_on<K: Kernel>(rt: &impl Abort, alloc: Global, kernel: K) -> Result<(), Fail> {
    let mut welcome = joined(alloc, &[WELCOME, &ZEROS])?;
    if let Some(profile) = welcome.get_mut(5) {
        *profile = 9;
    }
    let mut client = client(alloc, kernel);
    let first = hello(&mut client, ZEROS)?;
    let mut reader = welcome.as_slice();
    let mut writer = Vec::new(alloc);
    let result = converse_all(alloc, &mut client, &first, &mut reader, &mut writer, TURNS);
    assert_eq!(rt; shown(&result), Err(ConverseFault::BadWelcome));
    Ok(())
}

#[test]
fn an_answer_of_two_words_is_a_bad_reply(rt: HostRuntime) -> Result<(), Fail> {
    an_answer_of_two_words_is_a_bad_reply_on(&rt, rt.alloc(), Plain)?;
    an_answer_of_two_words_is_a_bad_reply_on(&rt, rt.alloc(), Lanes)
}

fn an_answer_of_two_words_is_a_bad_reply_on<K: Kernel>(
    rt: &impl Abort,
    alloc: Global,
    kernel: K,
) -> Result<(), Fail> {
    let mut client = welcomed(rt, alloc, ZEROS, kernel)?;
    let first = sync(&mut client, Scheme::Simple)?;
    let mut reader = HINT_PART;
    let mut writer = Vec::new(alloc);
    let result = converse_all(alloc, &mut client, &first, &mut reader, &mut writer, TURNS);
    assert_eq!(rt; shown(&result), Ok(('s', 1)));
    let first = ask(&mut client, 1)?;
    let answer: &[u8] = &[
        0x11, 0, 0, 0, 0x85, 0, 1, 0, 0, 0, 0, 0, 0, 0, 1, 0, 0, 0, 2, 0, 0, 0,
    ];
    let mut reader = answer;
    let result = converse_all(alloc, &mut client, &first, &mut reader, &mut writer, TURNS);
    assert_eq!(rt; shown(&result), Err(ConverseFault::BadReply));
    let mut reader = answer;
    let result = converse_all(alloc, &mut client, &first, &mut reader, &mut writer, TURNS);
    assert_eq!(rt; shown(&result), Err(ConverseFault::Failed));
    Ok(())
}

#[test]
fn an_event_is_answered_also_before_a_fault(rt: HostRuntime) -> Result<(), Fail> {
    an_event_is_answered_also_before_a_fault_on(&rt, rt.alloc(), Plain)?;
    an_event_is_answered_also_before_a_fault_on(&rt, rt.alloc(), Lanes)
}

fn an_event_is_answered_also_before_a_fault_on<K: Kernel>(
    rt: &impl Abort,
    alloc: Global,
    kernel: K,
) -> Result<(), Fail> {
    let mut client = client(alloc, kernel);
    let first = hello(&mut client, ZEROS)?;
    let stream = joined(alloc, &[WELCOME, &ZEROS, DONE])?;
    let mut reader = stream.as_slice();
    let mut writer = Vec::new(alloc);
    let result = converse_all(alloc, &mut client, &first, &mut reader, &mut writer, TURNS);
    assert_eq!(rt; shown(&result), Ok(('w', 1)));
    assert_eq!(rt; client.publish().err(), Some(CallFault::Failed));
    Ok(())
}
