//! Commands against stored streams of a server.
//!
//! Proved by `tests/long/run --prove`.

use client_commands::{CommandError, Retrieved, append, get, publish, put};
use client_core::{CallFault, ClientCore, Scheme};
use matrix_u32::Plain;
use blocking_io::ConverseFault;
use std::alloc::{AllocError, Global};
use std::io;
use std::io::Read;
use std::process::Abort;
use std::test::Fail;

// Two records of one byte, each a column of its own, at version 1, with secrets of one word. The
// seed of zeros follows.
const WELCOME: &[u8] = &[
    0x35, 0, 0, 0, 0x82, 1, 0, 8, 1, 0, 1, 0, 2, 0, 0, 0, 1, 0, 0, 0, 0, 0, 0, 0, 1, 0,
];

const OTHER_PROFILE: &[u8] = &[
    0x35, 0, 0, 0, 0x82, 9, 0, 8, 1, 0, 1, 0, 2, 0, 0, 0, 1, 0, 0, 0, 0, 0, 0, 0, 1, 0,
];

// A hint of the word 0: then the answer's upper byte is the record.
const HINT_PART: &[u8] = &[
    0x11, 0, 0, 0, 0x83, 0, 1, 0, 0, 0, 0, 0, 0, 0, 0, 0, 0, 0, 0, 0, 0, 0,
];

const ANSWER: &[u8] = &[
    0x0d, 0, 0, 0, 0x85, 0, 1, 0, 0, 0, 0, 0, 0, 0, 0x11, 0x22, 0, 0xc8,
];

const STALE: &[u8] = &[0x0c, 0, 0, 0, 0x86, 2, 0, 0, 0, 0, 0, 0, 0, 2, 0, 0, 0];

const DONE: &[u8] = &[8, 0, 0, 0, 0x87, 1, 0, 0, 0, 0, 0, 0, 0];

const REFUSED: &[u8] = &[1, 0, 0, 0, 0x8f, 8];

const ZEROS: [u8; 32] = [0; 32];

const ONES: [u8; 32] = [1; 32];

// A read gives one frame of the stream, as a server does that waits for each call.
#[derive(Drop)]
struct Replies {
    bytes: Vec<u8>,
    at: usize,
}

impl Read for Replies {
    fn read(&mut self, buf: &mut [u8]) -> io::Result<usize> {
        let start = self.at.min(self.bytes.len());
        let rest = &self.bytes.as_slice()[start..];
        let n = frame_len(rest).min(rest.len()).min(buf.len());
        buf[..n].copy_from_slice(&rest[..n]);
        self.at = start + n;
        Ok(n)
    }
}

// How long the frame at the beginning is, by the low bytes of its length.
fn frame_len(rest: &[u8]) -> usize {
    match rest {
        [low, high, ..] => 5 + usize::from(*low) + 256 * usize::from(*high),
        _ => rest.len(),
    }
}

fn stream_of(alloc: Global, parts: &[&[u8]]) -> Result<Replies, AllocError> {
    let mut bytes = Vec::new(alloc);
    for part in parts {
        bytes.extend_from_slice(part)?;
    }
    Ok(Replies { bytes, at: 0 })
}

fn client(alloc: Global) -> ClientCore<Plain> {
    ClientCore::new(alloc, Plain, ZEROS, 0)
}

// Has no contract, so that what uses it carries no clause of the client.
fn got(
    alloc: Global,
    client: &mut ClientCore<Plain>,
    reader: &mut Replies,
    writer: &mut Vec<u8>,
    least: usize,
    index: u32,
) -> Result<Retrieved, CommandError> {
    get(alloc, client, reader, writer, least, Scheme::Simple, index)
}

// What a get came to, as a line.
fn reported(alloc: Global, outcome: &Result<Retrieved, CommandError>) -> Result<String, Fail> {
    match outcome {
        Ok(record) => {
            let bytes = hex_of(alloc, record.bytes.as_slice())?;
            let index = record.index;
            let version = record.version;
            Ok(format!(in alloc; "retrieved {index} {version} {bytes}")?)
        }
        Err(failure) => Ok(format!(in alloc; "{failure}")?),
    }
}

fn hex_of(alloc: Global, bytes: &[u8]) -> Result<String, Fail> {
    let mut text = String::new(alloc);
    for byte in bytes {
        let two = format!(in alloc; "{byte:02x}")?;
        text.push_str(&two)?;
    }
    Ok(text)
}

// Gets a record from a server that says these frames, and compares what it came to and how much was
// written.
fn gets(
    rt: &(impl Abort + AllocGlobal),
    index: u32,
    parts: &[&[u8]],
    wanted: &str,
    written: usize,
) -> Result<(), Fail> {
    gets_with(rt, 1, index, parts, wanted, written)
}

// The same with the least number of words that a secret may have.
fn gets_with(
    rt: &(impl Abort + AllocGlobal),
    least: usize,
    index: u32,
    parts: &[&[u8]],
    wanted: &str,
    written: usize,
) -> Result<(), Fail> {
    let mut reader = stream_of(rt.alloc(), parts)?;
    let mut writer = Vec::new(rt.alloc());
    let mut client = client(rt.alloc());
    let outcome = got(
        rt.alloc(),
        &mut client,
        &mut reader,
        &mut writer,
        least,
        index,
    );
    assert_eq!(rt; reported(rt.alloc(), &outcome)?.as_str(), wanted);
    assert_eq!(rt; writer.len(), written);
    Ok(())
}

// The bytes of a hello, of an ask for a part of the hint, and of a query of two words.
const HELLO: usize = 39;

const HINT_ASK: usize = 18;

const QUERY: usize = 22;

const ENDED: &str = "the server ended the connection";

const BAD_REPLY: &str = "a bad reply";

const REFUSED_8: &str = "the server refused with code 8";

const STALE_2: &str = "version 2 is current";

#[test]
fn a_record_is_retrieved(rt: HostRuntime) -> Result<(), Fail> {
    gets(
        &rt,
        1,
        &[WELCOME, &ZEROS, HINT_PART, ANSWER],
        "retrieved 1 1 c8",
        HELLO + HINT_ASK + QUERY,
    )
}

#[test]
fn a_hello_that_fails_is_the_last_call(rt: HostRuntime) -> Result<(), Fail> {
    gets(&rt, 1, &[], ENDED, HELLO)?;
    gets(&rt, 1, &[REFUSED], REFUSED_8, HELLO)?;
    gets(&rt, 1, &[DONE], BAD_REPLY, HELLO)?;
    gets(&rt, 1, &[OTHER_PROFILE, &ZEROS], "a bad welcome", HELLO)
}

#[test]
fn short_secrets_end_it_after_the_welcome(rt: HostRuntime) -> Result<(), Fail> {
    let all: [&[u8]; 4] = [WELCOME, &ZEROS, HINT_PART, ANSWER];
    let short = "secrets of 1 words are too short";
    gets_with(&rt, 2, 1, &all, short, HELLO)?;
    gets_with(
        &rt,
        0,
        1,
        &all,
        "retrieved 1 1 c8",
        HELLO + HINT_ASK + QUERY,
    )
}

#[test]
fn a_sync_that_fails_is_the_last_call(rt: HostRuntime) -> Result<(), Fail> {
    let both = HELLO + HINT_ASK;
    gets(&rt, 1, &[WELCOME, &ZEROS, STALE], STALE_2, both)?;
    gets(&rt, 1, &[WELCOME, &ZEROS, REFUSED], REFUSED_8, both)?;
    let half = &HINT_PART[..9];
    gets(&rt, 1, &[WELCOME, &ZEROS, half], ENDED, both)
}

#[test]
fn an_ask_that_fails(rt: HostRuntime) -> Result<(), Fail> {
    let all = HELLO + HINT_ASK + QUERY;
    let before: [&[u8]; 4] = [WELCOME, &ZEROS, HINT_PART, STALE];
    gets(&rt, 1, &before, STALE_2, all)?;
    let again: [&[u8]; 4] = [WELCOME, &ZEROS, HINT_PART, HINT_PART];
    gets(&rt, 1, &again, BAD_REPLY, all)?;
    // A record that there is not is not asked for.
    let synced: [&[u8]; 3] = [WELCOME, &ZEROS, HINT_PART];
    gets(&rt, 2, &synced, "there is no such record", HELLO + HINT_ASK)
}

fn done(
    alloc: Global,
    client: &mut ClientCore<Plain>,
    reader: &mut Replies,
    writer: &mut Vec<u8>,
) -> Result<u64, CommandError> {
    put(alloc, client, reader, writer, ONES, 1, &[100])
}

#[test]
fn a_put_is_done(rt: HostRuntime) -> Result<(), Fail> {
    let mut reader = stream_of(rt.alloc(), &[WELCOME, &ZEROS, DONE])?;
    let mut writer = Vec::new(rt.alloc());
    let mut client = client(rt.alloc());
    let version = done(rt.alloc(), &mut client, &mut reader, &mut writer);
    assert_eq!(rt; version, Ok(1));
    assert_eq!(rt; writer.len(), 49);
    assert_eq!(rt; writer.as_slice()[7..39], ONES[..]);
    assert_eq!(rt;
        writer.as_slice()[39..],
        [5, 0, 0, 0, 0x06, 1, 0, 0, 0, 100][..]
    );
    Ok(())
}

fn appended(
    alloc: Global,
    client: &mut ClientCore<Plain>,
    reader: &mut Replies,
    writer: &mut Vec<u8>,
) -> Result<u64, CommandError> {
    append(alloc, client, reader, writer, ONES, &[5])
}

#[test]
fn an_append_is_done(rt: HostRuntime) -> Result<(), Fail> {
    let mut reader = stream_of(rt.alloc(), &[WELCOME, &ZEROS, DONE])?;
    let mut writer = Vec::new(rt.alloc());
    let mut client = client(rt.alloc());
    let version = appended(rt.alloc(), &mut client, &mut reader, &mut writer);
    assert_eq!(rt; version, Ok(1));
    assert_eq!(rt; writer.len(), 45);
    assert_eq!(rt; writer.as_slice()[7..39], ONES[..]);
    assert_eq!(rt; writer.as_slice()[39..], [1, 0, 0, 0, 0x09, 5][..]);
    Ok(())
}

fn published(
    alloc: Global,
    client: &mut ClientCore<Plain>,
    reader: &mut Replies,
    writer: &mut Vec<u8>,
) -> Result<u64, CommandError> {
    publish(alloc, client, reader, writer, ONES)
}

// Publishes to a server whose last frame is this one.
fn publishes(
    rt: &(impl Abort + AllocGlobal),
    last: &[u8],
    wanted: Result<u64, CommandError>,
) -> Result<(), Fail> {
    let mut reader = stream_of(rt.alloc(), &[WELCOME, &ZEROS, last])?;
    let mut writer = Vec::new(rt.alloc());
    let mut client = client(rt.alloc());
    let version = published(rt.alloc(), &mut client, &mut reader, &mut writer);
    assert_eq!(rt; version, wanted);
    let frame: &[u8] = &[0, 0, 0, 0, 0x07];
    assert_eq!(rt; writer.get(39..), Some(frame));
    Ok(())
}

#[test]
fn a_publication_is_done_or_refused(rt: HostRuntime) -> Result<(), Fail> {
    publishes(&rt, DONE, Ok(1))?;
    publishes(&rt, REFUSED, Err(CommandError::Refused(8)))
}

// Compares how a failure prints.
fn says(rt: &(impl Abort + AllocGlobal), failure: CommandError, wanted: &str) -> Result<(), Fail> {
    let text = format!(in rt.alloc(); "{failure}")?;
    assert_eq!(rt; text.as_str(), wanted);
    Ok(())
}

#[test]
fn each_failure_has_its_text(rt: HostRuntime) -> Result<(), Fail> {
    says(&rt, CommandError::Refused(8), REFUSED_8)?;
    says(&rt, CommandError::Stale(2), STALE_2)?;
    let unreadable = CommandError::Unreadable {
        index: 3,
        version: 4,
    };
    says(&rt, unreadable, "record 3 of version 4 can't be read")?;
    let short = CommandError::ShortSecrets(8);
    says(&rt, short, "secrets of 8 words are too short")?;
    let busy = CommandError::Call(CallFault::Busy);
    says(&rt, busy, "another call is outstanding")?;
    says(&rt, CommandError::Conversation(ConverseFault::Ended), ENDED)
}
