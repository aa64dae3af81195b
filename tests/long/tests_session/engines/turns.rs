//! Turns over a connection: which calls are made, and in which order.

use super::helpers::*;
use super::*;
use client_core::Event;
use connection_io::{Connection, ReadFailed, WriteFailed};

// A peer that says its bytes in parts, up to each cut, the first part at once and each other only
// once it has received all that is owed before it. It fails at a read before that, and at one after
// its last part.
#[derive(Drop)]
struct Peer<'a> {
    says: &'a [u8],
    cuts: Vec<usize>,
    owed: Vec<usize>,
    parts: usize,
    at: usize,
    received: Vec<u8>,
}

impl Connection for Peer<'_> {
    fn read(&mut self, buffer: &mut [u8]) -> Result<usize, ReadFailed> {
        let cut = self.cuts.get(self.parts).copied();
        let owed = self.owed.get(self.parts).copied();
        if owed != Some(self.received.len()) {
            return Err(ReadFailed);
        }
        let part = self.says.get(self.at..cut.unwrap_or(0)).unwrap_or(&[]);
        if part.is_empty() || buffer.len() < part.len() {
            return Err(ReadFailed);
        }
        self.parts = self.parts.saturating_add(1);
        self.at = self.at.saturating_add(part.len());
        buffer[..part.len()].copy_from_slice(part);
        Ok(part.len())
    }

    fn write(&mut self, bytes: &[u8]) -> Result<usize, WriteFailed> {
        let n = bytes.len().min(3);
        if self.received.extend_from_slice(&bytes[..n]).is_err() {
            return Err(WriteFailed);
        }
        Ok(n)
    }
}

fn make_peer<'a>(
    alloc: Global,
    says: &'a [u8],
    cuts: &[usize],
    owed: &[usize],
) -> Result<Peer<'a>, AllocError> {
    Ok(Peer {
        says,
        cuts: cuts.to_vec(alloc)?,
        owed: owed.to_vec(alloc)?,
        parts: 0,
        at: 0,
        received: Vec::new(alloc),
    })
}

#[test]
fn each_reply_is_written_before_the_next_read(rt: HostRuntime) -> Result<(), Fail> {
    each_reply_is_written_before_the_next_read_on(&rt, rt.alloc(), Plain)?;
    each_reply_is_written_before_the_next_read_on(&rt, rt.alloc(), Lanes)
}

fn each_reply_is_written_before_the_next_read_on<K: Kernel>(
    rt: &impl Abort,
    alloc: Global,
    kernel: K,
) -> Result<(), Fail> {
    let says = joined(alloc, &[GREETING, &ONES, HINT_ASK, EDIT, BYE])?;
    let replies = joined(alloc, &[WELCOME, &ZEROS, HINT_PART, DONE])?;
    let mut server = server(alloc, kernel)?;
    let mut peer = make_peer(alloc, &says, &[39, 67, 69, 72], &[0, 58, 93, 93])?;
    let ended = serve_all_over(alloc, &mut server, 0, &mut peer, TURNS);
    assert_eq!(rt; ended, Ok(Ending::Closed));
    assert_eq!(rt; peer.parts, 4);
    assert_eq!(rt; peer.received.as_slice(), replies.as_slice());
    Ok(())
}

#[test]
fn a_read_that_fails_is_reported_as_such(rt: HostRuntime) -> Result<(), Fail> {
    a_read_that_fails_is_reported_as_such_on(&rt, rt.alloc(), Plain)?;
    a_read_that_fails_is_reported_as_such_on(&rt, rt.alloc(), Lanes)
}

fn a_read_that_fails_is_reported_as_such_on<K: Kernel>(
    rt: &impl Abort,
    alloc: Global,
    kernel: K,
) -> Result<(), Fail> {
    let greeting = joined(alloc, &[GREETING, &ONES])?;
    let welcome = joined(alloc, &[WELCOME, &ZEROS])?;
    let mut server = server(alloc, kernel)?;
    let mut peer = make_peer(alloc, &greeting, &[39], &[0])?;
    let ended = serve_all_over(alloc, &mut server, 0, &mut peer, TURNS);
    assert_eq!(rt; ended, Err(ServeFault::Read));
    assert_eq!(rt; peer.received.as_slice(), welcome.as_slice());
    Ok(())
}

#[test]
fn nothing_is_read_after_the_event(rt: HostRuntime) -> Result<(), Fail> {
    nothing_is_read_after_the_event_on(&rt, rt.alloc(), Plain)?;
    nothing_is_read_after_the_event_on(&rt, rt.alloc(), Lanes)
}

fn nothing_is_read_after_the_event_on<K: Kernel>(
    rt: &impl Abort,
    alloc: Global,
    kernel: K,
) -> Result<(), Fail> {
    let mut client = client(alloc, kernel);
    let first = hello(&mut client, ZEROS)?;
    let welcome = joined(alloc, &[WELCOME, &ZEROS])?;
    let mut peer = make_peer(alloc, &welcome, &[26, 58], &[39, 39])?;
    let result = converse_all_over(alloc, &mut client, &first, &mut peer, TURNS);
    assert!(rt; matches!(result, Ok(Event::Welcomed(1))));
    assert_eq!(rt; peer.parts, 2);
    Ok(())
}
