//! What the modules beside this one share: readers and writers that fail, and calls.

ghost use Rattle.std.specs.Prelude.{◌≤◌, length};

use super::*;
use client_core::Scheme;
use connection_io::Connection;
pub use test_support::Input;
use server_core::SessionError;
use blocking_io::{converse_over, serve_over};
use std::io;
use version_store::PublishError;

pub const ONES: [u8; 32] = [1; 32];

pub const EDIT: &[u8] = &[5, 0, 0, 0, 0x06, 1, 0, 0, 0, 100];

pub const APPEND: &[u8] = &[1, 0, 0, 0, 0x09, 5];

pub const DONE: &[u8] = &[8, 0, 0, 0, 0x87, 1, 0, 0, 0, 0, 0, 0, 0];

pub const REFUSED: &[u8] = &[1, 0, 0, 0, 0x8f, 1];

pub const PIECE: usize = 65_536;

// Takes at most `room` bytes in all. Then it takes 0 bytes, or fails.
#[derive(Drop)]
pub struct Output {
    pub bytes: Vec<u8>,
    pub room: usize,
    pub fails: bool,
}

impl Write for Output {
    fn write(&mut self, buf: &[u8]) -> io::Result<usize> {
        if self.room == 0 && self.fails {
            return Err(io::ErrorKind::Other.into());
        }
        let n = buf.len().min(self.room);
        self.bytes.extend_from_slice(&buf[..n])?;
        self.room -= n;
        Ok(n)
    }

    fn flush(&mut self) -> io::Result<()> {
        Ok(())
    }
}

// Fails at one call, the `fails_at`th counted from 0, and goes on at the next as if nothing had
// happened.
#[derive(Drop)]
pub struct FailsOnce<T> {
    pub inner: T,
    pub fails_at: usize,
    pub calls: usize,
}

impl<T> FailsOnce<T> {
    fn fails_now(&mut self) -> bool {
        let now = self.calls == self.fails_at;
        self.calls = self.calls.saturating_add(1);
        now
    }
}

impl<T: Read> Read for FailsOnce<T> {
    fn read(&mut self, buf: &mut [u8]) -> io::Result<usize> {
        if self.fails_now() {
            return Err(io::ErrorKind::Other.into());
        }
        self.inner.read(buf)
    }
}

impl<T: Write> Write for FailsOnce<T> {
    fn write(&mut self, buf: &[u8]) -> io::Result<usize> {
        if self.fails_now() {
            return Err(io::ErrorKind::Other.into());
        }
        self.inner.write(buf)
    }

    fn flush(&mut self) -> io::Result<()> {
        Ok(())
    }
}

pub fn serve_all_over<K: Kernel, C: Connection>(
    alloc: Global,
    server: &mut ServerCore<K>,
    id: u64,
    connection: &mut C,
    turns: u64,
) -> Result<Ending, ServeFault> {
    serve_over(alloc, server, id, connection, turns)
}

pub fn converse_all_over<K: Kernel, C: Connection>(
    alloc: Global,
    client: &mut ClientCore<K>,
    first: &[u8],
    connection: &mut C,
    turns: u64,
) -> Result<Event, ConverseFault> {
    converse_over(alloc, client, first, connection, turns)
}

pub fn sync<K: Kernel>(client: &mut ClientCore<K>, scheme: Scheme) -> Result<Vec<u8>, CallFault> {
    client.sync(scheme)
}

pub fn ask<K: Kernel>(client: &mut ClientCore<K>, index: u32) -> Result<Vec<u8>, CallFault> {
    client.ask(index)
}

pub fn edit<K: Kernel>(
    client: &mut ClientCore<K>,
    index: u32,
    bytes: &[u8],
) -> Result<Vec<u8>, CallFault>
    requires { length bytes.now ≤ 65535 }
{
    client.edit(index, bytes)
}

pub fn append<K: Kernel>(client: &mut ClientCore<K>, bytes: &[u8]) -> Result<Vec<u8>, CallFault>
    requires { length bytes.now ≤ 65535 }
{
    client.append(bytes)
}

pub fn open_session<K: Kernel>(server: &mut ServerCore<K>, id: u64) -> Result<(), SessionError> {
    server.open_session(id)
}

pub fn publish<K: Kernel>(server: &mut ServerCore<K>) -> Result<u64, PublishError> {
    server.publish()
}
