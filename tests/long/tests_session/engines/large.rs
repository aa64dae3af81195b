//! Sessions of large queries, hints and replies, with ample memory.
//! Run by `tests/long/run --slow`.

ghost use Rattle.std.specs.Prelude.{◌≤◌};

use super::helpers::*;
use super::*;
use client_core::{Event, Scheme};
use connection_io::{Connection, ReadFailed, WriteFailed};
use frame_codec::{Frame, Words, write_frame};
use version_store::Header;

// A server at the other end: it is fed what is written, and its replies are there to be read.
#[derive(Drop)]
struct Wire<K: Kernel> {
    server: ServerCore<K>,
    replies: Vec<u8>,
    read: usize,
}

impl<K: Kernel> Connection for Wire<K> {
    fn read(&mut self, buffer: &mut [u8]) -> Result<usize, ReadFailed> {
        let waiting = self.replies.get(self.read..).unwrap_or(&[]);
        let n = waiting.len().min(buffer.len());
        buffer[..n].copy_from_slice(&waiting[..n]);
        self.read = self.read.saturating_add(n);
        Ok(n)
    }

    fn write(&mut self, bytes: &[u8]) -> Result<usize, WriteFailed> {
        match self.server.feed(0, bytes, &mut self.replies) {
            Ok(()) => Ok(bytes.len()),
            Err(_) => Err(WriteFailed),
        }
    }
}

// Byte k of the records.
fn byte(k: usize) -> u8 {
    (k % 251) as u8
}

// So many records of so many bytes, each with a column of its own.
fn records(alloc: Global, count: usize, record_len: usize) -> Result<Vec<u8>, Fail> {
    let mut bytes = Vec::new(alloc);
    for k in 0..count.saturating_mul(record_len) {
        bytes.push(byte(k))?;
    }
    Ok(bytes)
}

fn large_server<K: Kernel>(
    alloc: Global,
    count: u32,
    record_len: u16,
    dimension: u16,
    kernel: K,
) -> Result<ServerCore<K>, Fail> {
    let header = Header {
        record_len,
        count,
        dimension,
        ..TWO_RECORDS
    };
    let bytes = records(alloc, count as usize, usize::from(record_len))?;
    let store = Store::open(alloc, kernel, header.with_records(bytes))?;
    Ok(ServerCore::new(alloc, store))
}

// Lets a client in, has it synced, and compares the records that it asks for.
fn retrieves<K: Kernel>(
    rt: &impl Abort,
    alloc: Global,
    count: u32,
    record_len: u16,
    dimension: u16,
    asked: &[u32],
    kernel: K,
) -> Result<(), Fail> {
    let mut server = large_server(alloc, count, record_len, dimension, kernel)?;
    open_session(&mut server, 0)?;
    let mut wire = Wire {
        server,
        replies: Vec::new(alloc),
        read: 0,
    };
    let mut client = client(alloc, kernel);
    let hello = hello(&mut client, ZEROS)?;
    let welcomed = converse_all_over(alloc, &mut client, &hello, &mut wire, TURNS);
    assert!(rt; matches!(welcomed, Ok(Event::Welcomed(1))));
    let sync = sync(&mut client, Scheme::Simple)?;
    let synced = converse_all_over(alloc, &mut client, &sync, &mut wire, TURNS);
    assert!(rt; matches!(synced, Ok(Event::Synced(Scheme::Simple, 1))));
    for index in asked {
        let ask = ask(&mut client, *index)?;
        let reported = converse_all_over(alloc, &mut client, &ask, &mut wire, TURNS);
        let Ok(Event::Retrieved { bytes, .. }) = reported else {
            panic!(rt; "record {index} was not retrieved");
        };
        let first = (*index as usize).saturating_mul(usize::from(record_len));
        for (k, found) in bytes.as_slice().iter().enumerate() {
            assert_eq!(rt; *found, byte(first.saturating_add(k)), "record {index}");
        }
        assert_eq!(rt; bytes.as_slice().len(), usize::from(record_len));
    }
    Ok(())
}

#[test]
fn a_hint_of_three_parts_is_fetched(rt: HostRuntime) -> Result<(), Fail> {
    a_hint_of_three_parts_is_fetched_on(&rt, rt.alloc(), Lanes)
}

fn a_hint_of_three_parts_is_fetched_on<K: Kernel>(
    rt: &impl Abort,
    alloc: Global,
    kernel: K,
) -> Result<(), Fail> {
    retrieves(rt, alloc, 4, 192, 1024, &[0, 3], kernel)
}

#[test]
fn records_of_256_bytes_are_retrieved(rt: HostRuntime) -> Result<(), Fail> {
    records_of_256_bytes_are_retrieved_on(&rt, rt.alloc(), Lanes)
}

fn records_of_256_bytes_are_retrieved_on<K: Kernel>(
    rt: &impl Abort,
    alloc: Global,
    kernel: K,
) -> Result<(), Fail> {
    retrieves(rt, alloc, 3, 256, 64, &[2, 0, 1], kernel)
}

#[test]
fn a_query_of_4096_words_is_answered(rt: HostRuntime) -> Result<(), Fail> {
    a_query_of_4096_words_is_answered_on(&rt, rt.alloc(), Lanes)
}

fn a_query_of_4096_words_is_answered_on<K: Kernel>(
    rt: &impl Abort,
    alloc: Global,
    kernel: K,
) -> Result<(), Fail> {
    retrieves(rt, alloc, 4096, 1, 16, &[4095, 0, 2048], kernel)
}

// A query of 4,096 words, all of them 1.
fn query(alloc: Global, count: usize, out: &mut Vec<u8>) -> Result<(), Fail>
    requires { count ≤ 65536 }
{
    let words = Words::new(Vec::from_elem(alloc, 1u32, count)?);
    let frame = Frame::Query {
        scheme: 0,
        version: 1,
        words,
    };
    write_frame(&frame, out)?;
    Ok(())
}

#[test]
fn more_than_100000_pieces_of_one_byte_are_served(rt: HostRuntime) -> Result<(), Fail> {
    more_than_100000_pieces_of_one_byte_are_served_on(&rt, rt.alloc(), Lanes)
}

fn more_than_100000_pieces_of_one_byte_are_served_on<K: Kernel>(
    rt: &impl Abort,
    alloc: Global,
    kernel: K,
) -> Result<(), Fail> {
    let mut server = large_server(alloc, 4096, 1, 1, kernel)?;
    let mut input = joined(alloc, &[GREETING, &ZEROS])?;
    for _ in 0..7 {
        query(alloc, 4096, &mut input)?;
    }
    input.extend_from_slice(BYE)?;
    assert!(rt; input.len() > 100_000);
    let mut sum: u32 = 0;
    for k in 0..4096 {
        sum = sum.wrapping_add(u32::from(byte(k)));
    }
    let mut reader = Input {
        bytes: &input,
        most: 1,
        fails: true,
    };
    let mut writer = Vec::new(alloc);
    let ended = serve_all(alloc, &mut server, 0, &mut reader, &mut writer, 1_000_000);
    assert_eq!(rt; ended, Ok(Ending::Closed));
    let answer: &[u8] = &[0x0d, 0, 0, 0, 0x85, 0, 1, 0, 0, 0, 0, 0, 0, 0];
    for k in 0..7usize {
        let at = k.saturating_mul(18).saturating_add(58);
        let head = writer.get(at..at.saturating_add(14));
        assert_eq!(rt; head, Some(answer), "answer {k}");
        let word = writer.get(at.saturating_add(14)..at.saturating_add(18));
        assert_eq!(rt; word, Some(sum.to_le_bytes().as_slice()), "answer {k}");
    }
    Ok(())
}

#[test]
fn replies_of_more_than_65536_bytes_are_written(rt: HostRuntime) -> Result<(), Fail> {
    replies_of_more_than_65536_bytes_are_written_on(&rt, rt.alloc(), Lanes)
}

fn replies_of_more_than_65536_bytes_are_written_on<K: Kernel>(
    rt: &impl Abort,
    alloc: Global,
    kernel: K,
) -> Result<(), Fail> {
    let mut server = server(alloc, kernel)?;
    let mut input = joined(alloc, &[GREETING, &ZEROS])?;
    for _ in 0..3600 {
        input.extend_from_slice(HINT_ASK)?;
    }
    assert!(rt; input.len() < PIECE);
    let mut reader = input.as_slice();
    let mut writer = Vec::new(alloc);
    let ended = serve_all(alloc, &mut server, 0, &mut reader, &mut writer, 2);
    assert_eq!(rt; ended, Ok(Ending::EndOfInput));
    assert_eq!(rt; writer.len(), 58 + 22 * 3600);
    for k in 0..3600usize {
        let at = k.saturating_mul(22).saturating_add(58);
        assert_eq!(rt;
            writer.get(at..at.saturating_add(22)),
            Some(HINT_PART),
            "{k}"
        );
    }
    Ok(())
}

#[test]
fn a_record_is_edited_three_times(rt: HostRuntime) -> Result<(), Fail> {
    a_record_is_edited_three_times_on(&rt, rt.alloc(), Lanes)
}

fn a_record_is_edited_three_times_on<K: Kernel>(
    rt: &impl Abort,
    alloc: Global,
    kernel: K,
) -> Result<(), Fail> {
    let mut server = server(alloc, kernel)?;
    let input = joined(alloc, &[GREETING, &ONES, EDIT, EDIT, EDIT])?;
    let said = joined(alloc, &[WELCOME, &ZEROS, DONE, DONE, DONE])?;
    for most in [PIECE, 1] {
        let mut reader = Input {
            bytes: &input,
            most,
            fails: false,
        };
        let mut writer = Vec::new(alloc);
        let ended = serve_all(alloc, &mut server, 0, &mut reader, &mut writer, TURNS);
        assert_eq!(rt; ended, Ok(Ending::EndOfInput));
        assert_eq!(rt; writer.as_slice(), said.as_slice());
    }
    assert_eq!(rt; publish(&mut server), Ok(2));
    Ok(())
}
