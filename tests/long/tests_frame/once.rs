//! Proved by `tests/long/run --prove`.

use matrix_u32::Plain;
use once_session::{OnceFault, once, once_with};
use std::alloc::{AllocError, Global};
use std::cell::Cell;
use std::io;
use std::io::{Read, Write};
use std::process::Abort;
use std::test::Fail;
use test_support::{FailsOnce, Input, Output};

// The records 0a and c8 of one byte, each a column of its own, and a query of version 1.
const LOAD: &[u8] = &[7, 0, 0, 0, 1, 1, 0, 1, 0, 8, 10, 200];

const QUERY: &[u8] = &[
    17, 0, 0, 0, 5, 0, 1, 0, 0, 0, 0, 0, 0, 0, 22, 0, 0, 0, 33, 0, 0, 1,
];

const ANSWER: &[u8] = &[
    13, 0, 0, 0, 0x85, 0, 1, 0, 0, 0, 0, 0, 0, 0, 0xa4, 0x1a, 0, 0xc8,
];

const DELTA_ASK: &[u8] = &[8, 0, 0, 0, 4, 1, 0, 0, 0, 0, 0, 0, 0];

const NO_DELTA: &[u8] = &[12, 0, 0, 0, 0x88, 2, 0, 0, 0, 0, 0, 0, 0, 0xd0, 0x07, 0, 0];

const BYE: &[u8] = &[0, 0, 0, 0, 8];

const REFUSED: &[u8] = &[1, 0, 0, 0, 0x8f, 1];

const PIECE: usize = 65_536;

const TURNS: u64 = 1000;

// An output that asks for no memory when it is written to, so that refused memory isn't reported as
// a failed write.
fn make_output(alloc: Global, room: usize, fails: bool) -> Result<Output, AllocError> {
    Ok(Output {
        bytes: Vec::with_capacity(alloc, room)?,
        most: usize::MAX,
        room,
        fails,
    })
}

fn joined(alloc: Global, parts: &[&[u8]]) -> Result<Vec<u8>, AllocError> {
    let mut bytes = Vec::new(alloc);
    for part in parts {
        bytes.extend_from_slice(part)?;
    }
    Ok(bytes)
}

// Serves the parts, read whole and a byte at a time, and compares what was said and how it ended.
fn check(
    rt: &impl Abort,
    alloc: Global,
    parts: &[&[u8]],
    said: &[u8],
    ended: Result<(), OnceFault>,
) -> Result<(), Fail> {
    let bytes = joined(alloc, parts)?;
    for most in [1, 7, PIECE] {
        let mut reader = Input {
            bytes: &bytes,
            most,
            fails: false,
        };
        let mut writer = make_output(alloc, PIECE, false)?;
        let result = once(alloc, &mut reader, &mut writer, TURNS);
        assert_eq!(rt; result, ended, "{most} bytes a read");
        assert_eq!(rt; writer.bytes.as_slice(), said, "{most} bytes a read");
    }
    Ok(())
}

// A query of some scheme and version, with one word.
fn query_of(scheme: u8, version: u8) -> [u8; 18] {
    let mut frame = [0u8; 18];
    frame[0] = 13;
    frame[4] = 5;
    frame[5] = scheme;
    frame[6] = version;
    frame[14] = 9;
    frame
}

#[test]
fn one_query_is_answered(rt: HostRuntime) -> Result<(), Fail> {
    check(&rt, rt.alloc(), &[LOAD, QUERY], ANSWER, Ok(()))
}

#[test]
fn a_plain_kernel_answers_the_same(rt: HostRuntime) -> Result<(), Fail> {
    let bytes = joined(rt.alloc(), &[LOAD, QUERY])?;
    let mut reader = bytes.as_slice();
    let mut writer = Vec::with_capacity(rt.alloc(), PIECE)?;
    let result = once_with(rt.alloc(), Plain, &mut reader, &mut writer, TURNS);
    assert_eq!(rt; result, Ok(()));
    assert_eq!(rt; writer.as_slice(), ANSWER);
    Ok(())
}

#[test]
fn each_query_is_answered(rt: HostRuntime) -> Result<(), Fail> {
    let said = joined(rt.alloc(), &[ANSWER, ANSWER, ANSWER])?;
    check(
        &rt,
        rt.alloc(),
        &[LOAD, QUERY, QUERY, QUERY, BYE],
        &said,
        Ok(()),
    )
}

#[test]
fn another_version_is_stale(rt: HostRuntime) -> Result<(), Fail> {
    let stale: &[u8] = &[12, 0, 0, 0, 0x86, 1, 0, 0, 0, 0, 0, 0, 0, 2, 0, 0, 0];
    check(
        &rt,
        rt.alloc(),
        &[LOAD, query_of(0, 2).as_slice()],
        stale,
        Ok(()),
    )?;
    let said = joined(rt.alloc(), &[stale, ANSWER])?;
    check(
        &rt,
        rt.alloc(),
        &[LOAD, query_of(0, 0).as_slice(), QUERY],
        &said,
        Ok(()),
    )
}

#[test]
fn another_scheme_is_refused_and_the_work_goes_on(rt: HostRuntime) -> Result<(), Fail> {
    let refused: &[u8] = &[1, 0, 0, 0, 0x8f, 13];
    let said = joined(rt.alloc(), &[refused, ANSWER])?;
    check(
        &rt,
        rt.alloc(),
        &[LOAD, query_of(1, 1).as_slice()],
        refused,
        Ok(()),
    )?;
    check(
        &rt,
        rt.alloc(),
        &[LOAD, query_of(2, 7).as_slice(), QUERY],
        &said,
        Ok(()),
    )
}

#[test]
fn another_count_of_words_is_refused_and_the_work_goes_on(rt: HostRuntime) -> Result<(), Fail> {
    let refused: &[u8] = &[1, 0, 0, 0, 0x8f, 11];
    let said = joined(rt.alloc(), &[refused, ANSWER])?;
    check(
        &rt,
        rt.alloc(),
        &[LOAD, query_of(0, 1).as_slice()],
        refused,
        Ok(()),
    )?;
    check(
        &rt,
        rt.alloc(),
        &[LOAD, query_of(0, 1).as_slice(), QUERY],
        &said,
        Ok(()),
    )
}

#[test]
fn a_frame_that_is_cut_is_refused(rt: HostRuntime) -> Result<(), Fail> {
    for len in 1..QUERY.len() {
        check(
            &rt,
            rt.alloc(),
            &[LOAD, &QUERY[..len]],
            REFUSED,
            Err(OnceFault::BadInput),
        )?;
    }
    check(
        &rt,
        rt.alloc(),
        &[&LOAD[..11]],
        REFUSED,
        Err(OnceFault::BadInput),
    )
}

#[test]
fn a_bye_ends_the_work(rt: HostRuntime) -> Result<(), Fail> {
    check(&rt, rt.alloc(), &[LOAD, BYE], &[], Ok(()))?;
    check(&rt, rt.alloc(), &[LOAD, BYE, QUERY], &[], Ok(()))?;
    check(
        &rt,
        rt.alloc(),
        &[LOAD, BYE, [255u8, 255, 255, 255].as_slice()],
        &[],
        Ok(()),
    )
}

#[test]
fn the_end_between_frames_is_an_end(rt: HostRuntime) -> Result<(), Fail> {
    check(&rt, rt.alloc(), &[], &[], Ok(()))?;
    check(&rt, rt.alloc(), &[LOAD], &[], Ok(()))
}

#[test]
fn a_first_frame_other_than_a_load_is_refused(rt: HostRuntime) -> Result<(), Fail> {
    for first in [QUERY, DELTA_ASK, BYE, ANSWER, NO_DELTA, REFUSED] {
        check(
            &rt,
            rt.alloc(),
            &[first, LOAD],
            REFUSED,
            Err(OnceFault::BadInput),
        )?;
    }
    Ok(())
}

#[test]
fn a_load_that_does_not_fit_is_refused(rt: HostRuntime) -> Result<(), Fail> {
    // Digits of 11 bits; no column; records of 2 bytes and 3 of them; no record.
    let loads: [&[u8]; 4] = [
        &[7, 0, 0, 0, 1, 1, 0, 1, 0, 11, 10, 200],
        &[7, 0, 0, 0, 1, 1, 0, 0, 0, 8, 10, 200],
        &[8, 0, 0, 0, 1, 2, 0, 1, 0, 8, 10, 200, 3],
        &[5, 0, 0, 0, 1, 1, 0, 1, 0, 8],
    ];
    for load in loads {
        check(
            &rt,
            rt.alloc(),
            &[load, QUERY],
            REFUSED,
            Err(OnceFault::BadInput),
        )?;
    }
    Ok(())
}

#[test]
fn a_frame_out_of_place_ends_the_work(rt: HostRuntime) -> Result<(), Fail> {
    let said = joined(rt.alloc(), &[ANSWER, REFUSED])?;
    for other in [LOAD, DELTA_ASK, ANSWER, NO_DELTA, REFUSED] {
        check(
            &rt,
            rt.alloc(),
            &[LOAD, QUERY, other, QUERY],
            &said,
            Err(OnceFault::BadInput),
        )?;
    }
    Ok(())
}

#[test]
fn what_can_not_be_read_ends_the_work(rt: HostRuntime) -> Result<(), Fail> {
    let said = joined(rt.alloc(), &[ANSWER, REFUSED])?;
    // Too long; a kind that there isn't; a Bye with a payload.
    let faults: [&[u8]; 3] = [&[1, 0, 0, 1], &[0, 0, 0, 0, 99], &[1, 0, 0, 0, 8, 0]];
    for fault in faults {
        check(
            &rt,
            rt.alloc(),
            &[LOAD, QUERY, fault],
            &said,
            Err(OnceFault::BadInput),
        )?;
    }
    Ok(())
}

#[test]
fn digits_of_six_bits_and_records_of_two_bytes(rt: HostRuntime) -> Result<(), Fail> {
    let load: &[u8] = &[7, 0, 0, 0, 1, 2, 0, 1, 0, 6, 0xab, 0xcd];
    let query: &[u8] = &[13, 0, 0, 0, 5, 0, 1, 0, 0, 0, 0, 0, 0, 0, 1, 0, 0, 0];
    let answer: &[u8] = &[
        21, 0, 0, 0, 0x85, 0, 1, 0, 0, 0, 0, 0, 0, 0, 0x2b, 0, 0, 0, 0x36, 0, 0, 0, 0x0c, 0, 0, 0,
    ];
    check(&rt, rt.alloc(), &[load, query], answer, Ok(()))
}

#[test]
fn a_reader_that_fails(rt: HostRuntime) -> Result<(), Fail> {
    let bytes = joined(rt.alloc(), &[LOAD, QUERY])?;
    for len in 0..=bytes.len() {
        let mut reader = Input {
            bytes: &bytes[..len],
            most: 5,
            fails: true,
        };
        let mut writer = make_output(rt.alloc(), PIECE, false)?;
        let result = once(rt.alloc(), &mut reader, &mut writer, TURNS);
        assert_eq!(rt; result, Err(OnceFault::Read), "{len}");
        let said: &[u8] = if len == bytes.len() {
            ANSWER
        } else {
            &ANSWER[..0]
        };
        assert_eq!(rt; writer.bytes.as_slice(), said, "{len}");
    }
    Ok(())
}

#[test]
fn a_call_that_fails_once_is_not_made_again(rt: HostRuntime) -> Result<(), Fail> {
    let bytes = joined(rt.alloc(), &[LOAD, QUERY])?;
    for calls in 0..7 {
        let input = Input {
            bytes: &bytes,
            most: 5,
            fails: false,
        };
        let mut reader = FailsOnce::after(calls, input);
        let mut writer = make_output(rt.alloc(), PIECE, false)?;
        let result = once(rt.alloc(), &mut reader, &mut writer, TURNS);
        assert_eq!(rt; result, Err(OnceFault::Read), "{calls}");
        let mut reader = bytes.as_slice();
        let mut output = make_output(rt.alloc(), PIECE, false)?;
        output.most = 2;
        let mut writer = FailsOnce::after(calls, output);
        let result = once(rt.alloc(), &mut reader, &mut writer, TURNS);
        assert_eq!(rt; result, Err(OnceFault::Write), "{calls}");
        assert_eq!(rt;
            Some(writer.inner.bytes.as_slice()),
            ANSWER.get(..2 * calls),
            "{calls}"
        );
    }
    Ok(())
}

#[test]
fn a_writer_that_fails_or_takes_nothing(rt: HostRuntime) -> Result<(), Fail> {
    let bytes = joined(rt.alloc(), &[LOAD, QUERY, QUERY])?;
    let said = joined(rt.alloc(), &[ANSWER, ANSWER])?;
    for room in 0..36 {
        for fails in [false, true] {
            let mut reader = bytes.as_slice();
            let mut writer = make_output(rt.alloc(), room, fails)?;
            let result = once(rt.alloc(), &mut reader, &mut writer, TURNS);
            assert_eq!(rt; result, Err(OnceFault::Write), "{room}");
            assert_eq!(rt;
                writer.bytes.as_slice(),
                &said[..room.min(said.len())],
                "{room}"
            );
        }
    }
    Ok(())
}

#[test]
fn all_turns_are_used_up(rt: HostRuntime) -> Result<(), Fail> {
    let bytes = joined(rt.alloc(), &[LOAD, QUERY])?;
    for (turns, said) in [(0, &ANSWER[..0]), (33, &ANSWER[..0]), (34, ANSWER)] {
        let mut reader = Input {
            bytes: &bytes,
            most: 1,
            fails: false,
        };
        let mut writer = make_output(rt.alloc(), PIECE, false)?;
        let result = once(rt.alloc(), &mut reader, &mut writer, turns);
        assert_eq!(rt; result, Err(OnceFault::TurnsUsedUp), "{turns}");
        assert_eq!(rt; writer.bytes.as_slice(), said, "{turns}");
        assert_eq!(rt;
            reader.bytes.len(),
            bytes.len().saturating_sub(turns as usize),
            "{turns}"
        );
    }
    Ok(())
}

// Gives a part a read, and notes how many bytes had been written before it.
#[derive(Drop)]
struct Listener<'a> {
    parts: &'a [&'a [u8]],
    at: usize,
    written: &'a Cell<usize>,
    before: Vec<usize>,
}

impl Read for Listener<'_> {
    fn read(&mut self, buf: &mut [u8]) -> io::Result<usize> {
        self.before.push(self.written.get())?;
        let Some(part) = self.parts.get(self.at) else {
            return Ok(0);
        };
        let n = part.len().min(buf.len());
        buf[..n].copy_from_slice(&part[..n]);
        self.at = self.at.saturating_add(1);
        Ok(n)
    }
}

// Counts the bytes that are written.
#[derive(Drop)]
struct Counter<'a> {
    written: &'a Cell<usize>,
}

impl Write for Counter<'_> {
    fn write(&mut self, buf: &[u8]) -> io::Result<usize> {
        self.written
            .set(self.written.get().saturating_add(buf.len()));
        Ok(buf.len())
    }

    fn flush(&mut self) -> io::Result<()> {
        Ok(())
    }
}

#[test]
fn each_reply_goes_out_before_the_next_read(rt: HostRuntime) -> Result<(), Fail> {
    let written = Cell::new(0usize);
    let parts: [&[u8]; 4] = [LOAD, QUERY, QUERY, BYE];
    let mut reader = Listener {
        parts: &parts,
        at: 0,
        written: &written,
        before: Vec::with_capacity(rt.alloc(), 8)?,
    };
    let mut writer = Counter { written: &written };
    let result = once(rt.alloc(), &mut reader, &mut writer, TURNS);
    assert_eq!(rt; result, Ok(()));
    assert_eq!(rt; reader.before.as_slice(), [0usize, 0, 18, 36].as_slice());
    Ok(())
}
