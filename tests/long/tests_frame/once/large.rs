//! Large loads and queries, with ample memory.
//!
//! Proved by `tests/long/run --prove`.

use super::*;

// Byte k of the records.
fn byte(k: usize) -> u8 {
    (k % 251) as u8
}

// Adds a frame of this kind, whose payload begins with some bytes and then has as many others.
fn put_frame(out: &mut Vec<u8>, kind: u8, head: &[u8], rest: &[u8]) -> Result<(), AllocError> {
    let len = head.len().saturating_add(rest.len());
    out.extend_from_slice(&((len & 0xff_ffff) as u32).to_le_bytes())?;
    out.push(kind)?;
    out.extend_from_slice(head)?;
    out.extend_from_slice(rest)
}

// A Load of so many bytes of records, in digits of 8 bits; record length and groups as their bytes.
fn put_load(
    alloc: Global,
    sizes: [u8; 4],
    len: usize,
    out: &mut Vec<u8>,
) -> Result<(), AllocError> {
    let mut records = Vec::new(alloc);
    for k in 0..len {
        records.push(byte(k))?;
    }
    let [r0, r1, g0, g1] = sizes;
    put_frame(out, 1, &[r0, r1, g0, g1, 8], &records)
}

// A query of version 1 with so many words, all of them 1.
fn put_query(alloc: Global, count: usize, out: &mut Vec<u8>) -> Result<(), AllocError> {
    let mut words = Vec::new(alloc);
    for _ in 0..count {
        words.extend_from_slice(&[1, 0, 0, 0])?;
    }
    put_frame(out, 5, &[0, 1, 0, 0, 0, 0, 0, 0, 0], &words)
}

// Serves the input whole and a byte at a time, and compares what was said.
fn says(rt: &impl Abort, alloc: Global, input: &[u8], said: &[u8]) -> Result<(), Fail> {
    for most in [PIECE, 1] {
        let mut reader = Input {
            bytes: input,
            most,
            fails: false,
        };
        // With room for all, so that refused memory isn't reported as a failed write.
        let mut writer = Vec::with_capacity(alloc, said.len())?;
        let result = once(alloc, &mut reader, &mut writer, 1_000_000);
        assert_eq!(rt; result, Ok(()), "{most} bytes a read");
        assert!(rt; writer.as_slice() == said, "{most} bytes a read");
    }
    Ok(())
}

#[test]
fn queries_of_4096_words_in_more_than_100000_pieces(rt: HostRuntime) -> Result<(), Fail> {
    let mut input = Vec::new(rt.alloc());
    put_load(rt.alloc(), [1, 0, 1, 0], 4096, &mut input)?;
    let mut sum: u32 = 0;
    for k in 0..4096 {
        sum = sum.wrapping_add(u32::from(byte(k)));
    }
    let mut said = Vec::new(rt.alloc());
    for _ in 0..6 {
        put_query(rt.alloc(), 4096, &mut input)?;
        put_frame(
            &mut said,
            0x85,
            &[0, 1, 0, 0, 0, 0, 0, 0, 0],
            &sum.to_le_bytes(),
        )?;
    }
    assert!(rt; input.len() > 100_000);
    says(&rt, rt.alloc(), &input, &said)
}

#[test]
fn records_of_256_bytes_16_to_a_column(rt: HostRuntime) -> Result<(), Fail> {
    let mut input = Vec::new(rt.alloc());
    put_load(rt.alloc(), [0, 1, 16, 0], 4096, &mut input)?;
    let mut said = Vec::new(rt.alloc());
    let mut words = Vec::new(rt.alloc());
    for k in 0..4096 {
        words.extend_from_slice(&[byte(k), 0, 0, 0])?;
    }
    for _ in 0..5 {
        put_query(rt.alloc(), 1, &mut input)?;
        put_frame(&mut said, 0x85, &[0, 1, 0, 0, 0, 0, 0, 0, 0], &words)?;
    }
    assert!(rt; said.len() > PIECE);
    says(&rt, rt.alloc(), &input, &said)
}

#[test]
fn each_fault_has_a_text_of_its_own(rt: HostRuntime) -> Result<(), Fail> {
    let texts = [
        (OnceFault::BadInput, "bad input"),
        (OnceFault::Read, "a read failed"),
        (OnceFault::Write, "a write failed"),
        (OnceFault::Memory, "out of memory"),
        (OnceFault::TurnsUsedUp, "all turns are used up"),
    ];
    for (fault, text) in texts {
        let reported = format!(in rt.alloc(); "{fault}")?;
        assert_eq!(rt; reported.as_str(), text);
    }
    Ok(())
}
