//! Long answers by SimplePIR to several sessions: begun together, and each the one that is made at
//! once.

use super::dialogues::PUBLISH;
use super::*;

const COLUMNS: u32 = 2_049;

// 64 digits to a record and 64 records to a column: 4,096 rows, and so a few more than 2^23 digits.
fn long_server<K: Kernel>(alloc: Global, kernel: K, sessions: u64) -> Result<ServerCore<K>, Fail> {
    let header = Header {
        count: 64 * COLUMNS,
        record_len: 64,
        groups: 64,
        ..TWO_RECORDS
    };
    let mut records = vec![in alloc; 1u8; 64 * 64 * COLUMNS as usize]?;
    for k in 0..records.len() {
        records[k] = (k % 251) as u8;
    }
    let snapshot = header.with_records(records);
    let mut server = ServerCore::new(alloc, Store::open(alloc, kernel, snapshot)?);
    for id in 0..sessions {
        open_session(&mut server, id)?;
        let mut out = Vec::new(alloc);
        feed(&mut server, id, GREETING, &mut out)?;
        feed(&mut server, id, ZEROS, &mut out)?;
    }
    Ok(server)
}

// A query by SimplePIR on version 1, whose words follow from a number.
fn query(alloc: Global, number: u64) -> Result<Vec<u8>, Fail> {
    let mut frame = Vec::new(alloc);
    frame.extend_from_slice(&(9 + 4 * COLUMNS).to_le_bytes())?;
    frame.extend_from_slice(&[5, 0, 1, 0, 0, 0, 0, 0, 0, 0])?;
    for k in 0..COLUMNS {
        let word = k.wrapping_mul(2_654_435_761).wrapping_add(number as u32);
        frame.extend_from_slice(&word.to_le_bytes())?;
    }
    Ok(frame)
}

// The reply to a frame that is fed at once.
fn reply<K: Kernel>(
    alloc: Global,
    server: &mut ServerCore<K>,
    id: u64,
    frame: &[u8],
) -> Result<Vec<u8>, Fail> {
    let mut out = Vec::new(alloc);
    feed(server, id, frame, &mut out)?;
    Ok(out)
}

// Whether the reply is an answer, but for its head.
fn is_answer(reply: &[u8]) -> bool {
    reply.len() == 5 + 9 + 4 * 4_096 && reply[4] == 0x85
}

// Gives each session a turn until all have asked and were answered; one that is closed has no more
// turns.
fn rounds<K: Kernel>(
    rt: &impl Abort,
    alloc: Global,
    server: &mut ServerCore<K>,
    sessions: u64,
    closed: Option<u64>,
) -> Result<u32, Fail> {
    let mut left = sessions;
    let mut done = [false; 8];
    let mut count = 0;
    while left > 0 {
        count += 1;
        assert!(rt; count < 100);
        for id in 0..sessions {
            if done[id as usize] {
                continue;
            }
            if closed == Some(id) && count == 2 {
                assert!(rt; close_session(server, id));
                done[id as usize] = true;
                left -= 1;
                continue;
            }
            let frame = query(alloc, id)?;
            if server.prepare(id, &frame) {
                let made = reply(alloc, server, id, &frame)?;
                assert!(rt; is_answer(&made));
                let at_once = reply(alloc, server, id, &frame)?;
                assert_eq!(rt; made.as_slice(), at_once.as_slice());
                done[id as usize] = true;
                left -= 1;
            }
        }
    }
    Ok(count)
}

#[test]
fn answers_to_sessions_that_wait(rt: HostRuntime) -> Result<(), Fail> {
    let mut server = long_server(rt.alloc(), Lanes, 7)?;
    // One alone: two steps, one in each round.
    let first = query(rt.alloc(), 0)?;
    assert!(rt; !server.prepare(0, &first));
    assert!(rt; server.prepare(0, &first));
    let answer = reply(rt.alloc(), &mut server, 0, &first)?;
    assert!(rt; is_answer(&answer));
    // Seven at once: the first by itself, then three and it again as they come, four at most.
    assert!(rt; rounds(&rt, rt.alloc(), &mut server, 7, None)? < 12);
    // One goes away while its answer is begun, and one while its query waits.
    for closed in [0, 2] {
        let count = rounds(&rt, rt.alloc(), &mut server, 7, Some(closed))?;
        assert!(rt; count < 12);
        open_session(&mut server, closed)?;
        let mut out = Vec::new(rt.alloc());
        feed(&mut server, closed, GREETING, &mut out)?;
        feed(&mut server, closed, ZEROS, &mut out)?;
    }
    // None is begun any more: a publication may be fed at once.
    assert!(rt; server.prepare(0, PUBLISH));
    Ok(())
}
