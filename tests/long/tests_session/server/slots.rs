//! The store of two records in slots, and what a client of profile 1 is answered there.

use super::dialogues::*;
use super::*;

// A greeting in profile 2, but its key.
const GREETING_2: &[u8] = &[0x22, 0, 0, 0, 0x02, 2, 0];

// What it is answered at version 1, but the seed of zeros.
const WELCOME_2: &[u8] = &[
    0x35, 0, 0, 0, 0x82, 2, 0, 8, 3, 0, 1, 0, 2, 0, 0, 0, 1, 0, 0, 0, 0, 0, 0, 0, 1, 0,
];

// Rows 0 and 2, which the record's length and its byte stood in.
const TWO_ROWS: &[u8] = &[
    0x26, 0, 0, 0, 0x84, 1, 0, 0, 0, 0, 0, 0, 0, 2, 0, 0, 0, 0, 0, 0, 0, 2, 0, 0, 0, 1, 0, 0, 0, 0,
    0, 0x76, 0xb8, 0xe0, 0xad, 2, 0, 0, 0, 0x9c, 0x34, 0xc7, 0xca,
];

// In this order, each with its reply: the profile is judged before the key.
const SLOTS: Dialogue = &[
    (&[GREETING, ZEROS], &[REFUSED, &[3]]),
    (&[GREETING, TWOS], &[REFUSED, &[3]]),
    (&[OTHER_PROFILE, ZEROS], &[REFUSED, &[3]]),
    (&[GREETING_2, TWOS], &[REFUSED, &[4]]),
    (&[GREETING_2, ONES], &[WELCOME_2, ZEROS]),
    (&[&[6, 0, 0, 0, 0x06, 1, 0, 0, 0, 1, 2]], &[REFUSED, &[7]]),
    (&[&[4, 0, 0, 0, 0x06, 1, 0, 0, 0]], &[DONE_1]),
    (&[PUBLISH], &[DONE_2]),
    (&[DELTA_ASK], &[TWO_ROWS]),
];

// A store of form 1 speaks profile 1 to both.
const RECORDS_OF_ONE_LENGTH: Dialogue = &[
    (&[GREETING_2, ZEROS], &[WELCOME, ZEROS]),
    (&[GREETING, ZEROS], &[WELCOME, ZEROS]),
];

fn holds<K: Kernel>(
    rt: &impl Abort,
    alloc: Global,
    server: &mut ServerCore<K>,
    dialogue: Dialogue,
) -> Result<(), Fail> {
    for (asked, reported) in dialogue {
        check(rt, alloc, server, 0, asked, reported)?;
    }
    Ok(())
}

fn slots_are_served_on<K: Kernel>(rt: &impl Abort, alloc: Global, kernel: K) -> Result<(), Fail> {
    let header = Header {
        form: 2,
        record_len: 3,
        ..header(2, 1)
    };
    let snapshot = header.with_records([1, 0, 0x0a, 1, 0, 0xc8].to_vec(alloc)?);
    let mut slots = ServerCore::new(alloc, Store::open(alloc, kernel, snapshot)?);
    open_session(&mut slots, 0)?;
    holds(rt, alloc, &mut slots, SLOTS)?;
    holds(rt, alloc, &mut server(alloc, kernel, &RECORDS, 1)?, RECORDS_OF_ONE_LENGTH)
}

#[test]
fn slots_are_served(rt: HostRuntime) -> Result<(), Fail> {
    slots_are_served_on(&rt, rt.alloc(), Plain)?;
    slots_are_served_on(&rt, rt.alloc(), Lanes)
}
