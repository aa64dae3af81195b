//! Hints of wide stores that are moved by the records that changed. The words of hints are those
//! that a model in another language makes of the records from scratch.

use super::*;

/// Five records of two bytes in digits of six bits: 0201, ffff, 4130, 8000 and 0605.
const FIVE_RECORDS: Store = Store {
    profile: 129,
    width: 6,
    record_len: 2,
    groups: 2,
    count: 5,
    version: 1,
    dimension: 2,
};

/// The hint of these.
pub const HINT: [u32; 12] = [
    1_246_974_503,
    3_127_567_696,
    1_192_950_376,
    2_871_717_196,
    2_510_910_720,
    2_734_037_324,
    3_394_069_770,
    2_134_799_968,
    3_394_069_770,
    2_134_799_968,
    1_534_965_994,
    3_113_048_824,
];

/// What changed: record 1 is 1000 now, record 2 is 4131, and record 5, aa77, was appended.
pub const CHANGED: [u8; 24] = [
    1, 0, 0, 0, 0xff, 0xff, 0x00, 0x10, 2, 0, 0, 0, 0x30, 0x41, 0x31, 0x41, 5, 0, 0, 0, 0, 0, 0x77,
    0xaa,
];

/// The hint of the six records after.
pub const MOVED: [u32; 12] = [
    800_960_359,
    3_811_077_027,
    1_192_950_376,
    2_871_717_196,
    2_510_910_720,
    2_734_037_324,
    2_374_780_571,
    3_372_838_240,
    2_082_652_229,
    1_342_942_880,
    171_302_360,
    3_815_877_752,
];

/// Two records with lengths of their own, "a" and "bc", in slots of four bytes.
const TWO_SLOTS: Store = Store {
    profile: 130,
    width: 8,
    record_len: 4,
    groups: 1,
    count: 2,
    version: 1,
    dimension: 1,
};

/// The hint of these.
const SLOTS_HINT: [u32; 4] = [3_462_175_670, 0, 433_873_910, 3_354_685_664];

/// The hint of "a" and an empty record.
const EMPTIED: [u32; 4] = [2_917_185_654, 0, 3_794_134_198, 0];

/// The slot of "bc".
const BC: [u8; 4] = [2, 0, 0x62, 0x63];

/// The frame that asks for the records changed since version 1.
const ASKING: [u8; 13] = [8, 0, 0, 0, 10, 1, 0, 0, 0, 0, 0, 0, 0];

/// Changes of these numbers of its head, each below 256, and of these entries.
fn changes(
    rt: &(impl Abort + AllocGlobal),
    since: u8,
    now: u8,
    count: u8,
    entries: &[u8],
) -> Result<Vec<u8>, Fail> {
    assert!(rt; entries.len() <= 200);
    let head = [20 + entries.len() as u8, 0, 0, 0, 0x8a];
    let mut frame = Vec::from_slice(rt.alloc(), &head)?;
    for byte in [since, now] {
        frame.extend_from_slice(&[byte, 0, 0, 0, 0, 0, 0, 0])?;
    }
    frame.extend_from_slice(&[count, 0, 0, 0])?;
    frame.extend_from_slice(entries)?;
    Ok(frame)
}

/// An entry of a record of [`FIVE_RECORDS`], which becomes 0.
fn cleared(index: u8) -> [u8; 8] {
    [index, 0, 0, 0, 0xff, 0xff, 0, 0]
}

/// A client of a wide store that was let in.
fn wide_guest<K: Kernel>(
    rt: &(impl Abort + AllocGlobal),
    store: Store,
    kernel: K,
) -> Result<ClientCore<K>, Fail> {
    let mut client = ClientCore::wide(rt.alloc(), kernel, ZEROS, 0);
    let_in(rt, &mut client, store)?;
    Ok(client)
}

/// A client of a wide store that holds the hint of version 1, which has these words, and has asked
/// for the records changed since.
fn asking<K: Kernel>(
    rt: &(impl Abort + AllocGlobal),
    store: Store,
    hint: &[u32],
    kernel: K,
) -> Result<ClientCore<K>, Fail> {
    let mut client = wide_guest(rt, store, kernel)?;
    fetches(rt, &mut client, 1, hint)?;
    sends(rt, &mut client, Wanted::Sync(Scheme::Simple), 13, &ASKING)?;
    Ok(client)
}

/// Compares the hint that a client holds.
fn holds<K: Kernel>(rt: &impl Abort, client: &ClientCore<K>, version: u64, words: &[u32]) {
    let Some(hint) = client.hint() else {
        panic!(rt; "no hint");
    };
    assert_eq!(rt; hint.version, version);
    assert_eq!(rt; hint.matrix.words(), words);
}

/// What a client of [`FIVE_RECORDS`] that has asked for the records changed makes of these bytes.
fn brings<K: Kernel>(
    rt: &(impl Abort + AllocGlobal),
    piece: &[u8],
    wanted: &str,
    kernel: K,
) -> Result<(), Fail> {
    let mut client = asking(rt, FIVE_RECORDS, &HINT, kernel)?;
    feeds(rt, &mut client, piece, wanted)
}

fn moves<K: Kernel>(rt: &(impl Abort + AllocGlobal), kernel: K) -> Result<(), Fail> {
    let mut client = asking(rt, FIVE_RECORDS, &HINT, kernel)?;
    let frame = changes(rt, 1, 2, 6, &CHANGED)?;
    feeds(rt, &mut client, frame.as_slice(), "synced simple 2 ")?;
    holds(rt, &client, 2, &MOVED);
    refuses(rt, &mut client, Wanted::Ask(6), CallFault::BadIndex);
    makes(&mut client, Wanted::Ask(5))
}

#[test]
fn a_moved_hint_is_the_one_made_from_scratch(rt: HostRuntime) -> Result<(), Fail> {
    moves(&rt, Plain)?;
    moves(&rt, Lanes)
}

fn comes_in_pieces<K: Kernel>(rt: &(impl Abort + AllocGlobal), kernel: K) -> Result<(), Fail> {
    let mut client = asking(rt, FIVE_RECORDS, &HINT, kernel)?;
    let frame = changes(rt, 1, 2, 6, &CHANGED)?;
    let last = frame.len() - 1;
    for byte in &frame.as_slice()[..last] {
        feeds(rt, &mut client, &[*byte], "")?;
    }
    feeds(
        rt,
        &mut client,
        &frame.as_slice()[last..],
        "synced simple 2 ",
    )?;
    holds(rt, &client, 2, &MOVED);
    Ok(())
}

#[test]
fn a_hint_moves_once_the_changes_are_whole(rt: HostRuntime) -> Result<(), Fail> {
    comes_in_pieces(&rt, Plain)?;
    comes_in_pieces(&rt, Lanes)
}

/// The hint goes to a further version, and back.
fn moves_on<K: Kernel>(rt: &(impl Abort + AllocGlobal), kernel: K) -> Result<(), Fail> {
    let mut client = asking(rt, TWO_SLOTS, &SLOTS_HINT, kernel)?;
    let frame = changes(rt, 1, 1, 2, &[])?;
    feeds(rt, &mut client, frame.as_slice(), "synced simple 1 ")?;
    holds(rt, &client, 1, &SLOTS_HINT);
    makes(&mut client, Wanted::Sync(Scheme::Simple))?;
    let frame = changes(rt, 1, 7, 2, &[1, 0, 0, 0, 2, 0, 0x62, 0x63, 0, 0, 0, 0])?;
    feeds(rt, &mut client, frame.as_slice(), "synced simple 7 ")?;
    holds(rt, &client, 7, &EMPTIED);
    makes(&mut client, Wanted::Sync(Scheme::Simple))?;
    let frame = changes(rt, 7, 8, 2, &[1, 0, 0, 0, 0, 0, 0, 0, 2, 0, 0x62, 0x63])?;
    feeds(rt, &mut client, frame.as_slice(), "synced simple 8 ")?;
    holds(rt, &client, 8, &SLOTS_HINT);
    Ok(())
}

#[test]
fn a_hint_moves_on_and_back(rt: HostRuntime) -> Result<(), Fail> {
    moves_on(&rt, Plain)?;
    moves_on(&rt, Lanes)
}

fn bad_heads<K: Kernel>(rt: &(impl Abort + AllocGlobal), kernel: K) -> Result<(), Fail> {
    for (since, now, count) in [(2u8, 2u8, 5u8), (0, 2, 5), (1, 0, 5), (1, 2, 0)] {
        let frame = changes(rt, since, now, count, &[])?;
        brings(rt, frame.as_slice(), "BadReply ", kernel)?;
    }
    Ok(())
}

#[test]
fn changes_of_bad_heads(rt: HostRuntime) -> Result<(), Fail> {
    bad_heads(&rt, Plain)?;
    bad_heads(&rt, Lanes)
}

fn bad_entries<K: Kernel>(rt: &(impl Abort + AllocGlobal), kernel: K) -> Result<(), Fail> {
    for pair in [[3u8, 1u8], [3, 3], [3, 5]] {
        let mut entries = Vec::from_slice(rt.alloc(), &cleared(pair[0]))?;
        entries.extend_from_slice(&cleared(pair[1]))?;
        let frame = changes(rt, 1, 2, 5, entries.as_slice())?;
        brings(rt, frame.as_slice(), "BadReply ", kernel)?;
        // What is bad of the last pair is the count alone.
        let wanted = if pair[1] == 5 {
            "synced simple 2 "
        } else {
            "BadReply "
        };
        let frame = changes(rt, 1, 2, 6, entries.as_slice())?;
        brings(rt, frame.as_slice(), wanted, kernel)?;
    }
    for len in [1usize, 4, 7, 9, 15] {
        let frame = changes(rt, 1, 2, 6, &CHANGED[..len])?;
        brings(rt, frame.as_slice(), "BadReply ", kernel)?;
    }
    Ok(())
}

#[test]
fn changes_of_bad_entries(rt: HostRuntime) -> Result<(), Fail> {
    bad_entries(&rt, Plain)?;
    bad_entries(&rt, Lanes)
}

/// What a client of [`TWO_SLOTS`] makes of one record that changed.
fn changes_slot<K: Kernel>(
    rt: &(impl Abort + AllocGlobal),
    old: [u8; 4],
    new: [u8; 4],
    wanted: &str,
    kernel: K,
) -> Result<(), Fail> {
    let mut client = asking(rt, TWO_SLOTS, &SLOTS_HINT, kernel)?;
    let mut entries = Vec::from_slice(rt.alloc(), &[1, 0, 0, 0])?;
    entries.extend_from_slice(&old)?;
    entries.extend_from_slice(&new)?;
    let frame = changes(rt, 1, 2, 2, entries.as_slice())?;
    feeds(rt, &mut client, frame.as_slice(), wanted)
}

fn bad_slots<K: Kernel>(rt: &(impl Abort + AllocGlobal), kernel: K) -> Result<(), Fail> {
    for bad in [[3u8, 0, 0, 0], [0, 1, 0, 0], [1, 0, 0x61, 1]] {
        changes_slot(rt, bad, BC, "BadReply ", kernel)?;
        changes_slot(rt, BC, bad, "BadReply ", kernel)?;
    }
    changes_slot(rt, BC, [1, 0, 0x61, 0], "synced simple 2 ", kernel)
}

#[test]
fn changes_of_bad_slots(rt: HostRuntime) -> Result<(), Fail> {
    bad_slots(&rt, Plain)?;
    bad_slots(&rt, Lanes)
}

fn goes_on_by_parts<K: Kernel>(rt: &(impl Abort + AllocGlobal), kernel: K) -> Result<(), Fail> {
    let mut client = asking(rt, FIVE_RECORDS, &HINT, kernel)?;
    let frame = no_delta(rt, 2, 6)?;
    let asked = [13, 0, 0, 0, 3, 0, 2, 0, 0, 0, 0, 0, 0, 0, 0, 0, 0, 0];
    asks_on(rt, &mut client, frame.as_slice(), "", &asked)?;
    refuses(rt, &mut client, Wanted::Ask(0), CallFault::NotReady);
    let frame = part(rt, 0, 2, 0, &MOVED)?;
    feeds(rt, &mut client, frame.as_slice(), "synced simple 2 ")?;
    holds(rt, &client, 2, &MOVED);
    for (version, count) in [(0u64, 5u32), (2, 0)] {
        let frame = no_delta(rt, version, count)?;
        brings(rt, frame.as_slice(), "BadReply ", kernel)?;
    }
    Ok(())
}

#[test]
fn parts_where_no_changes_are_known(rt: HostRuntime) -> Result<(), Fail> {
    goes_on_by_parts(&rt, Plain)?;
    goes_on_by_parts(&rt, Lanes)
}

fn refusal_leaves_the_hint<K: Kernel>(
    rt: &(impl Abort + AllocGlobal),
    kernel: K,
) -> Result<(), Fail> {
    let mut client = asking(rt, FIVE_RECORDS, &HINT, kernel)?;
    refuses(rt, &mut client, Wanted::Ask(0), CallFault::Busy);
    let frame = refused(rt, 12)?;
    feeds(rt, &mut client, frame.as_slice(), "refused 12 ")?;
    holds(rt, &client, 1, &HINT);
    makes(&mut client, Wanted::Ask(0))
}

#[test]
fn a_refusal_leaves_the_hint_as_it_is(rt: HostRuntime) -> Result<(), Fail> {
    refusal_leaves_the_hint(&rt, Plain)?;
    refusal_leaves_the_hint(&rt, Lanes)
}

fn other_replies<K: Kernel>(rt: &(impl Abort + AllocGlobal), kernel: K) -> Result<(), Fail> {
    let frame = stale(rt, 2, 5)?;
    brings(rt, frame.as_slice(), "BadReply ", kernel)?;
    let frame = part(rt, 0, 1, 0, &HINT)?;
    brings(rt, frame.as_slice(), "BadReply ", kernel)?;
    let frame = done(rt, 2)?;
    brings(rt, frame.as_slice(), "BadReply ", kernel)?;
    // A Delta of no rows, of dimension 2.
    let delta = [
        22, 0, 0, 0, 0x84, 1, 0, 0, 0, 0, 0, 0, 0, 2, 0, 0, 0, 0, 0, 0, 0, 5, 0, 0, 0, 2, 0,
    ];
    brings(rt, &delta, "BadReply ", kernel)
}

#[test]
fn other_replies_answer_no_sync_by_changed_records(rt: HostRuntime) -> Result<(), Fail> {
    other_replies(&rt, Plain)?;
    other_replies(&rt, Lanes)
}

fn other_calls<K: Kernel>(rt: &(impl Abort + AllocGlobal), kernel: K) -> Result<(), Fail> {
    let frame = changes(rt, 1, 2, 5, &[])?;
    let mut idle = wide_guest(rt, FIVE_RECORDS, kernel)?;
    feeds(rt, &mut idle, frame.as_slice(), "BadReply ")?;
    for wanted in [Wanted::Sync(Scheme::Simple), Wanted::Publish] {
        let mut client = wide_guest(rt, FIVE_RECORDS, kernel)?;
        makes(&mut client, wanted)?;
        feeds(rt, &mut client, frame.as_slice(), "BadReply ")?;
    }
    // An ordinary client asks for rows, and knows no such frame.
    let mut ordinary = synced(rt, TWO_RECORDS, 0, &[TWO_RECORDS_HINT], kernel)?;
    let asking = [8, 0, 0, 0, 4, 1, 0, 0, 0, 0, 0, 0, 0];
    sends(rt, &mut ordinary, Wanted::Sync(Scheme::Simple), 13, &asking)?;
    feeds(rt, &mut ordinary, frame.as_slice(), "BadReply ")
}

#[test]
fn changes_answer_no_other_call(rt: HostRuntime) -> Result<(), Fail> {
    other_calls(&rt, Plain)?;
    other_calls(&rt, Lanes)
}

fn asks_by_parts<K: Kernel>(rt: &(impl Abort + AllocGlobal), kernel: K) -> Result<(), Fail> {
    let asking_parts = [13, 0, 0, 0, 3];
    let mut bare = wide_guest(rt, FIVE_RECORDS, kernel)?;
    sends(
        rt,
        &mut bare,
        Wanted::Sync(Scheme::Simple),
        18,
        &asking_parts,
    )?;
    let mut client = wide_guest(rt, FIVE_RECORDS, kernel)?;
    fetches(rt, &mut client, 1, &HINT)?;
    sends(
        rt,
        &mut client,
        Wanted::Sync(Scheme::Double),
        18,
        &asking_parts,
    )
}

#[test]
fn parts_where_no_simple_hint_is_held(rt: HostRuntime) -> Result<(), Fail> {
    asks_by_parts(&rt, Plain)?;
    asks_by_parts(&rt, Lanes)
}
