//! Clients of wide stores and of ordinary ones: how each greets, which Welcome each takes, and
//! which sizes a wide one takes.

use super::*;
use frame_codec::Bytes;

/// Two records of one byte in a wide store.
const WIDE: Store = Store {
    profile: 129,
    ..TWO_RECORDS
};

// The first bytes of a greeting: its length, kind and profile.
const ORDINARY_GREETING: [u8; 7] = [0x22, 0, 0, 0, 0x02, 2, 0];

const WIDE_GREETING: [u8; 7] = [0x22, 0, 0, 0, 0x02, 130, 0];

// A client with the zero seed, of wide stores or of ordinary ones.
fn newcomer_of<K: Kernel>(rt: &(impl Abort + AllocGlobal), wide: bool, kernel: K) -> ClientCore<K> {
    if wide {
        ClientCore::wide(rt.alloc(), kernel, ZEROS, 5)
    } else {
        ClientCore::new(rt.alloc(), kernel, ZEROS, 5)
    }
}

// What comes of a Welcome to a client that has greeted.
fn greeted<K: Kernel>(
    rt: &(impl Abort + AllocGlobal),
    wide: bool,
    store: Store,
    wanted: &str,
    kernel: K,
) -> Result<(), Fail> {
    let frame = welcome(rt, store)?;
    let mut client = newcomer_of(rt, wide, kernel);
    makes(&mut client, Wanted::Hello(0))?;
    feeds(rt, &mut client, frame.as_slice(), wanted)
}

fn greetings_on<K: Kernel>(rt: &(impl Abort + AllocGlobal), kernel: K) -> Result<(), Fail> {
    for (wide, wanted) in [(false, ORDINARY_GREETING), (true, WIDE_GREETING)] {
        let mut client = newcomer_of(rt, wide, kernel);
        sends(rt, &mut client, Wanted::Hello(0), 39, &wanted)?;
        let mut publisher = newcomer_of(rt, wide, kernel);
        sends(rt, &mut publisher, Wanted::Hello(1), 39, &wanted)?;
        counts(rt, &publisher, 5);
    }
    Ok(())
}

#[test]
fn both_kinds_greet(rt: HostRuntime) -> Result<(), Fail> {
    greetings_on(&rt, Plain)?;
    greetings_on(&rt, Lanes)
}

fn welcomes_on<K: Kernel>(rt: &(impl Abort + AllocGlobal), kernel: K) -> Result<(), Fail> {
    for profile in [0, 1, 2, 3, 127, 128, 129, 130, 131, 257, 385, 65_535] {
        let store = Store {
            profile,
            record_len: 3,
            ..TWO_RECORDS
        };
        for (wide, taken) in [(false, [1, 2]), (true, [129, 130])] {
            let good = taken.contains(&profile);
            let wanted = if good { "welcomed 1 " } else { "BadWelcome " };
            greeted(rt, wide, store, wanted, kernel)?;
        }
    }
    Ok(())
}

#[test]
fn each_welcome_to_each_client(rt: HostRuntime) -> Result<(), Fail> {
    welcomes_on(&rt, Plain)?;
    welcomes_on(&rt, Lanes)
}

fn sizes_on<K: Kernel>(rt: &(impl Abort + AllocGlobal), kernel: K) -> Result<(), Fail> {
    let columns = |count| Store { count, ..WIDE };
    let rows = |groups| Store { groups, ..WIDE };
    let bits = |width| Store { width, ..WIDE };
    let parts = |groups| Store {
        record_len: 256,
        groups,
        ..WIDE
    };
    for (most, more) in [
        (columns(32_768), columns(32_769)),
        (rows(32_768), rows(32_769)),
        (bits(9), bits(10)),
        (parts(63), parts(64)),
    ] {
        greeted(rt, true, most, "welcomed 1 ", kernel)?;
        greeted(rt, true, more, "BadWelcome ", kernel)?;
    }
    // records of one byte are no slots, and an ordinary client knows no more columns or rows than
    // before
    greeted(rt, true, Store { profile: 130, ..WIDE }, "BadWelcome ", kernel)?;
    for profile in [1, 2] {
        let slots = Store {
            profile,
            record_len: 2,
            ..TWO_RECORDS
        };
        greeted(rt, false, Store { count: 4097, ..slots }, "BadWelcome ", kernel)?;
        greeted(rt, false, Store { groups: 2049, ..slots }, "BadWelcome ", kernel)?;
    }
    Ok(())
}

#[test]
fn wide_welcomes_at_their_limits(rt: HostRuntime) -> Result<(), Fail> {
    sizes_on(&rt, Plain)?;
    sizes_on(&rt, Lanes)
}

// A client that is refused for its profile greets with the other, in the same session; the numbers
// stay.
fn speaks_the_other_on<K: Kernel>(
    rt: &(impl Abort + AllocGlobal),
    wide: bool,
    kernel: K,
) -> Result<(), Fail> {
    let (first, then, store) = if wide {
        (WIDE_GREETING, ORDINARY_GREETING, TWO_RECORDS)
    } else {
        (ORDINARY_GREETING, WIDE_GREETING, WIDE)
    };
    let mut client = newcomer_of(rt, wide, kernel);
    sends(rt, &mut client, Wanted::Hello(0), 39, &first)?;
    let frame = refused(rt, 3)?;
    feeds(rt, &mut client, frame.as_slice(), "refused 3 ")?;
    client.speak(!wide);
    sends(rt, &mut client, Wanted::Hello(0), 39, &then)?;
    counts(rt, &client, 5);
    let frame = welcome(rt, store)?;
    feeds(rt, &mut client, frame.as_slice(), "welcomed 1 ")
}

#[test]
fn a_client_speaks_the_other_profile(rt: HostRuntime) -> Result<(), Fail> {
    for wide in [false, true] {
        speaks_the_other_on(&rt, wide, Plain)?;
        speaks_the_other_on(&rt, wide, Lanes)?;
    }
    Ok(())
}

// A client that was let in by a wide store and asks for the hint of version 1.
fn asks_for_the_hint<K: Kernel>(
    rt: &(impl Abort + AllocGlobal),
    kernel: K,
) -> Result<ClientCore<K>, Fail> {
    let mut client = newcomer_of(rt, true, kernel);
    let_in(rt, &mut client, WIDE)?;
    makes(&mut client, Wanted::Sync(Scheme::Simple))?;
    Ok(client)
}

// A client that asks with the hint of version 1 for what changed since.
fn asks_for_changes<K: Kernel>(
    rt: &(impl Abort + AllocGlobal),
    kernel: K,
) -> Result<ClientCore<K>, Fail> {
    let mut client = newcomer_of(rt, true, kernel);
    let_in(rt, &mut client, WIDE)?;
    fetches(rt, &mut client, 1, &[TWO_RECORDS_HINT])?;
    makes(&mut client, Wanted::Sync(Scheme::Simple))?;
    Ok(client)
}

// Changes from version 1 to 2 with no entries, and this count.
fn no_changes(rt: &(impl Abort + AllocGlobal), count: u32) -> Result<Vec<u8>, Fail> {
    let entries = Bytes::new(Vec::new(rt.alloc()));
    encode(
        rt,
        Frame::Changes {
            since: 1,
            now: 2,
            count,
            entries,
        },
    )
}

fn counts_on<K: Kernel>(rt: &(impl Abort + AllocGlobal), kernel: K) -> Result<(), Fail> {
    for (count, good) in [(4097, true), (32_768, true), (32_769, false), (0, false)] {
        let frame = stale(rt, 2, count)?;
        let wanted = if good { "stale 2 " } else { "BadReply " };
        feeds(rt, &mut asks_for_the_hint(rt, kernel)?, frame.as_slice(), wanted)?;
        let frame = no_changes(rt, count)?;
        let wanted = if good { "synced simple 2 " } else { "BadReply " };
        feeds(rt, &mut asks_for_changes(rt, kernel)?, frame.as_slice(), wanted)?;
        let frame = no_delta(rt, 2, count)?;
        let mut client = asks_for_changes(rt, kernel)?;
        if good {
            let asked = [0x0d, 0, 0, 0, 0x03, 0, 2, 0, 0, 0, 0, 0, 0, 0, 0, 0, 0, 0];
            asks_on(rt, &mut client, frame.as_slice(), "", &asked)?;
        } else {
            feeds(rt, &mut client, frame.as_slice(), "BadReply ")?;
        }
    }
    Ok(())
}

#[test]
fn counts_of_later_versions_at_their_limit(rt: HostRuntime) -> Result<(), Fail> {
    counts_on(&rt, Plain)?;
    counts_on(&rt, Lanes)
}

// A query has a word for each of 5,000 columns; of DoublePIR one more for each of the rows.
#[test]
fn queries_of_five_thousand_columns(rt: HostRuntime) -> Result<(), Fail> {
    let store = Store {
        count: 5000,
        ..WIDE
    };
    let mut client = newcomer_of(&rt, true, Lanes);
    let_in(&rt, &mut client, store)?;
    fetches(&rt, &mut client, 1, &[0])?;
    refuses(&rt, &mut client, Wanted::Ask(5000), CallFault::BadIndex);
    sends(&rt, &mut client, Wanted::Ask(4999), 5 + 9 + 4 * 5000, &[])?;
    counts(&rt, &client, 6);
    Ok(())
}
