//! Replies that a client doesn't take.

use super::*;

fn bad_welcome<K: Kernel>(
    rt: &(impl Abort + AllocGlobal),
    store: Store,
    kernel: K,
) -> Result<(), Fail> {
    let frame = welcome(rt, store)?;
    let mut client = newcomer(rt, 0, kernel);
    makes(&mut client, Wanted::Hello(0))?;
    feeds(rt, &mut client, frame.as_slice(), "BadWelcome ")?;
    refuses(rt, &mut client, Wanted::Hello(0), CallFault::Failed);
    Ok(())
}

// A Welcome that is good but for one field of each of these.
fn bad_welcomes<K: Kernel>(
    rt: &(impl Abort + AllocGlobal),
    stores: &[Store],
    kernel: K,
) -> Result<(), Fail> {
    for store in stores {
        bad_welcome(rt, *store, kernel)?;
    }
    Ok(())
}

#[test]
fn an_empty_piece_says_nothing(rt: HostRuntime) -> Result<(), Fail> {
    an_empty_piece_says_nothing_on(&rt, Plain)?;
    an_empty_piece_says_nothing_on(&rt, Lanes)
}

fn an_empty_piece_says_nothing_on<K: Kernel>(
    rt: &(impl Abort + AllocGlobal),
    kernel: K,
) -> Result<(), Fail> {
    let frame = welcome(rt, TWO_RECORDS)?;
    let mut client = newcomer(rt, 0, kernel);
    feeds(rt, &mut client, &[], "")?;
    makes(&mut client, Wanted::Hello(0))?;
    feeds(rt, &mut client, &[], "")?;
    let (prefix, rest) = frame.split_at(frame.len().min(9));
    feeds(rt, &mut client, prefix, "")?;
    feeds(rt, &mut client, &[], "")?;
    feeds(rt, &mut client, rest, "welcomed 1 ")?;
    feeds(rt, &mut client, &[], "")
}

#[test]
fn welcomes_of_bad_sizes(rt: HostRuntime) -> Result<(), Fail> {
    welcomes_of_bad_sizes_on(&rt, Plain)?;
    welcomes_of_bad_sizes_on(&rt, Lanes)
}

fn welcomes_of_bad_sizes_on<K: Kernel>(
    rt: &(impl Abort + AllocGlobal),
    kernel: K,
) -> Result<(), Fail> {
    let good = TWO_RECORDS;
    let none = Store { count: 0, ..good };
    let many = Store {
        count: 4097,
        ..good
    };
    let empty = Store {
        record_len: 0,
        ..good
    };
    let long = Store {
        record_len: 257,
        ..good
    };
    let flat = Store { groups: 0, ..good };
    let high = Store {
        groups: 4097,
        ..good
    };
    bad_welcomes(rt, &[none, many, empty, long, flat, high], kernel)
}

#[test]
fn welcomes_of_bad_parameters(rt: HostRuntime) -> Result<(), Fail> {
    welcomes_of_bad_parameters_on(&rt, Plain)?;
    welcomes_of_bad_parameters_on(&rt, Lanes)
}

fn welcomes_of_bad_parameters_on<K: Kernel>(
    rt: &(impl Abort + AllocGlobal),
    kernel: K,
) -> Result<(), Fail> {
    let good = TWO_RECORDS;
    let below = Store { profile: 0, ..good };
    let above = Store {
        profile: 3,
        record_len: 2,
        ..good
    };
    let slotless = Store { profile: 2, ..good };
    let narrow = Store { width: 5, ..good };
    let wide = Store { width: 11, ..good };
    let none = Store {
        dimension: 0,
        ..good
    };
    let large = Store {
        dimension: 1025,
        ..good
    };
    let unborn = Store { version: 0, ..good };
    bad_welcomes(
        rt,
        &[below, above, slotless, narrow, wide, none, large, unborn],
        kernel,
    )
}

/// What a client has outstanding.
#[derive(Clone, Copy)]
enum Outstanding {
    Nothing,
    Hello,
    Sync,
    Ask,
    Edit,
    Append,
    Publish,
}

/// The call of a client of a store of one record that is then outstanding.
fn made(outstanding: Outstanding) -> Option<Wanted> {
    match outstanding {
        Outstanding::Nothing => None,
        Outstanding::Hello => Some(Wanted::Hello(0)),
        Outstanding::Sync => Some(Wanted::Sync(Scheme::Simple)),
        Outstanding::Ask => Some(Wanted::Ask(0)),
        Outstanding::Edit => Some(Wanted::Edit(0, 1)),
        Outstanding::Append => Some(Wanted::Append(1)),
        Outstanding::Publish => Some(Wanted::Publish),
    }
}

/// A client of a store of one record, in this state.
fn waiting<K: Kernel>(
    rt: &(impl Abort + AllocGlobal),
    outstanding: Outstanding,
    kernel: K,
) -> Result<ClientCore<K>, Fail> {
    let mut client = match outstanding {
        Outstanding::Hello => newcomer(rt, 0, kernel),
        Outstanding::Ask => synced(rt, ONE_RECORD, 0, &[0, 0, 0], kernel)?,
        _ => guest(rt, ONE_RECORD, 0, kernel)?,
    };
    if let Some(wanted) = made(outstanding) {
        makes(&mut client, wanted)?;
    }
    Ok(client)
}

/// A piece that is a bad reply there.
fn is_bad<K: Kernel>(
    rt: &(impl Abort + AllocGlobal),
    outstanding: Outstanding,
    piece: &[u8],
    kernel: K,
) -> Result<(), Fail> {
    let mut client = waiting(rt, outstanding, kernel)?;
    feeds(rt, &mut client, piece, "BadReply ")?;
    refuses(rt, &mut client, Wanted::Publish, CallFault::Failed);
    Ok(())
}

/// A reply that one call at least takes.
#[derive(Clone, Copy)]
enum Reply {
    Welcome,
    HintPart,
    Answer,
    Stale,
    Done,
    Refused,
}

fn encoded_reply(rt: &(impl Abort + AllocGlobal), reply: Reply) -> Result<Vec<u8>, Fail> {
    match reply {
        Reply::Welcome => welcome(rt, ONE_RECORD),
        Reply::HintPart => part(rt, 0, 1, 0, &[0, 0, 0]),
        Reply::Answer => answer(rt, 0, 1, &[0, 0, 0]),
        Reply::Stale => stale(rt, 2, 1),
        Reply::Done => done(rt, 1),
        Reply::Refused => refused(rt, 1),
    }
}

/// A reply that none of these calls takes.
fn is_bad_for<K: Kernel>(
    rt: &(impl Abort + AllocGlobal),
    reply: Reply,
    calls: &[Outstanding],
    kernel: K,
) -> Result<(), Fail> {
    let frame = encoded_reply(rt, reply)?;
    for call in calls {
        is_bad(rt, *call, frame.as_slice(), kernel)?;
    }
    Ok(())
}

#[test]
fn replies_to_other_calls(rt: HostRuntime) -> Result<(), Fail> {
    replies_to_other_calls_on(&rt, Plain)?;
    replies_to_other_calls_on(&rt, Lanes)
}

fn replies_to_other_calls_on<K: Kernel>(
    rt: &(impl Abort + AllocGlobal),
    kernel: K,
) -> Result<(), Fail> {
    use Outstanding::{Append, Ask, Edit, Hello, Nothing, Publish, Sync};
    is_bad_for(
        rt,
        Reply::Welcome,
        &[Nothing, Sync, Ask, Edit, Append, Publish],
        kernel,
    )?;
    is_bad_for(
        rt,
        Reply::HintPart,
        &[Nothing, Hello, Ask, Edit, Append, Publish],
        kernel,
    )?;
    is_bad_for(
        rt,
        Reply::Answer,
        &[Nothing, Hello, Sync, Edit, Append, Publish],
        kernel,
    )?;
    is_bad_for(
        rt,
        Reply::Stale,
        &[Nothing, Hello, Edit, Append, Publish],
        kernel,
    )?;
    is_bad_for(rt, Reply::Done, &[Nothing, Hello, Sync, Ask], kernel)?;
    is_bad_for(rt, Reply::Refused, &[Nothing], kernel)
}

#[test]
fn parts_that_were_not_asked(rt: HostRuntime) -> Result<(), Fail> {
    parts_that_were_not_asked_on(&rt, Plain)?;
    parts_that_were_not_asked_on(&rt, Lanes)
}

fn parts_that_were_not_asked_on<K: Kernel>(
    rt: &(impl Abort + AllocGlobal),
    kernel: K,
) -> Result<(), Fail> {
    let words = [0, 0, 0, 0];
    for (scheme, version, number, count) in [
        (1u8, 1u64, 0u32, 3usize),
        (0, 2, 0, 3),
        (0, 1, 1, 3),
        (0, 1, 0, 2),
        (0, 1, 0, 4),
        (0, 1, 0, 0),
    ] {
        assert!(rt; count <= 4);
        let frame = part(rt, scheme, version, number, &words[..count])?;
        is_bad(rt, Outstanding::Sync, frame.as_slice(), kernel)?;
    }
    Ok(())
}

#[test]
fn answers_that_were_not_asked(rt: HostRuntime) -> Result<(), Fail> {
    answers_that_were_not_asked_on(&rt, Plain)?;
    answers_that_were_not_asked_on(&rt, Lanes)
}

fn answers_that_were_not_asked_on<K: Kernel>(
    rt: &(impl Abort + AllocGlobal),
    kernel: K,
) -> Result<(), Fail> {
    let words = [0, 0, 0, 0];
    for (scheme, version, count) in [
        (1u8, 1u64, 3usize),
        (0, 2, 3),
        (0, 1, 2),
        (0, 1, 4),
        (0, 1, 0),
    ] {
        assert!(rt; count <= 4);
        let frame = answer(rt, scheme, version, &words[..count])?;
        is_bad(rt, Outstanding::Ask, frame.as_slice(), kernel)?;
    }
    Ok(())
}

#[test]
fn stale_with_a_version_or_count_that_can_not_be(rt: HostRuntime) -> Result<(), Fail> {
    stale_with_a_version_or_count_that_can_not_be_on(&rt, Plain)?;
    stale_with_a_version_or_count_that_can_not_be_on(&rt, Lanes)
}

fn stale_with_a_version_or_count_that_can_not_be_on<K: Kernel>(
    rt: &(impl Abort + AllocGlobal),
    kernel: K,
) -> Result<(), Fail> {
    for (version, count) in [(1u64, 1u32), (0, 1), (2, 0), (2, 4097)] {
        let frame = stale(rt, version, count)?;
        is_bad(rt, Outstanding::Sync, frame.as_slice(), kernel)?;
        is_bad(rt, Outstanding::Ask, frame.as_slice(), kernel)?;
    }
    Ok(())
}

#[test]
fn frames_that_are_no_replies(rt: HostRuntime) -> Result<(), Fail> {
    frames_that_are_no_replies_on(&rt, Plain)?;
    frames_that_are_no_replies_on(&rt, Lanes)
}

fn frames_that_are_no_replies_on<K: Kernel>(
    rt: &(impl Abort + AllocGlobal),
    kernel: K,
) -> Result<(), Fail> {
    for kind in [7u8, 8] {
        is_bad(rt, Outstanding::Edit, &[0, 0, 0, 0, kind], kernel)?;
    }
    // a query of two words
    let query = [
        0x11, 0, 0, 0, 0x05, 0, 1, 0, 0, 0, 0, 0, 0, 0, 0x16, 0, 0, 0, 0x21, 0, 0, 1,
    ];
    is_bad(rt, Outstanding::Sync, &query, kernel)?;
    is_bad(rt, Outstanding::Ask, &query, kernel)?;
    is_bad(rt, Outstanding::Edit, &query, kernel)?;
    // too long, an unknown kind, a bad payload
    is_bad(rt, Outstanding::Edit, &[1, 0, 0, 1], kernel)?;
    is_bad(rt, Outstanding::Edit, &[0, 0, 0, 0, 0x7f], kernel)?;
    is_bad(rt, Outstanding::Edit, &[0, 0, 0, 0, 0x87], kernel)
}

/// Feeds a client that waits for Done that reply and more bytes after it.
fn reported_before<K: Kernel>(
    rt: &(impl Abort + AllocGlobal),
    beyond: &[u8],
    kernel: K,
) -> Result<(), Fail> {
    let mut piece = done(rt, 1)?;
    piece.extend_from_slice(beyond)?;
    let mut client = waiting(rt, Outstanding::Edit, kernel)?;
    feeds(rt, &mut client, piece.as_slice(), "done 1 BadReply ")
}

#[test]
fn what_came_before_a_fault_is_reported(rt: HostRuntime) -> Result<(), Fail> {
    what_came_before_a_fault_is_reported_on(&rt, Plain)?;
    what_came_before_a_fault_is_reported_on(&rt, Lanes)
}

fn what_came_before_a_fault_is_reported_on<K: Kernel>(
    rt: &(impl Abort + AllocGlobal),
    kernel: K,
) -> Result<(), Fail> {
    let again = done(rt, 1)?;
    reported_before(rt, again.as_slice(), kernel)?;
    reported_before(rt, &[0, 0, 0, 0, 0x7f], kernel)
}

fn takes_another_count<K: Kernel>(
    rt: &(impl Abort + AllocGlobal),
    client: &mut ClientCore<K>,
) -> Result<(), Fail> {
    let frame = stale(rt, 2, 3)?;
    feeds(rt, client, frame.as_slice(), "stale 2 ")?;
    fetches(rt, client, 2, &[0, 0, 0])?;
    refuses(rt, client, Wanted::Ask(3), CallFault::BadIndex);
    // a word for each of the three columns
    sends(rt, client, Wanted::Ask(2), 26, &[])
}

#[test]
fn another_count_comes_with_stale(rt: HostRuntime) -> Result<(), Fail> {
    another_count_comes_with_stale_on(&rt, Plain)?;
    another_count_comes_with_stale_on(&rt, Lanes)
}

fn another_count_comes_with_stale_on<K: Kernel>(
    rt: &(impl Abort + AllocGlobal),
    kernel: K,
) -> Result<(), Fail> {
    let mut client = waiting(rt, Outstanding::Sync, kernel)?;
    takes_another_count(rt, &mut client)
}
