//! The worked examples.
//!
//! Proved by `tests/long/run --prove`.

use super::*;

#[test]
fn a_reader_gets_the_hint_and_answers(rt: HostRuntime) -> Result<(), Fail> {
    a_reader_gets_the_hint_and_answers_on(
        &rt,
        rt.alloc(),
        &mut server(rt.alloc(), Plain, &RECORDS, 1)?,
    )?;
    a_reader_gets_the_hint_and_answers_on(
        &rt,
        rt.alloc(),
        &mut server(rt.alloc(), Lanes, &RECORDS, 1)?,
    )
}

fn a_reader_gets_the_hint_and_answers_on<K: Kernel>(
    rt: &impl Abort,
    alloc: Global,
    server: &mut ServerCore<K>,
) -> Result<(), Fail> {
    for (asked, reported) in RETRIEVAL {
        check(rt, alloc, server, 0, asked, reported)?;
    }
    assert_eq!(rt; has_session(server, 0), true);
    Ok(())
}

#[test]
fn sessions_are_opened_and_closed(rt: HostRuntime) -> Result<(), Fail> {
    sessions_are_opened_and_closed_on(
        &rt,
        rt.alloc(),
        &mut server(rt.alloc(), Plain, &RECORDS, 1)?,
    )?;
    sessions_are_opened_and_closed_on(
        &rt,
        rt.alloc(),
        &mut server(rt.alloc(), Lanes, &RECORDS, 1)?,
    )
}

fn sessions_are_opened_and_closed_on<K: Kernel>(
    rt: &impl Abort,
    alloc: Global,
    server: &mut ServerCore<K>,
) -> Result<(), Fail> {
    let mut out = Vec::new(alloc);
    assert_eq!(rt; feed(server, 9, QUERY, &mut out), Err(FeedError::NoSession));
    assert_eq!(rt; out.is_empty(), true);
    assert_eq!(rt; open_session(server, 3), Ok(()));
    assert_eq!(rt; open_session(server, 3), Err(SessionError::IdInUse));
    assert_eq!(rt; has_session(server, 3), true);
    assert_eq!(rt; close_session(server, 3), true);
    assert_eq!(rt; has_session(server, 3), false);
    assert_eq!(rt; close_session(server, 3), false);
    assert_eq!(rt; open_session(server, 3), Ok(()));
    assert_eq!(rt; has_session(server, 0), true);
    Ok(())
}

#[test]
fn the_laws_can_be_called() {
    laws::frames_decide();
    laws::pieces_decide();
    laws::sessions_never_meet();
}
