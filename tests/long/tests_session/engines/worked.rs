//! The worked examples.
//!
//! Proved by `tests/long/run --prove`.

use super::*;

#[test]
fn a_session_is_served(rt: HostRuntime) -> Result<(), Fail> {
    a_session_is_served_on(&rt, rt.alloc(), Plain)?;
    a_session_is_served_on(&rt, rt.alloc(), Lanes)
}

fn a_session_is_served_on<K: Kernel>(
    rt: &impl Abort,
    alloc: Global,
    kernel: K,
) -> Result<(), Fail> {
    let said = joined(alloc, &[GREETING, &ZEROS, HINT_ASK, BYE])?;
    let replies = joined(alloc, &[WELCOME, &ZEROS, HINT_PART])?;
    let mut server = server(alloc, kernel)?;
    let mut reader = said.as_slice();
    let mut writer = Vec::new(alloc);
    let ended = serve_all(alloc, &mut server, 0, &mut reader, &mut writer, TURNS);
    assert_eq!(rt; ended, Ok(Ending::Closed));
    assert_eq!(rt; writer.as_slice(), replies.as_slice());
    Ok(())
}

#[test]
fn a_client_is_welcomed(rt: HostRuntime) -> Result<(), Fail> {
    a_client_is_welcomed_on(&rt, rt.alloc(), Plain)?;
    a_client_is_welcomed_on(&rt, rt.alloc(), Lanes)
}

fn a_client_is_welcomed_on<K: Kernel>(
    rt: &impl Abort,
    alloc: Global,
    kernel: K,
) -> Result<(), Fail> {
    let welcome = joined(alloc, &[WELCOME, &ZEROS])?;
    let mut client = client(alloc, kernel);
    let first = hello(&mut client, ZEROS)?;
    let mut reader = welcome.as_slice();
    let mut writer = Vec::new(alloc);
    let event = converse_all(alloc, &mut client, &first, &mut reader, &mut writer, TURNS);
    assert!(rt; matches!(event, Ok(Event::Welcomed(1))));
    assert_eq!(rt; writer.as_slice(), first.as_slice());
    Ok(())
}
