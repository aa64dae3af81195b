//! Readers and writers that fail once and then go on: a fault is never tried again.

use super::helpers::*;
use super::*;

fn input(bytes: &[u8], most: usize, fails_at: usize) -> FailsOnce<Input<'_>> {
    FailsOnce {
        inner: Input {
            bytes,
            most,
            fails: false,
        },
        fails_at,
        calls: 0,
    }
}

fn output(alloc: Global, fails_at: usize) -> FailsOnce<Output> {
    FailsOnce {
        inner: Output {
            bytes: Vec::new(alloc),
            room: PIECE,
            fails: false,
        },
        fails_at,
        calls: 0,
    }
}

#[test]
fn a_server_never_tries_a_fault_again(rt: HostRuntime) -> Result<(), Fail> {
    a_server_never_tries_a_fault_again_on(&rt, rt.alloc(), Plain)?;
    a_server_never_tries_a_fault_again_on(&rt, rt.alloc(), Lanes)
}

fn a_server_never_tries_a_fault_again_on<K: Kernel>(
    rt: &impl Abort,
    alloc: Global,
    kernel: K,
) -> Result<(), Fail> {
    let said = joined(alloc, &[GREETING, &ZEROS, HINT_ASK, BYE])?;
    // The greeting is whole with the first read of 39 bytes.
    for (fails_at, owed) in [(0usize, 0usize), (1, 58)] {
        let mut server = server(alloc, kernel)?;
        let mut reader = input(&said, 39, fails_at);
        let mut writer = Vec::new(alloc);
        let ended = serve_all(alloc, &mut server, 0, &mut reader, &mut writer, TURNS);
        assert_eq!(rt; ended, Err(ServeFault::Read));
        assert_eq!(rt; writer.len(), owed);
        assert_eq!(rt; reader.calls, fails_at.saturating_add(1));
        assert_eq!(rt; server.has_session(0), false);
    }
    for (fails_at, owed) in [(0usize, 0usize), (1, 58)] {
        let mut server = server(alloc, kernel)?;
        let mut reader = input(&said, 39, 1_000);
        let mut writer = output(alloc, fails_at);
        let ended = serve_all(alloc, &mut server, 0, &mut reader, &mut writer, TURNS);
        assert_eq!(rt; ended, Err(ServeFault::Write));
        assert_eq!(rt; writer.inner.bytes.len(), owed);
        assert_eq!(rt; writer.calls, fails_at.saturating_add(1));
    }
    Ok(())
}

#[test]
fn a_client_never_tries_a_fault_again(rt: HostRuntime) -> Result<(), Fail> {
    a_client_never_tries_a_fault_again_on(&rt, rt.alloc(), Plain)?;
    a_client_never_tries_a_fault_again_on(&rt, rt.alloc(), Lanes)
}

fn a_client_never_tries_a_fault_again_on<K: Kernel>(
    rt: &impl Abort,
    alloc: Global,
    kernel: K,
) -> Result<(), Fail> {
    let welcome = joined(alloc, &[WELCOME, &ZEROS])?;
    for fails_at in [0usize, 1] {
        let mut client = client(alloc, kernel);
        let first = hello(&mut client, ZEROS)?;
        let mut reader = input(&welcome, 20, fails_at);
        let mut writer = Vec::new(alloc);
        let ended = converse_all(alloc, &mut client, &first, &mut reader, &mut writer, TURNS);
        assert_eq!(rt; ended.err(), Some(ConverseFault::Read));
        assert_eq!(rt; reader.calls, fails_at.saturating_add(1));
        assert_eq!(rt; writer.as_slice(), first.as_slice());
    }
    let mut client = client(alloc, kernel);
    let first = hello(&mut client, ZEROS)?;
    let mut reader = input(&welcome, 20, 1_000);
    let mut writer = output(alloc, 0);
    let ended = converse_all(alloc, &mut client, &first, &mut reader, &mut writer, TURNS);
    assert_eq!(rt; ended.err(), Some(ConverseFault::Write));
    assert_eq!(rt; writer.calls, 1);
    assert_eq!(rt; reader.calls, 0);
    Ok(())
}
