//! Readers and writers that take a byte at a time, or fail.

use super::*;
use test_support::{Input, Output};
use world_script::RehearseFault;

#[test]
fn the_stored_run_byte_by_byte(rt: HostRuntime) -> Result<(), Fail> {
    let mut output = Output {
        bytes: Vec::new(rt.alloc()),
        most: 1,
        room: 1000,
        fails: true,
    };
    let mut input = Input {
        bytes: RUN.as_bytes(),
        most: 1,
        fails: false,
    };
    assert_eq!(rt; rehearse(rt.alloc(), &mut input, &mut output), Ok(0));
    assert_eq!(rt; output.bytes.as_slice(), REPORTED.as_bytes());
    Ok(())
}

#[test]
fn a_read_that_fails_is_reported_before_anything_is_played(rt: HostRuntime) -> Result<(), Fail> {
    for len in 0..RUN.len() {
        let mut input = Input {
            bytes: RUN.as_bytes().get(..len).unwrap_or(&[]),
            most: 100,
            fails: true,
        };
        let mut out = Vec::new(rt.alloc());
        let played = rehearse(rt.alloc(), &mut input, &mut out);
        assert_eq!(rt; played, Err(RehearseFault::Read), "{len}");
        assert_eq!(rt; out.is_empty(), true, "{len}");
    }
    Ok(())
}

// Plays a script on a writer that takes only so many bytes.
fn check_cut(
    rt: &impl Abort,
    alloc: Global,
    script: &str,
    reported: &str,
    room: usize,
    fails: bool,
) -> Result<(), Fail> {
    let mut output = Output {
        bytes: Vec::new(alloc),
        most: 7,
        room,
        fails,
    };
    let played = rehearse(alloc, &mut script.as_bytes(), &mut output);
    assert_eq!(rt; played, Err(RehearseFault::Write), "{room}");
    assert_eq!(rt; output.bytes.len(), room);
    assert!(rt; reported.as_bytes().starts_with(&output.bytes), "{room}");
    Ok(())
}

// The same at each byte of what the script prints.
fn check_cuts(
    rt: &impl Abort,
    alloc: Global,
    script: &str,
    reported: &str,
    fails: bool,
) -> Result<(), Fail> {
    for room in 0..reported.len() {
        check_cut(rt, alloc, script, reported, room, fails)?;
    }
    Ok(())
}

#[test]
fn a_write_that_fails_ends_the_rehearsal(rt: HostRuntime) -> Result<(), Fail> {
    for fails in [true, false] {
        check_cuts(&rt, rt.alloc(), RUN, REPORTED, fails)?;
        check_cuts(&rt, rt.alloc(), "", "line 1: bad\n", fails)?;
    }
    Ok(())
}
