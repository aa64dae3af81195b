//! The stored run. Other scripts, and readers and writers that fail, are in tests/long.
//!
//! Proved by `tests/long/run --prove`.

use world_script::rehearse;
use std::alloc::Global;
use std::process::Abort;
use std::test::Fail;

// One client's query is half delivered when its record is published anew; the other's was answered
// before.
const RUN: &str = "world 8 1 1 2
seed 0000000000000000000000000000000000000000000000000000000000000000
record 0a
record c8
client 1111111111111111111111111111111111111111111111111111111111111111
client 2222222222222222222222222222222222222222222222222222222222222222
hello 0
to-server 0 all
to-client 0 all
hello 1
to-server 1 all
to-client 1 all
sync 0 simple
to-server 0 all
to-client 0 all
sync 1 simple
to-server 1 all
to-client 1 all
ask 0 1
to-server 0 11
ask 1 1
to-server 1 all
edit 1 64
publish
to-server 0 all
to-client 0 all
to-client 1 all
sync 0 simple
to-server 0 all
to-client 0 all
ask 0 1
to-server 0 all
to-client 0 all
";

const REPORTED: &str = "client 0: welcomed 1
client 1: welcomed 1
client 0: synced simple 1
client 1: synced simple 1
edit 1: accepted
publish: version 2
client 0: stale 2
client 1: retrieved 1 1 c8
client 0: synced simple 2
client 0: retrieved 1 2 64
";

// Plays a script, and compares what it prints and its status.
fn check(
    rt: &impl Abort,
    alloc: Global,
    script: &str,
    reported: &str,
    status: u8,
) -> Result<(), Fail> {
    let mut out = Vec::new(alloc);
    let played = rehearse(alloc, &mut script.as_bytes(), &mut out);
    assert_eq!(rt; played, Ok(status), "{script}");
    assert_eq!(rt; out.as_slice(), reported.as_bytes(), "{script}");
    Ok(())
}

#[test]
fn the_stored_run(rt: HostRuntime) -> Result<(), Fail> {
    check(&rt, rt.alloc(), RUN, REPORTED, 0)
}
