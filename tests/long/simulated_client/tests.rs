//! Runs over a real folder, with a server of a few records beside them.
//! Proved by `tests/long/run --prove`.

use simulated_client::{ClientRun, RunEnd, RunStep};
use client_core::Scheme;
use client_state::Folder;
use lane_kernels::Lanes;
use safe_files::FileSystem;
use server_core::{FeedError, ServerCore, SessionError};
use snapshot_file::Header;
use std::alloc::Global;
use std::fs;
use std::process::Abort;
use std::test::Fail;
use version_store::Store;

// How many times bytes go to and fro in a run.
const MOST_ROUNDS: u32 = 8;

// One after another: the form of the store, the scheme, and the folder of the runs.
const CASES: [(u8, Scheme, &str); 4] = [
    (1, Scheme::Simple, "ordinary-simple"),
    (1, Scheme::Double, "ordinary-double"),
    (129, Scheme::Simple, "wide-simple"),
    (129, Scheme::Double, "wide-double"),
];

// A server of five records of one byte at version 1.
fn server(alloc: Global, form: u8) -> Result<ServerCore<Lanes>, Fail> {
    let header = Header {
        form,
        width: 8,
        record_len: 1,
        groups: 4,
        count: 5,
        dimension: 64,
        version: 1,
        seed: [0; 32],
        publisher: [0; 32],
    };
    let snapshot = header.with_records([10u8, 20, 30, 40, 50].to_vec(alloc)?);
    Ok(ServerCore::new(alloc, Store::open(alloc, Lanes, snapshot)?))
}

// The calls below have no clause, so that the test doesn't carry theirs.

fn open_session(server: &mut ServerCore<Lanes>, id: u64) -> Result<(), SessionError> {
    server.open_session(id)
}

fn replies_to(
    alloc: Global,
    server: &mut ServerCore<Lanes>,
    id: u64,
    sent: &[u8],
) -> Result<Vec<u8>, FeedError> {
    let mut replies = Vec::new(alloc);
    match server.feed(id, sent, &mut replies) {
        Ok(()) => Ok(replies),
        Err(fault) => Err(fault),
    }
}

fn publish_edit(server: &mut ServerCore<Lanes>, bytes: &[u8]) -> Result<u64, Fail> {
    server.edit(1, bytes)?;
    Ok(server.publish()?)
}

// Feeds a run a reply in two pieces.
fn fed<R: FileSystem>(run: &mut ClientRun<'_, R>, reply: &[u8]) -> RunStep {
    let (first, rest) = reply.split_at(reply.len() / 2);
    match run.feed(first) {
        RunStep::Waits => run.feed(rest),
        step => step,
    }
}

// Plays a run to its end, and answers how often it sent something.
fn play<R: FileSystem + Abort>(
    rt: &R,
    server: &mut ServerCore<Lanes>,
    run: &mut ClientRun<'_, R>,
    id: u64,
    greeting: Vec<u8>,
) -> Result<u32, Fail> {
    open_session(server, id)?;
    let mut sent = greeting;
    for round in 1..=MOST_ROUNDS {
        let reply = replies_to(rt.alloc(), server, id, &sent)?;
        match fed(run, &reply) {
            RunStep::Sends(bytes) => sent = bytes,
            RunStep::Waits => panic!(rt; "the reply is not whole"),
            RunStep::Ends(end) => {
                assert_eq!(rt; end, RunEnd::Over);
                return Ok(round);
            }
        }
    }
    panic!(rt; "the run doesn't end");
}

// Retrieves records 1 and 4 in a run. Record 1 has this byte in this version, and so often
// something is sent.
fn check_run<R: FileSystem + Abort>(
    rt: &R,
    server: &mut ServerCore<Lanes>,
    case: (u8, Scheme, &str),
    version: u64,
    byte: u8,
    sends: u32,
) -> Result<(), Fail> {
    let (form, scheme, path) = case;
    let alloc = rt.alloc();
    let folder = Folder::open(rt, path)?;
    let seed = [byte; 32];
    let wanted = [1, 9].to_vec(alloc)?;
    let (mut run, greeting) = ClientRun::begin(alloc, folder, seed, scheme, form > 128, wanted)?;
    let id = u64::from(byte) + u64::from(sends);
    assert_eq!(rt;
        play(rt, server, &mut run, id, greeting)?,
        sends,
        "in {path}"
    );
    assert_eq!(rt; (run.seen(), run.next_number()), (Some(version), 2));
    for (index, byte) in [(1, byte), (4, 50)] {
        let got = run.take_retrieved().ok_or("no record came")?;
        assert_eq!(rt; (got.index, got.version), (index, version));
        assert_eq!(rt; got.bytes.as_slice(), [byte].as_slice());
    }
    assert!(rt; run.take_retrieved().is_none());
    Ok(())
}

// A run that fetches the hint, one that has it, and one that moves it.
fn check_runs<R: FileSystem + Abort>(
    rt: &R,
    server: &mut ServerCore<Lanes>,
    case: (u8, Scheme, &str),
) -> Result<(), Fail> {
    check_run(rt, server, case, 1, 20, 4)?;
    check_run(rt, server, case, 1, 20, 3)?;
    let published = publish_edit(server, &[77])?;
    check_run(rt, server, case, published, 77, 4)
}

// The runs of a case, over a server and a folder of their own.
fn check_case<R: FileSystem + Abort>(rt: &R, case: (u8, Scheme, &str)) -> Result<(), Fail> {
    let (form, _, _) = case;
    check_runs(rt, &mut server(rt.alloc(), form)?, case)
}

// Removes the folder of a case.
fn remove_folder<R: FileSystem>(rt: &R, path: &str) -> Result<(), Fail> {
    Folder::open(rt, path)?.forget()?;
    fs::remove_dir(rt, path)?;
    Ok(())
}

#[test]
fn records_are_retrieved_over_kept_hints(rt: HostRuntime) -> Result<(), Fail> {
    for case in CASES {
        check_case(&rt, case)?;
        let (_, _, path) = case;
        remove_folder(&rt, path)?;
    }
    Ok(())
}
