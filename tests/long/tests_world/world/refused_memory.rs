//! Memory that is refused once to a world: the step that reports it has added no outcome, and no
//! later step is made; a client that was refused by the server alone makes its calls again. With
//! ample memory none is refused here; `tests/memory/run --all` refuses each request of this test in
//! turn.
//!
//! Proved by `tests/long/run --prove`.

use super::*;
use client_core::{Event, Scheme};
use pir_world::Outcome;

const CLIENT: usize = 0;

// A retrieval of record 1, with each frame delivered whole.
const RETRIEVAL: [Step; 9] = [
    Step::Hello { client: CLIENT },
    Step::ToServer {
        client: CLIENT,
        most: ALL,
    },
    Step::ToClient {
        client: CLIENT,
        most: ALL,
    },
    Step::Sync {
        client: CLIENT,
        scheme: Scheme::Simple,
    },
    Step::ToServer {
        client: CLIENT,
        most: ALL,
    },
    Step::ToClient {
        client: CLIENT,
        most: ALL,
    },
    Step::Ask {
        client: CLIENT,
        index: 1,
    },
    Step::ToServer {
        client: CLIENT,
        most: ALL,
    },
    Step::ToClient {
        client: CLIENT,
        most: ALL,
    },
];

// Makes a step. Answers whether it was made: where memory was refused, outcomes and steps are as
// they were, and no later step is made.
fn is_made<K: Kernel>(rt: &impl Abort, world: &mut World<K>, step: Step) -> bool {
    let (outcomes, made) = (count(world), steps(world));
    let Err(fault) = world.step(step) else {
        return true;
    };
    assert_eq!(rt; fault, StepFault::Memory);
    assert_eq!(rt; world.step(Step::Publish), Err(StepFault::Broken));
    assert_eq!(rt; count(world), outcomes);
    assert_eq!(rt; steps(world), made);
    false
}

// Makes the steps of a retrieval, as far as memory goes.
fn are_made<K: Kernel>(rt: &impl Abort, world: &mut World<K>) -> bool {
    for step in RETRIEVAL {
        if !is_made(rt, world, step) {
            return false;
        }
    }
    true
}

// Whether the last outcome is record 1 of version 1.
fn ends_retrieved<K: Kernel>(world: &World<K>) -> bool {
    match world.outcomes().last() {
        Some(
            Outcome::Reported {
                client: CLIENT,
                event: Event::Retrieved {
                    index,
                    version,
                    bytes,
                },
            },
        ) => *index == 1 && *version == 1 && bytes.as_slice() == [0xc8].as_slice(),
        _ => false,
    }
}

fn try_world<K: Kernel>(rt: &impl AllocGlobal, kernel: K) -> Option<World<K>> {
    let mut seeds = Vec::new(rt.alloc());
    seeds.push([0x11; 32]).ok()?;
    World::new(rt.alloc(), kernel, snapshot(rt, TWO_RECORDS).ok()?, seeds).ok()
}

// A world of two records, made again where memory was refused.
fn started<K: Kernel>(rt: &impl AllocGlobal, kernel: K) -> Result<World<K>, Fail> {
    match try_world(rt, kernel) {
        Some(made) => Ok(made),
        None => world(rt, kernel, TWO_RECORDS),
    }
}

// Retrieves a record in a world that may go on: again if the server was refused memory.
fn ends_in<K: Kernel>(rt: &impl Abort, world: &mut World<K>) {
    if !ends_retrieved(world) {
        assert!(rt; are_made(rt, world));
        assert!(rt; ends_retrieved(world));
    }
}

// The same, as far as memory goes. Answers whether the world may go on.
fn begins_in<K: Kernel>(rt: &impl Abort, world: &mut World<K>) -> bool {
    if !are_made(rt, world) {
        return false;
    }
    ends_in(rt, world);
    true
}

// Retrieves a record, in a new world if the first one may not go on. What is dropped on the way out
// of a function is proved for each way, so each one owns one world at most.
fn retrieves<K: Kernel>(rt: &(impl Abort + AllocGlobal), kernel: K) -> Result<(), Fail> {
    if begins_in(rt, &mut started(rt, kernel)?) {
        return Ok(());
    }
    assert!(rt; begins_in(rt, &mut started(rt, kernel)?));
    Ok(())
}

#[test]
fn a_refused_retrieval_is_made_later(rt: HostRuntime) -> Result<(), Fail> {
    retrieves(&rt, Plain)?;
    retrieves(&rt, Lanes)
}
