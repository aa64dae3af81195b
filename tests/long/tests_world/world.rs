//! What the tests of the world have in common.
//!
//! Proved by `tests/long/run --prove`.

use lane_kernels::Lanes;
use matrix_u32::{Kernel, Plain};
use pir_world::{Step, StepFault, World};
use std::alloc::AllocError;
use std::process::Abort;
use std::test::Fail;
use test_support::TWO_RECORDS;
use version_store::{Header, OpenError, Snapshot};

/// More bytes than ever wait.
const ALL: usize = 1_000_000;

/// The store of this header, whose records are 0a and c8 in turn.
fn snapshot(rt: &impl AllocGlobal, header: Header) -> Result<Snapshot, AllocError> {
    let mut records = Vec::new(rt.alloc());
    for i in 0..header.count {
        records.push(if i % 2 == 0 { 0x0a } else { 0xc8 })?;
    }
    Ok(header.with_records(records))
}

/// A world with two clients, whose seeds are 32 bytes 11 and 32 bytes 22.
fn world<K: Kernel>(rt: &impl AllocGlobal, kernel: K, header: Header) -> Result<World<K>, Fail> {
    let mut seeds = Vec::new(rt.alloc());
    seeds.push([0x11; 32])?;
    seeds.push([0x22; 32])?;
    Ok(World::new(rt.alloc(), kernel, snapshot(rt, header)?, seeds)?)
}

/// Makes a step. It has no clause, so that no test carries those of all its steps.
fn go<K: Kernel>(world: &mut World<K>, step: Step) -> Result<(), Fail> {
    world.step(step)?;
    Ok(())
}

fn to_server<K: Kernel>(world: &mut World<K>, client: usize, most: usize) -> Result<(), Fail> {
    go(world, Step::ToServer { client, most })
}

fn to_client<K: Kernel>(world: &mut World<K>, client: usize, most: usize) -> Result<(), Fail> {
    go(world, Step::ToClient { client, most })
}

/// Client k's bytes to the server, and then the server's bytes to it.
fn exchange<K: Kernel>(world: &mut World<K>, client: usize) -> Result<(), Fail> {
    to_server(world, client, ALL)?;
    to_client(world, client, ALL)
}

fn greet<K: Kernel>(world: &mut World<K>, client: usize) -> Result<(), Fail> {
    go(world, Step::Hello { client })?;
    exchange(world, client)
}

/// How many outcomes there are.
fn count<K: Kernel>(world: &World<K>) -> usize {
    world.outcomes().len()
}

/// How many steps were made.
fn steps<K: Kernel>(world: &World<K>) -> usize {
    world.steps().len()
}
