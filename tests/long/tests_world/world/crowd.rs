//! Many clients of one world.

use super::scripts::*;
use super::*;
use client_core::Scheme;

/// How many clients there are.
const CLIENTS: usize = 300;

/// A world with this many clients, each of a seed of its own.
fn crowd<K: Kernel>(rt: &impl AllocGlobal, kernel: K) -> Result<World<K>, Fail> {
    let mut seeds = Vec::new(rt.alloc());
    for client in 0..CLIENTS {
        let mut seed = [0x11; 32];
        seed[0] = (client % 256) as u8;
        seed[1] = (client / 256 % 256) as u8;
        seeds.push(seed)?;
    }
    Ok(World::new(rt.alloc(), kernel, snapshot(rt, TWO_RECORDS)?, seeds)?)
}

/// All say hello, before the first greeting comes to the server. They are welcomed from the last
/// on.
fn all_greet<K: Kernel>(world: &mut World<K>) -> Result<(), Fail> {
    for client in 0..CLIENTS {
        go(world, Step::Hello { client })?;
    }
    for i in 0..CLIENTS {
        exchange(world, CLIENTS - 1 - i)?;
    }
    Ok(())
}

/// The first, the last and one between retrieve, in both schemes.
fn some_retrieve<K: Kernel>(world: &mut World<K>) -> Result<(), Fail> {
    retrieve(world, 299, Scheme::Simple, 1)?;
    retrieve(world, 0, Scheme::Double, 1)?;
    retrieve(world, 150, Scheme::Simple, 0)
}

/// The welcomes of all, from the last client on.
fn welcomes(rt: &impl AllocGlobal) -> Result<String, Fail> {
    let mut text = String::new(rt.alloc());
    for i in 0..CLIENTS {
        let client = CLIENTS - 1 - i;
        text.push_str(&format!(in rt.alloc(); "{client} welcomed 1;")?)?;
    }
    Ok(text)
}

fn greet_and_retrieve<K: Kernel>(
    rt: &(impl Abort + AllocGlobal),
    world: &mut World<K>,
) -> Result<(), Fail> {
    all_greet(world)?;
    some_retrieve(world)?;
    let mut text = welcomes(rt)?;
    text.push_str(
        "299 simple 1;299 retrieved 1 1 c8;0 double 1;0 retrieved 1 1 c8;150 simple 1;150 retrieved 0 1 a;",
    )?;
    assert_eq!(rt; reported(rt, world)?.as_str(), text.as_str());
    Ok(())
}

#[test]
fn three_hundred_clients(rt: HostRuntime) -> Result<(), Fail> {
    greet_and_retrieve(&rt, &mut crowd(&rt, Lanes)?)
}
