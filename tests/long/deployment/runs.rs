//! The simulation, for a fixed number of steps. Without proofs it makes some hundred to thousand a
//! second; `scripts/simulate` builds the program, which makes many more.

use crate::command_line::{Plan, plan_of};
use crate::simulating::{Ended, Run, perform, run_all};
use crate::world::Counts;
use std::test::Fail;

// What a command line of the program asks for.
fn plan(rt: &HostRuntime, seeds: &[&str], sizes: &[&str]) -> Result<Plan, Fail> {
    let mut given = Vec::new(rt.alloc());
    for word in ["deployment"].iter().chain(seeds).chain(sizes) {
        given.push(String::from_str(rt.alloc(), word)?)?;
    }
    match plan_of(rt.alloc(), &given) {
        Ok(plan) => Ok(plan),
        Err(bad) => {
            bad.report(rt);
            Err(Fail::new("the words are no command line"))
        }
    }
}

// Whether no run of a command line finds anything. What one finds is printed.
fn find_nothing(rt: &HostRuntime, seeds: &[&str], sizes: &[&str]) -> Result<bool, Fail> {
    Ok(run_all(rt, &plan(rt, seeds, sizes)?)?)
}

// What comes of one run of the usual size.
fn ended(rt: &HostRuntime, seeds: &[&str]) -> Result<Ended, Fail> {
    let Plan {
        seed,
        steps,
        sizes,
        troubles,
        ..
    } = plan(rt, seeds, &[])?;
    let run = Run {
        seed,
        steps,
        sizes,
        troubles,
    };
    Ok(perform(rt.alloc(), &run)?)
}

#[test]
fn three_servers_and_eight_clients(rt: HostRuntime) -> Result<(), Fail> {
    let seeds = ["--seed", "1", "--steps", "10000"];
    assert!(rt; find_nothing(&rt, &seeds, &[])?);
    Ok(())
}

#[test]
fn two_servers_and_four_clients(rt: HostRuntime) -> Result<(), Fail> {
    let seeds = ["--seed", "20000", "--steps", "2500"];
    assert!(rt; find_nothing(&rt, &seeds, &["--servers", "2", "--clients", "4"])?);
    Ok(())
}

#[test]
fn five_servers_and_twelve_clients(rt: HostRuntime) -> Result<(), Fail> {
    let seeds = ["--seed", "40000", "--steps", "2500"];
    assert!(rt; find_nothing(&rt, &seeds, &["--servers", "5", "--clients", "12"])?);
    Ok(())
}

#[test]
fn a_seed_decides_each_step(rt: HostRuntime) -> Result<(), Fail> {
    let seeds = ["--seed", "7", "--steps", "2000"];
    let once = ended(&rt, &seeds)?;
    let again = ended(&rt, &seeds)?;
    assert!(rt; once.broken.is_none() && again.broken.is_none());
    assert_eq!(rt; once.steps, again.steps);
    assert_eq!(rt; once.counts, again.counts);
    assert_eq!(rt; once.events.as_slice(), again.events.as_slice());
    Ok(())
}

// What crates/deployment/stdout says of the words in crates/deployment/args.
#[test]
fn the_stored_run_is_what_it_was(rt: HostRuntime) -> Result<(), Fail> {
    let stored = ended(&rt, &["--seed", "1", "--steps", "2000"])?;
    assert!(rt; stored.broken.is_none());
    assert_eq!(rt; stored.steps, 5619);
    let counts = Counts {
        retrieved: 70,
        published: 11,
        rounds: 3,
        pushed: 6,
        left: 0,
        started: 3,
        power_cuts: 1,
        compared: 10,
    };
    assert_eq!(rt; stored.counts, counts);
    Ok(())
}
