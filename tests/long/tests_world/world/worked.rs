//! The worked examples.
//!
//! Proved by `tests/long/run --prove`.

use super::*;

fn is_let_in<K: Kernel>(rt: &impl Abort, world: &mut World<K>) -> Result<(), Fail> {
    greet(world, 0)?;
    assert_eq!(rt; count(world), 1);
    assert_eq!(rt; steps(world), 3);
    Ok(())
}

#[test]
fn a_client_is_let_in(rt: HostRuntime) -> Result<(), Fail> {
    is_let_in(&rt, &mut world(&rt, Plain, TWO_RECORDS)?)?;
    is_let_in(&rt, &mut world(&rt, Lanes, TWO_RECORDS)?)
}

#[test]
fn refused_worlds(rt: HostRuntime) -> Result<(), Fail> {
    for (header, fault) in [
        (
            Header {
                dimension: 1025,
                ..TWO_RECORDS
            },
            OpenError::BadLayout,
        ),
        (
            Header {
                version: 0,
                ..TWO_RECORDS
            },
            OpenError::BadVersion,
        ),
    ] {
        let opened = World::new(
            rt.alloc(),
            Plain,
            snapshot(&rt, header)?,
            Vec::new(rt.alloc()),
        );
        assert!(rt; opened.err() == Some(fault));
    }
    Ok(())
}
