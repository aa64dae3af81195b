//! What each fault prints.
//!
//! Proved by `tests/long/run --prove`.

use super::*;

#[test]
fn each_call_fault_has_its_text(rt: HostRuntime) -> Result<(), Fail> {
    let texts = [
        (
            CallFault::NotReady,
            "there is no welcome or no hint of the last version known",
        ),
        (CallFault::Busy, "another call is outstanding"),
        (CallFault::BadIndex, "there is no such record"),
        (CallFault::SeedUsedUp, "the seed's numbers are used up"),
        (CallFault::Memory, "out of memory"),
        (CallFault::Failed, "the client had failed"),
        (CallFault::AlreadyWelcome, "the client is welcome already"),
    ];
    for (fault, text) in texts {
        let reported = format!(in rt.alloc(); "{fault}")?;
        assert_eq!(rt; reported.as_str(), text);
    }
    Ok(())
}

#[test]
fn each_client_fault_has_its_text(rt: HostRuntime) -> Result<(), Fail> {
    let texts = [
        (ClientFault::BadWelcome, "a bad welcome"),
        (ClientFault::BadReply, "a bad reply"),
        (ClientFault::Memory, "out of memory"),
        (ClientFault::Failed, "the client had failed"),
    ];
    for (fault, text) in texts {
        let reported = format!(in rt.alloc(); "{fault}")?;
        assert_eq!(rt; reported.as_str(), text);
    }
    Ok(())
}
