//! What each fault prints.
//!
//! Proved by `tests/long/run --prove`.

use super::*;

#[test]
fn each_serve_fault_has_its_text(rt: HostRuntime) -> Result<(), Fail> {
    let texts = [
        (ServeFault::IdInUse, "there is a session of this number"),
        (ServeFault::Read, "a read failed"),
        (ServeFault::Write, "a write failed"),
        (ServeFault::Memory, "out of memory"),
        (ServeFault::TurnsUsedUp, "all turns are used up"),
    ];
    for (fault, text) in texts {
        let reported = format!(in rt.alloc(); "{fault}")?;
        assert_eq!(rt; reported.as_str(), text);
    }
    Ok(())
}

#[test]
fn each_converse_fault_has_its_text(rt: HostRuntime) -> Result<(), Fail> {
    let texts = [
        (ConverseFault::Ended, "the server ended the connection"),
        (ConverseFault::Read, "a read failed"),
        (ConverseFault::Write, "a write failed"),
        (ConverseFault::BadWelcome, "a bad welcome"),
        (ConverseFault::BadReply, "a bad reply"),
        (ConverseFault::Memory, "out of memory"),
        (ConverseFault::TurnsUsedUp, "all turns are used up"),
        (ConverseFault::Failed, "the client had failed"),
    ];
    for (fault, text) in texts {
        let reported = format!(in rt.alloc(); "{fault}")?;
        assert_eq!(rt; reported.as_str(), text);
    }
    Ok(())
}
