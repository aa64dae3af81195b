//! What each fault prints.
//!
//! Proved by `tests/long/run --prove`.

use super::*;

#[test]
fn each_open_error_has_its_text(rt: HostRuntime) -> Result<(), Fail> {
    let texts = [
        (SessionError::IdInUse, "there is a session of this number"),
        (SessionError::Memory, "out of memory"),
    ];
    for (fault, text) in texts {
        let reported = format!(in rt.alloc(); "{fault}")?;
        assert_eq!(rt; reported.as_str(), text);
    }
    Ok(())
}

#[test]
fn each_feed_error_has_its_text(rt: HostRuntime) -> Result<(), Fail> {
    let texts = [
        (FeedError::NoSession, "there is no session of this number"),
        (FeedError::Memory, "out of memory"),
    ];
    for (fault, text) in texts {
        let reported = format!(in rt.alloc(); "{fault}")?;
        assert_eq!(rt; reported.as_str(), text);
    }
    Ok(())
}
