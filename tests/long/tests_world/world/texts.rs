//! What each fault prints.
//!
//! Proved by `tests/long/run --prove`.

use super::*;

#[test]
fn each_step_fault_has_its_text(rt: HostRuntime) -> Result<(), Fail> {
    let texts = [
        (StepFault::NoClient, "there is no such client"),
        (StepFault::Memory, "out of memory"),
        (StepFault::Broken, "the world is broken"),
    ];
    for (fault, text) in texts {
        let reported = format!(in rt.alloc(); "{fault}")?;
        assert_eq!(rt; reported.as_str(), text);
    }
    Ok(())
}
