//! What each fault prints.
//!
//! Proved by `tests/long/run --prove`.

use super::*;

#[test]
fn each_open_error_has_its_text(rt: HostRuntime) -> Result<(), Fail> {
    let texts = [
        (
            OpenError::BadLayout,
            "the layout or the dimension is outside the limits",
        ),
        (OpenError::BadVersion, "there is no version 0"),
        (
            OpenError::BadRecords,
            "the records have another number of bytes, or one of them is no slot",
        ),
        (OpenError::Memory, "out of memory"),
    ];
    for (fault, text) in texts {
        let reported = format!(in rt.alloc(); "{fault}")?;
        assert_eq!(rt; reported.as_str(), text);
    }
    Ok(())
}

#[test]
fn each_edit_error_has_its_text(rt: HostRuntime) -> Result<(), Fail> {
    let texts = [
        (EditError::BadIndex, "there is no such record"),
        (
            EditError::BadLength,
            "a record can't have this number of bytes",
        ),
        (EditError::Memory, "out of memory"),
    ];
    for (fault, text) in texts {
        let reported = format!(in rt.alloc(); "{fault}")?;
        assert_eq!(rt; reported.as_str(), text);
    }
    Ok(())
}

#[test]
fn each_publish_error_has_its_text(rt: HostRuntime) -> Result<(), Fail> {
    let texts = [
        (
            PublishError::NothingToPublish,
            "nothing was edited or appended since the last publication",
        ),
        (
            PublishError::VersionsUsedUp,
            "there is no further version number",
        ),
        (PublishError::Memory, "out of memory"),
    ];
    for (fault, text) in texts {
        let reported = format!(in rt.alloc(); "{fault}")?;
        assert_eq!(rt; reported.as_str(), text);
    }
    Ok(())
}

#[test]
fn each_append_error_has_its_text(rt: HostRuntime) -> Result<(), Fail> {
    let texts = [
        (
            AppendError::BadLength,
            "a record can't have this number of bytes",
        ),
        (AppendError::Full, "there is no room for a further record"),
        (AppendError::Memory, "out of memory"),
    ];
    for (fault, text) in texts {
        let reported = format!(in rt.alloc(); "{fault}")?;
        assert_eq!(rt; reported.as_str(), text);
    }
    Ok(())
}
