//! Proved by `tests/long/run --prove`.

use hint_update::DeltaLog;
use std::process::Abort;
use std::test::Fail;

// A log that begins with version 1, after publications that changed these rows.
fn log_of(rt: &(impl Abort + AllocGlobal), publications: &[&[u32]]) -> Result<DeltaLog, Fail> {
    let mut log = DeltaLog::new(rt.alloc(), 1)?;
    for rows in publications {
        assert!(rt; log.version() < u64::MAX);
        log.add(rows.to_vec(rt.alloc())?);
    }
    Ok(log)
}

// The rows since a version are these.
fn gives(
    rt: &impl Abort,
    log: &DeltaLog,
    version: u64,
    expected: Option<&[u32]>,
) -> Result<(), Fail> {
    let found = log.rows_since(version)?;
    assert_eq!(rt; found.as_deref(), expected);
    Ok(())
}

#[test]
fn a_new_log_knows_its_version_alone(rt: HostRuntime) -> Result<(), Fail> {
    let log = log_of(&rt, &[])?;
    gives(&rt, &log, 1, Some(&[]))?;
    gives(&rt, &log, 0, None)?;
    gives(&rt, &log, 2, None)
}

#[test]
fn rows_are_ascending_and_each_once(rt: HostRuntime) -> Result<(), Fail> {
    let log = log_of(&rt, &[&[5, 7], &[], &[7, 3]])?;
    assert_eq!(rt; log.version(), 4);
    gives(&rt, &log, 1, Some(&[3, 5, 7]))?;
    gives(&rt, &log, 2, Some(&[3, 7]))?;
    gives(&rt, &log, 4, Some(&[]))
}

#[test]
fn sixteen_publications_are_kept(rt: HostRuntime) -> Result<(), Fail> {
    let rows: &[u32] = &[0];
    let mut log = log_of(&rt, &[rows; 16])?;
    gives(&rt, &log, 1, Some(rows))?;
    assert!(rt; log.version() < 18);
    log.add(Vec::new(rt.alloc()));
    gives(&rt, &log, 1, None)?;
    gives(&rt, &log, 2, Some(rows))?;
    gives(&rt, &log, 17, Some(&[]))
}
