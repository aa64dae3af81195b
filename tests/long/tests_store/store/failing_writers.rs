//! Writers that fail at each byte of a snapshot.

use super::stores::*;
use super::*;
use test_support::Output;
use version_store::WriteFault;

#[test]
fn a_writer_that_fails_at_each_byte(rt: HostRuntime) -> Result<(), Fail> {
    let store = two_records(rt.alloc(), Plain, 1)?;
    let mut whole = Vec::with_capacity(rt.alloc(), 125)?;
    assert_eq!(rt; write_snapshot(rt.alloc(), &store, &mut whole), Ok(()));
    for room in 0..125 {
        let mut writer = Output {
            bytes: Vec::with_capacity(rt.alloc(), 125)?,
            most: usize::MAX,
            room,
            fails: true,
        };
        let written = write_snapshot(rt.alloc(), &store, &mut writer);
        assert_eq!(rt; written, Err(WriteFault::Write), "{room}");
        assert_eq!(rt; Some(writer.bytes.as_slice()), whole.get(..room), "{room}");
        reports_all(&rt, &store);
    }
    Ok(())
}
