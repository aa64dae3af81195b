//! A snapshot of a million records: written whole, and read back to its end.
//! Run by `tests/long/run --slow`.

use super::*;

const COUNT: u32 = 1_048_576;

#[test]
fn a_million_records(rt: HostRuntime) -> Result<(), Fail> {
    let header = Header {
        groups: 256,
        count: COUNT,
        ..TWO_RECORDS
    };
    let mut records = Vec::new(rt.alloc());
    for k in 0..COUNT {
        records.push((k % 251) as u8)?;
    }
    let mut writer = make_output(rt.alloc(), 100_000, usize::MAX);
    let written = write_snapshot_bytes(rt.alloc(), &header, &records, &mut writer);
    assert_eq!(rt; written, Ok(()));
    assert_eq!(rt; writer.bytes.len(), 123 + 1_048_576);
    for most in [65_536, usize::MAX] {
        let mut reader = Input {
            bytes: &writer.bytes,
            most,
            fails: false,
        };
        let snapshot = read_snapshot(rt.alloc(), &mut reader)?;
        assert_eq!(rt; snapshot.header(), header, "{most}");
        assert!(rt; snapshot.records.as_slice() == records.as_slice(), "{most}");
        assert_eq!(rt; reader.bytes.len(), 0);
    }
    Ok(())
}
