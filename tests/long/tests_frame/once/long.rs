//! A load of 70,000 bytes of records, which comes in two pieces, and a query of it.

use super::*;

// Byte k of the records.
fn byte(k: usize) -> u8 {
    (k % 251) as u8
}

// 10,000 records of 7 bytes in digits of 8 bits, 100 to a column, and a query of 100 words, each of
// them 1.
fn load_and_query(alloc: Global) -> Result<Vec<u8>, AllocError> {
    let mut bytes = Vec::new(alloc);
    bytes.extend_from_slice(&[0x75, 0x11, 0x01, 0x00, 0x01, 7, 0, 100, 0, 8])?;
    for k in 0..70_000 {
        bytes.push(byte(k))?;
    }
    bytes.extend_from_slice(&[0x99, 0x01, 0, 0, 0x05, 0, 1, 0, 0, 0, 0, 0, 0, 0])?;
    for _ in 0..100 {
        bytes.extend_from_slice(&[1, 0, 0, 0])?;
    }
    Ok(bytes)
}

// The sums of the digits of each of the 700 rows.
fn answered(alloc: Global) -> Result<Vec<u8>, AllocError> {
    let mut bytes = Vec::new(alloc);
    bytes.extend_from_slice(&[0xf9, 0x0a, 0, 0, 0x85, 0, 1, 0, 0, 0, 0, 0, 0, 0])?;
    for row in 0..700 {
        let mut sum: u32 = 0;
        for column in 0..100 {
            sum = sum.wrapping_add(u32::from(byte(column * 700 + row)));
        }
        bytes.extend_from_slice(&sum.to_le_bytes())?;
    }
    Ok(bytes)
}

#[test]
fn records_of_70000_bytes(rt: HostRuntime) -> Result<(), Fail> {
    let input = load_and_query(rt.alloc())?;
    let said = answered(rt.alloc())?;
    for most in [PIECE, 4096] {
        let mut reader = Input {
            bytes: &input,
            most,
            fails: false,
        };
        let mut writer = make_output(rt.alloc(), PIECE, false)?;
        let result = once(rt.alloc(), &mut reader, &mut writer, TURNS);
        assert_eq!(rt; result, Ok(()), "{most}");
        assert!(rt; writer.bytes.as_slice() == said.as_slice(), "{most}");
    }
    Ok(())
}
