//! Records of several digits, and answers that give no record.

use super::*;
use digit_pack::split_count;
use double_scheme::RecoverError;

fn retrieves_long_records<K: Kernel, S: DigitStore + Drop>(
    rt: &(impl Abort + AllocGlobal),
    kernel: K,
) -> Result<(), Fail> {
    let layout = Layout::new(6, 2, 2, 3)?;
    let records = [0xab, 0xcd, 0x12, 0xff, 0x34, 0x56];
    let first = from_zero_seed::<K, S>(rt, kernel, &layout, &records, 2, 0, 0)?;
    assert_eq!(rt; first.record.as_slice(), [0xab, 0xcd].as_slice());
    assert_eq!(rt; (first.words.len(), first.answered.len()), (20, 66));
    let second = from_zero_seed::<K, S>(rt, kernel, &layout, &records, 2, 0, 1)?;
    assert_eq!(rt; second.record.as_slice(), [0x12, 0xff].as_slice());
    let third = from_zero_seed::<K, S>(rt, kernel, &layout, &records, 2, 5, 2)?;
    assert_eq!(rt; third.record.as_slice(), [0x34, 0x56].as_slice());
    Ok(())
}

#[test]
fn records_of_several_digits(rt: HostRuntime) -> Result<(), Fail> {
    retrieves_long_records::<Plain, Flat>(&rt, Plain)?;
    retrieves_long_records::<Lanes, Packed3>(&rt, Lanes)
}

// What words read as under a hint of zeros, where a word stands for its nearest digit: six words of
// h, then for each of three digits six words for a row and six that write the digit times 2^26.
// Only bits 24 and up of each digit are given, as two digits of 6 bits.
fn read(
    rt: &(impl Abort + AllocGlobal),
    tops: &[[u32; 2]],
    count: usize,
) -> Result<Result<Vec<u8>, RecoverError>, Fail> {
    let layout = Layout::new(6, 2, 1, 1)?;
    let mut words = vec![in rt.alloc(); 0; count]?;
    for d in 0..tops.len() {
        assert!(rt; d < 3);
        for t in 0..2 {
            let place = 12 * d + 16 + t;
            if place < words.len() {
                words[place] = tops[d][t] << 26;
            }
        }
    }
    let hint = Matrix::zeros(rt.alloc(), split_count(6), 1)?;
    assert_eq!(rt; (layout.width(), layout.count()), (6, 1));
    Ok(recover(rt.alloc(), Plain, &ZERO_SEED, 0, &hint, &layout, 0, &words))
}

#[test]
fn answers_that_give_no_record(rt: HostRuntime) -> Result<(), Fail> {
    // 43, 54 and 12: their low four bits times 4, and their high two bits
    let record = read(&rt, &[[44, 2], [24, 3], [48, 0]], 42)??;
    assert_eq!(rt; record.as_slice(), [0xab, 0xcd].as_slice());
    // the third digit is 16, whose bit 4 is past the record's two bytes
    let late = read(&rt, &[[44, 2], [24, 3], [0, 1]], 42)?.err();
    assert_eq!(rt; late, Some(RecoverError::BadDigits));
    let short = read(&rt, &[[44, 2], [24, 3], [48, 0]], 41)?.err();
    assert_eq!(rt; short, Some(RecoverError::BadLength));
    let long = read(&rt, &[[44, 2], [24, 3], [48, 0]], 43)?.err();
    assert_eq!(rt; long, Some(RecoverError::BadLength));
    Ok(())
}
