//! Proved by `tests/long/run --prove`.

use digit_pack::{DigitStore, Flat, Layout, Packed3, pack};
use lane_kernels::Lanes;
use matrix_u32::{Kernel, Matrix, Plain};
use seed_expand::{WordSource, expand};
use simple_scheme::{MaskBuffers, QueryBuffers, RecoverError, answer, query, recover, setup};
use std::process::Abort;
use std::test::Fail;

const ZERO_SEED: [u8; 32] = [0; 32];

// A client's seed.
const SEED: [u8; 32] = [7; 32];

// A store of two records, and the public matrix of the zero seed with one column.
fn two_records<S: DigitStore>(
    rt: &(impl Abort + AllocGlobal),
    layout: &Layout,
    records: &[u8],
) -> Result<(S, Matrix), Fail> {
    assert_eq!(rt; layout.count(), 2);
    assert_eq!(rt; layout.groups(), 1);
    let mut digits = S::zeros(rt.alloc(), layout.rows(), layout.cols())?;
    let len = layout.record_len();
    assert_eq!(rt; records.len(), 2 * len);
    let mut packed = vec![in rt.alloc(); 0u32; layout.digits_per_record()]?;
    for i in 0..2 {
        assert!(rt; i < layout.count());
        assert!(rt; (i + 1) * len <= records.len());
        assert_eq!(rt; packed.len(), layout.digits_per_record());
        pack(layout, &records[i * len..(i + 1) * len], &mut packed);
        let (row, col) = layout.place(i);
        for d in 0..packed.len() {
            assert!(rt; row + d < digits.rows() && col < digits.cols() && packed[d] < 1024);
            digits.set(row + d, col, packed[d]);
        }
    }
    let a1 = expand(rt.alloc(), &ZERO_SEED, 0, 0, 2, 1)?;
    Ok((digits, a1))
}

// Retrieves record i with the zero client seed, and gives back the query too.
fn retrieve<K: Kernel, S: DigitStore>(
    rt: &(impl Abort + AllocGlobal),
    kernel: K,
    layout: &Layout,
    digits: &S,
    a1: &Matrix,
    i: usize,
) -> Result<(Vec<u32>, Vec<u8>), Fail> {
    assert!(rt; digits.rows() == layout.rows() && digits.cols() == layout.cols());
    assert!(rt; a1.rows() == digits.cols() && a1.cols() == 1 && i < layout.count());
    assert!(rt; digits.rows() * a1.cols() <= 33_554_432);
    let hint = setup(rt.alloc(), kernel, digits, a1)?;
    let words = query(rt.alloc(), kernel, &ZERO_SEED, 0, a1, layout, i)?;
    assert_eq!(rt; words.len(), digits.cols());
    let answered = answer(rt.alloc(), kernel, digits, &words)?;
    assert_eq!(rt; hint.rows(), layout.rows());
    let record = recover(
        rt.alloc(),
        kernel,
        &ZERO_SEED,
        0,
        &hint,
        layout,
        i,
        &answered,
    )?;
    Ok((words, record))
}

// Both records of one byte.
fn retrieves_both<K: Kernel, S: DigitStore>(
    rt: &(impl Abort + AllocGlobal),
    kernel: K,
) -> Result<(), Fail> {
    let layout = Layout::new(8, 1, 1, 2)?;
    let (digits, a1): (S, Matrix) = two_records(rt, &layout, &[0x0a, 0xc8])?;
    let (first, record) = retrieve(rt, kernel, &layout, &digits, &a1, 0)?;
    assert_eq!(rt; record.as_slice(), [0x0a].as_slice());
    let (second, record) = retrieve(rt, kernel, &layout, &digits, &a1, 1)?;
    assert_eq!(rt; record.as_slice(), [0xc8].as_slice());
    // the two queries differ by delta at the two columns
    assert_eq!(rt; (first.len(), second.len()), (2, 2));
    assert_eq!(rt; first[0].wrapping_sub(second[0]), 16_777_216);
    assert_eq!(rt; second[1].wrapping_sub(first[1]), 16_777_216);
    Ok(())
}

#[test]
fn both_records_of_a_store_of_two(rt: HostRuntime) -> Result<(), Fail> {
    retrieves_both::<Plain, Flat>(&rt, Plain)?;
    retrieves_both::<Lanes, Packed3>(&rt, Lanes)
}

// Its hint.
fn makes_the_hint<K: Kernel, S: DigitStore>(
    rt: &(impl Abort + AllocGlobal),
    kernel: K,
) -> Result<(), Fail> {
    let layout = Layout::new(8, 1, 1, 2)?;
    let (digits, a1): (S, Matrix) = two_records(rt, &layout, &[0x0a, 0xc8])?;
    assert!(rt; digits.rows() == 1 && digits.cols() == 2 && a1.rows() == 2 && a1.cols() == 1);
    let hint = setup(rt.alloc(), kernel, &digits, &a1)?;
    assert_eq!(rt; hint.words(), [2_066_479_516].as_slice());
    Ok(())
}

#[test]
fn the_hint_of_a_store_of_two(rt: HostRuntime) -> Result<(), Fail> {
    makes_the_hint::<Plain, Flat>(&rt, Plain)?;
    makes_the_hint::<Lanes, Packed3>(&rt, Lanes)
}

// Both records of two bytes, of three digits each.
fn retrieves_long_records<K: Kernel, S: DigitStore>(
    rt: &(impl Abort + AllocGlobal),
    kernel: K,
) -> Result<(), Fail> {
    let layout = Layout::new(6, 2, 1, 2)?;
    let (digits, a1): (S, Matrix) = two_records(rt, &layout, &[0xab, 0xcd, 0x12, 0xff])?;
    let (_, record) = retrieve(rt, kernel, &layout, &digits, &a1, 0)?;
    assert_eq!(rt; record.as_slice(), [0xab, 0xcd].as_slice());
    let (_, record) = retrieve(rt, kernel, &layout, &digits, &a1, 1)?;
    assert_eq!(rt; record.as_slice(), [0x12, 0xff].as_slice());
    Ok(())
}

#[test]
fn records_of_several_digits(rt: HostRuntime) -> Result<(), Fail> {
    retrieves_long_records::<Plain, Flat>(&rt, Plain)?;
    retrieves_long_records::<Lanes, Packed3>(&rt, Lanes)
}

// Digits of a shape, those of a linear congruential generator.
fn digits_of_shape<S: DigitStore>(
    rt: &(impl Abort + AllocGlobal),
    rows: usize,
    cols: usize,
) -> Result<S, Fail> {
    let mut digits = S::zeros(rt.alloc(), rows, cols)?;
    let mut state = 1u32;
    for i in 0..rows {
        for j in 0..cols {
            state = state.wrapping_mul(1_664_525).wrapping_add(1_013_904_223);
            assert!(rt; i < digits.rows() && j < digits.cols());
            digits.set(i, j, state >> 22);
        }
    }
    Ok(digits)
}

// The hint that they have under a public matrix of two columns.
fn hint_of_shape<K: Kernel, S: DigitStore>(
    rt: &(impl Abort + AllocGlobal),
    kernel: K,
    rows: usize,
    cols: usize,
) -> Result<Matrix, Fail> {
    let digits: S = digits_of_shape(rt, rows, cols)?;
    assert!(rt; cols <= 4096);
    let a1 = expand(rt.alloc(), &ZERO_SEED, 0, 0, cols, 2)?;
    assert!(rt; a1.rows() == digits.cols() && digits.rows() <= 100 && a1.cols() == 2);
    let hint = setup(rt.alloc(), kernel, &digits, &a1)?;
    Ok(hint)
}

// 70 rows are made in two blocks.
#[test]
fn packed_and_flat_digits_have_the_same_hint(rt: HostRuntime) -> Result<(), Fail> {
    for cols in [1, 2, 3, 4, 5, 7, 4096] {
        for rows in [1, 64, 70] {
            let flat = hint_of_shape::<Plain, Flat>(&rt, Plain, rows, cols)?;
            let packed = hint_of_shape::<Lanes, Packed3>(&rt, Lanes, rows, cols)?;
            assert_eq!(rt; flat.words(), packed.words(), "{rows} rows, {cols} columns");
        }
    }
    Ok(())
}

// A public matrix whose rows are made one after another gives the query that the whole gives.
#[test]
fn a_query_under_rows_made_in_turn(rt: HostRuntime) -> Result<(), Fail> {
    let layout = Layout::new(8, 1, 3, 10)?;
    assert!(rt; layout.cols() <= 4096 && layout.count() == 10);
    let a1 = expand(rt.alloc(), &ZERO_SEED, 0, 0, layout.cols(), 5)?;
    let whole = query(rt.alloc(), Lanes, &ZERO_SEED, 3, &a1, &layout, 7)?;
    let room = QueryBuffers::new(rt.alloc(), &layout, 5)?;
    let source = WordSource::at(&ZERO_SEED, 0, 0);
    let in_turn = room.fill(Lanes, source, &ZERO_SEED, 3, 7);
    assert_eq!(rt; in_turn.as_slice(), whole.as_slice());
    Ok(())
}

// A hint of zeros leaves an answer's words as they are.
fn read(
    rt: &(impl Abort + AllocGlobal),
    answered: &[u32],
) -> Result<Result<Vec<u8>, RecoverError>, Fail> {
    let layout = Layout::new(6, 2, 1, 1)?;
    let hint = Matrix::zeros(rt.alloc(), 3, 1)?;
    assert_eq!(rt; (hint.rows(), layout.rows(), layout.count()), (3, 3, 1));
    Ok(recover(
        rt.alloc(),
        Plain,
        &ZERO_SEED,
        0,
        &hint,
        &layout,
        0,
        answered,
    ))
}

#[test]
fn answers_that_give_no_record(rt: HostRuntime) -> Result<(), Fail> {
    let words = [2_885_681_152, 3_623_878_656, 805_306_368];
    let record = read(&rt, &words)??;
    assert_eq!(rt; record.as_slice(), [0xab, 0xcd].as_slice());
    // the third word reads as 16, whose bit 4 is past the record's two bytes
    let late = read(&rt, &[2_885_681_152, 3_623_878_656, 1_073_741_824])?.err();
    assert_eq!(rt; late, Some(RecoverError::BadDigits));
    let short = read(&rt, &words[..2])?.err();
    assert_eq!(rt; short, Some(RecoverError::BadLength));
    let long = read(&rt, &[words[0], words[1], words[2], 0])?.err();
    assert_eq!(rt; long, Some(RecoverError::BadLength));
    Ok(())
}

// The queries of three retrievals, from number 3 on, made of masks and each by itself, for the
// first and the last of ten records in four columns.
fn masks_give_the_queries<K: Kernel>(
    rt: &(impl Abort + AllocGlobal),
    kernel: K,
) -> Result<(), Fail> {
    let layout = Layout::new(8, 2, 3, 10)?;
    let a1 = expand(rt.alloc(), &ZERO_SEED, 0, 0, 4, 5)?;
    let source = WordSource::at(&ZERO_SEED, 0, 0);
    let masks = MaskBuffers::new(rt.alloc(), &layout, 5, 3)?.fill(kernel, source, &SEED, 3);
    assert!(rt; layout.count() == 10 && layout.cols() == 4);
    for c in 0..3usize {
        let number = 3 + c as u64;
        for i in [0, 9] {
            assert!(rt; i < layout.count() && a1.rows() == layout.cols());
            let wanted = query(rt.alloc(), kernel, &SEED, number, &a1, &layout, i)?;
            let room = QueryBuffers::new(rt.alloc(), &layout, 5)?;
            let words = room.fill_masked(&masks, c, &SEED, number, i);
            assert_eq!(rt; words.as_slice(), wanted.as_slice());
        }
    }
    Ok(())
}

#[test]
fn queries_of_masks(rt: HostRuntime) -> Result<(), Fail> {
    masks_give_the_queries(&rt, Plain)?;
    masks_give_the_queries(&rt, Lanes)
}

#[test]
fn faults_are_printed(rt: HostRuntime) -> Result<(), Fail> {
    for (fault, text) in [
        (
            RecoverError::BadLength,
            "the answer has another number of words than the layout wants",
        ),
        (
            RecoverError::BadDigits,
            "the answer's digits set a bit past the record's last byte",
        ),
        (RecoverError::Memory, "out of memory"),
    ] {
        assert_eq!(rt; format!(in rt.alloc(); "{fault}")?.as_str(), text);
    }
    Ok(())
}
