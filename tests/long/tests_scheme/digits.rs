//! Proved by `tests/long/run --prove`.

ghost use Rattle.std.specs.Prelude.{◌<◌};

use digit_pack::{
    BadDigits, BadSlot, DigitStore, Flat, Layout, LayoutError, Packed3, digits_of_records,
    fill_slot, join_word, nth_record, pack, pack_bytes, read_slot, split_count, split_word, unpack,
    word_digit, write_record,
};
use matrix_u32::{Kernel, MatrixError, Plain};
use std::process::Abort;
use std::test::Fail;

#[test]
fn layouts_at_their_limits(rt: HostRuntime) {
    for (width, record_len, groups, count, fault) in [
        (5, 1, 1, 1, LayoutError::BadWidth),
        (11, 0, 0, 0, LayoutError::BadWidth),
        (8, 0, 0, 0, LayoutError::BadRecord),
        (8, 0, 1, 1, LayoutError::BadRecord),
        (8, 257, 1, 1, LayoutError::BadRecord),
        (8, 1, 0, 0, LayoutError::BadGroups),
        (8, 1, 0, 1, LayoutError::BadGroups),
        (8, 256, 17, 0, LayoutError::BadGroups),
        (8, 256, 17, 1, LayoutError::BadGroups),
        (8, 1, usize::MAX, 1, LayoutError::BadGroups),
        (8, 1, 1, 0, LayoutError::BadCount),
        (8, 1, 1, 4097, LayoutError::BadCount),
        (8, 1, 4096, usize::MAX, LayoutError::BadCount),
    ] {
        let refused = Layout::new(width, record_len, groups, count).err();
        assert_eq!(rt;
            refused,
            Some(fault),
            "{width} {record_len} {groups} {count}"
        );
    }
    for (width, record_len, groups, count, rows, cols) in [
        (8, 256, 16, 1, 4096, 1),
        (8, 1, 1, 4096, 1, 4096),
        (8, 1, 4096, 4096 * 4096, 4096, 4096),
        (6, 2, 1, 1, 3, 1),
        (10, 256, 1, 3, 205, 3),
    ] {
        let Ok(layout) = Layout::new(width, record_len, groups, count) else {
            panic!(rt; "{width} {record_len} {groups} {count}");
        };
        assert_eq!(rt; (layout.rows(), layout.cols()), (rows, cols));
    }
}

#[test]
fn faults_are_printed(rt: HostRuntime) -> Result<(), Fail> {
    for (fault, text) in [
        (LayoutError::BadWidth, "a digit has 6 to 10 bits, in a wide matrix 6 to 9"),
        (LayoutError::BadRecord, "a record has 1 to 256 bytes"),
        (
            LayoutError::BadGroups,
            "a column holds at least one record and at most 4096 digits, in a wide matrix 32768",
        ),
        (
            LayoutError::BadCount,
            "there are 1 to 4096 columns of records, in a wide matrix at most 32768",
        ),
    ] {
        assert_eq!(rt; format!(in rt.alloc(); "{fault}")?.as_str(), text);
    }
    assert_eq!(rt;
        format!(in rt.alloc(); "{BadDigits}")?.as_str(),
        "the digits set a bit past the record's last byte"
    );
    Ok(())
}

#[test]
fn a_layout_reports_its_sizes_and_places(rt: HostRuntime) -> Result<(), Fail> {
    let layout = Layout::new(6, 2, 4, 10)?;
    assert_eq!(rt; layout.width(), 6);
    assert_eq!(rt; layout.record_len(), 2);
    assert_eq!(rt; layout.groups(), 4);
    assert_eq!(rt; layout.count(), 10);
    assert_eq!(rt; layout.digits_per_record(), 3);
    assert_eq!(rt; layout.rows(), 12);
    assert_eq!(rt; layout.cols(), 3);
    // record 9 is the second of the third column
    assert_eq!(rt; layout.place(9), (3, 2));
    Ok(())
}

#[test]
fn packs_records_in_digits(rt: HostRuntime) -> Result<(), Fail> {
    let narrow = Layout::new(6, 2, 1, 1)?;
    let mut digits = [7u32; 3];
    assert_eq!(rt; (narrow.record_len(), narrow.digits_per_record()), (2, 3));
    pack(&narrow, &[0xab, 0xcd], &mut digits);
    assert_eq!(rt; digits, [43, 54, 12]);

    let wide = Layout::new(10, 2, 1, 1)?;
    let mut digits = [7u32; 2];
    assert_eq!(rt; (wide.record_len(), wide.digits_per_record()), (2, 2));
    pack(&wide, &[0xff, 0x01], &mut digits);
    assert_eq!(rt; digits, [511, 0]);
    Ok(())
}

// Unpacks three digits of 6 bits, and says what became of a buffer of two bytes.
fn unpacked(rt: &impl Abort, layout: &Layout, digits: [u32; 3]) -> (bool, [u8; 2]) {
    let mut bytes = [1u8, 2];
    assert_eq!(rt;
        (
            layout.width(),
            layout.record_len(),
            layout.digits_per_record()
        ),
        (6, 2, 3)
    );
    assert!(rt; digits.iter().all(|digit| *digit < 64));
    let done = unpack(layout, &digits, &mut bytes).is_ok();
    (done, bytes)
}

#[test]
fn unpacks_or_names_bad_digits(rt: HostRuntime) -> Result<(), Fail> {
    let layout = Layout::new(6, 2, 1, 1)?;
    assert_eq!(rt; unpacked(&rt, &layout, [43, 54, 12]), (true, [0xab, 0xcd]));
    // bit 16 is past the record's two bytes
    assert_eq!(rt; unpacked(&rt, &layout, [43, 54, 16]), (false, [1, 2]));
    Ok(())
}

#[test]
fn splits_and_joins_words(rt: HostRuntime) {
    let mut digits = [0u32; 4];
    assert_eq!(rt; split_count(10), 4);
    assert_eq!(rt; split_count(8), 4);
    split_word(0xFFFF_FFFF, 10, &mut digits);
    assert_eq!(rt; digits, [1023, 1023, 1023, 3]);
    assert_eq!(rt; join_word(&digits, 10), 0xFFFF_FFFF);
    split_word(0x0102_0304, 8, &mut digits);
    assert_eq!(rt; digits, [4, 3, 2, 1]);
    assert_eq!(rt; word_digit(0x0102_0304, 8, 2), 2);
    for (w, count) in [(6, 6), (7, 5), (9, 4)] {
        assert_eq!(rt; split_count(w), count, "at {w} bits");
    }
    let mut bytes = [0u32; 2];
    pack_bytes(8, &[10, 200], &mut bytes);
    assert_eq!(rt; bytes, [10, 200]);
}

// What every store of digits does.
fn keeps_digits<S: DigitStore, K: Kernel>(
    rt: &(impl Abort + AllocGlobal),
    kernel: K,
) -> Result<(), Fail> {
    let too_large = match S::zeros(rt.alloc(), 33_554_433, 1) {
        Ok(_) => None,
        Err(fault) => Some(fault),
    };
    assert_eq!(rt; too_large, Some(MatrixError::TooLarge));
    let Ok(mut store) = S::zeros(rt.alloc(), 2, 4) else {
        return Err(Fail::from(MatrixError::Memory));
    };
    assert_eq!(rt; (store.rows(), store.cols()), (2, 4));
    assert_eq!(rt; store.get(1, 2), 0);
    store.set(1, 3, 1023);
    store.set(1, 2, 5);
    let mut row = [9u32; 4];
    for j in 0..4 {
        row[j] = store.get(1, j);
    }
    assert_eq!(rt; row, [0, 0, 5, 1023]);
    assert_eq!(rt; (store.get(0, 2), store.get(0, 3)), (0, 0));
    let mut product = [7u32; 2];
    store.mul_vec(kernel, &[1, 2, 3, 4], &mut product);
    assert_eq!(rt; product, [0, 4107]);
    Ok(())
}

// Digits of a column come back as others take their places.
fn swaps_digits<S: DigitStore>(rt: &(impl Abort + AllocGlobal)) -> Result<(), Fail> {
    let Ok(mut store) = S::zeros(rt.alloc(), 3, 4) else {
        return Err(Fail::from(MatrixError::Memory));
    };
    assert_eq!(rt; (store.rows(), store.cols()), (3, 4));
    store.set(2, 2, 5);
    let mut others = [7u32, 1023];
    store.swap_digits(1, 2, &mut others);
    assert_eq!(rt; others, [0, 5]);
    assert_eq!(rt; (store.rows(), store.cols()), (3, 4));
    let mut column = [9u32; 3];
    for i in 0..3 {
        column[i] = store.get(i, 2);
    }
    assert_eq!(rt; column, [0, 7, 1023]);
    assert_eq!(rt; (store.get(1, 1), store.get(2, 3)), (0, 0));
    Ok(())
}

#[test]
fn flat_and_packed_swap_digits(rt: HostRuntime) -> Result<(), Fail> {
    swaps_digits::<Flat>(&rt)?;
    swaps_digits::<Packed3>(&rt)
}

#[test]
fn flat_keeps_digits(rt: HostRuntime) -> Result<(), Fail> {
    keeps_digits::<Flat, Plain>(&rt, Plain)?;
    let Ok(zeros) = Flat::zeros(rt.alloc(), 1, 2) else {
        return Err(Fail::from(MatrixError::Memory));
    };
    assert_eq!(rt; (zeros.rows(), zeros.cols()), (1, 2));
    assert_eq!(rt; (zeros.get(0, 0), zeros.get(0, 1)), (0, 0));
    Ok(())
}

#[test]
fn packed_keeps_digits(rt: HostRuntime) -> Result<(), Fail> {
    keeps_digits::<Packed3, Plain>(&rt, Plain)?;
    let Ok(mut store) = Packed3::zeros(rt.alloc(), 1, 4) else {
        return Err(Fail::from(MatrixError::Memory));
    };
    assert_eq!(rt; (store.rows(), store.cols()), (1, 4));
    store.set(0, 3, 1023);
    assert_eq!(rt;
        (store.get(0, 0), store.get(0, 1), store.get(0, 2)),
        (0, 0, 0)
    );
    store.set(0, 1, 5);
    store.set(0, 2, 1);
    assert_eq!(rt; store.words(), [5 * 1024 + 1_048_576, 1023].as_slice());
    Ok(())
}

// The digits that test a shape: each differs from those beside it.
fn test_digit(i: usize, j: usize) -> u32
    ensures { result < 1024 }
{
    ((i % 5 * 211 + j % 11 * 97 + 1) % 1024) as u32
}

// A store of these digits, and its product with others of them.
fn product_of<S: DigitStore>(
    rt: &(impl Abort + AllocGlobal),
    rows: usize,
    cols: usize,
) -> Result<Vec<u32>, Fail> {
    let Ok(mut store) = S::zeros(rt.alloc(), rows, cols) else {
        return Err(Fail::from(MatrixError::Memory));
    };
    for i in 0..rows {
        for j in 0..cols {
            assert_eq!(rt; (store.rows(), store.cols()), (rows, cols));
            store.set(i, j, test_digit(i, j));
        }
    }
    let mut x = vec![in rt.alloc(); 0u32; cols]?;
    for j in 0..cols {
        x[j] = test_digit(j, 3);
    }
    let mut out = vec![in rt.alloc(); 7u32; rows]?;
    assert_eq!(rt; (store.rows(), store.cols()), (out.len(), x.len()));
    store.mul_vec(Plain, &x, &mut out);
    Ok(out)
}

#[test]
fn packed_and_flat_give_the_same_products(rt: HostRuntime) -> Result<(), Fail> {
    for cols in [1, 2, 3, 4, 5, 7, 24, 25, 4096] {
        for rows in [1, 2, 5, 7, 8, 9, 19] {
            let flat = product_of::<Flat>(&rt, rows, cols)?;
            let packed = product_of::<Packed3>(&rt, rows, cols)?;
            assert_eq!(rt;
                flat.as_slice(),
                packed.as_slice(),
                "{rows} rows, {cols} columns"
            );
        }
    }
    Ok(())
}

// Puts the test digits of three rows into the columns from one on.
fn put_digits<S: DigitStore>(rt: &impl Abort, store: &mut S, from: usize, cols: usize) {
    for i in 0..3 {
        for j in from..cols {
            assert_eq!(rt; (store.rows(), store.cols()), (3, cols));
            store.set(i, j, test_digit(i, j));
        }
    }
}

// Three rows have the test digits in the columns before one, and 0 from it on.
fn has_digits_before<S: DigitStore>(rt: &impl Abort, store: &S, end: usize) {
    assert_eq!(rt; store.rows(), 3);
    for i in 0..3 {
        for j in 0..store.cols() {
            let wanted = if j < end { test_digit(i, j) } else { 0 };
            assert_eq!(rt; store.get(i, j), wanted, "row {i}, column {j}");
        }
    }
}

// What every store does as it grows: within a word and beyond it, by no column, and by too many.
fn grows_by_zeros<S: DigitStore>(rt: &(impl Abort + AllocGlobal)) -> Result<(), Fail> {
    let Ok(mut store) = S::zeros(rt.alloc(), 3, 3) else {
        return Err(Fail::from(MatrixError::Memory));
    };
    put_digits(rt, &mut store, 0, 3);
    for cols in [3, 4, 4, 6, 7, 20] {
        let from = store.cols();
        assert!(rt; from <= cols);
        assert_eq!(rt; store.grow(cols), Ok(()));
        assert_eq!(rt; store.cols(), cols);
        has_digits_before(rt, &store, from);
        put_digits(rt, &mut store, from, cols);
    }
    assert_eq!(rt; store.cols(), 20);
    assert_eq!(rt; store.grow(11_184_811), Err(MatrixError::TooLarge));
    assert_eq!(rt; store.cols(), 20);
    has_digits_before(rt, &store, 20);
    Ok(())
}

#[test]
fn flat_grows_by_zeros(rt: HostRuntime) -> Result<(), Fail> {
    grows_by_zeros::<Flat>(&rt)?;
    let Ok(mut store) = Flat::zeros(rt.alloc(), 2, 1) else {
        return Err(Fail::from(MatrixError::Memory));
    };
    assert_eq!(rt; (store.rows(), store.cols()), (2, 1));
    store.set(1, 0, 5);
    assert_eq!(rt; store.cols(), 1);
    assert_eq!(rt; store.grow(16_777_217), Err(MatrixError::TooLarge));
    assert_eq!(rt; (store.rows(), store.cols()), (2, 1));
    assert_eq!(rt; (store.get(0, 0), store.get(1, 0)), (0, 5));
    Ok(())
}

#[test]
fn packed_grows_by_zeros(rt: HostRuntime) -> Result<(), Fail> {
    grows_by_zeros::<Packed3>(&rt)
}

#[test]
fn stores_without_rows_and_of_one_record(rt: HostRuntime) -> Result<(), Fail> {
    let Ok(none) = Flat::zeros(rt.alloc(), 0, 5) else {
        return Err(Fail::from(MatrixError::Memory));
    };
    assert_eq!(rt; (none.rows(), none.cols()), (0, 5));
    let layout = Layout::new(8, 2, 1, 1)?;
    assert_eq!(rt; (layout.count(), layout.record_len()), (1, 2));
    let one: Flat = digits_of_records(rt.alloc(), &layout, &[0xab, 0xcd])?;
    assert_eq!(rt; (one.rows(), one.cols()), (2, 1));
    assert_eq!(rt; (one.get(0, 0), one.get(1, 0)), (0xab, 0xcd));
    Ok(())
}

#[test]
fn records_stand_in_their_columns(rt: HostRuntime) -> Result<(), Fail> {
    // five records of two bytes, two to a column, in digits of 8 bits: one byte a digit
    let layout = Layout::new(8, 2, 2, 5)?;
    let mut bytes = [1u8, 2, 3, 4, 5, 6, 7, 8, 9, 10];
    assert_eq!(rt; (layout.count(), layout.record_len()), (5, 2));
    let digits: Flat = digits_of_records(rt.alloc(), &layout, &bytes)?;
    assert_eq!(rt; (digits.rows(), digits.cols()), (4, 3));
    for (row, col, digit) in [
        (0, 0, 1),
        (1, 0, 2),
        (3, 0, 4),
        (2, 1, 7),
        (0, 2, 9),
        (1, 2, 10),
        (2, 2, 0),
    ] {
        assert_eq!(rt; digits.get(row, col), digit, "row {row}, column {col}");
    }
    write_record(&layout, &mut bytes, 3, &[70, 80]);
    assert_eq!(rt; nth_record(&layout, &bytes, 3), [70, 80].as_slice());
    assert_eq!(rt; bytes, [1, 2, 3, 4, 5, 6, 70, 80, 9, 10]);
    Ok(())
}

#[test]
fn slots_hold_records_of_their_own_lengths(rt: HostRuntime) {
    let mut slot = [7; 5];
    fill_slot(&[1, 2, 3], &mut slot);
    assert_eq!(rt; slot, [3, 0, 1, 2, 3]);
    assert_eq!(rt; read_slot(&slot), Ok(3));
    fill_slot(&[9], &mut slot);
    assert_eq!(rt; slot, [1, 0, 9, 0, 0]);
    assert_eq!(rt; read_slot(&slot), Ok(1));
    fill_slot(&[], &mut slot);
    assert_eq!(rt; slot, [0; 5]);
    assert_eq!(rt; read_slot(&slot), Ok(0));
}

#[test]
fn what_no_record_fills_is_no_slot(rt: HostRuntime) {
    let bad: [&[u8]; 7] = [
        &[],
        &[0],
        &[1, 0],
        &[2, 0, 10],
        &[0, 0, 10],
        &[0, 1, 0, 0, 0],
        &[1, 0, 10, 0, 1],
    ];
    for slot in bad {
        assert_eq!(rt; read_slot(slot), Err(BadSlot));
    }
    assert_eq!(rt; read_slot(&[0, 0]), Ok(0));
    assert_eq!(rt; read_slot(&[1, 0, 10]), Ok(1));
}

// The longest record that a slot of 256 bytes holds has 254.
#[test]
fn the_longest_slot(rt: HostRuntime) {
    let mut slot = [1; 256];
    fill_slot(&[5; 254], &mut slot);
    assert_eq!(rt; read_slot(&slot), Ok(254));
    assert_eq!(rt; &slot[..2], [254, 0].as_slice());
    assert_eq!(rt; slot[255], 5);
    slot[0] = 255;
    assert_eq!(rt; read_slot(&slot), Err(BadSlot));
    slot[0] = 253;
    assert_eq!(rt; read_slot(&slot), Err(BadSlot));
}
