//! Proved by `tests/long/run --prove`.

ghost use Rattle.std.specs.Prelude.{◌≡◌, length, IfOk};

use lane_kernels::{Lanes, packed_mul_vec, split_row};
use matrix_u32::{Kernel, Matrix, Plain};
use std::alloc::{AllocError, Global};
use std::process::Abort;
use std::test::Fail;

// The dot product of the first words of a list with themselves.
fn dots_count<K: Kernel>(kernel: K, rt: &impl Abort, ones: &[u32]) {
    for count in [0usize, 1, 3, 4, 5, 7, 8, 9, 15, 16, 17, 31, 33, 1024] {
        let x = ones.get(..count).unwrap_or(&[]);
        assert_eq!(rt; x.len(), count);
        let want = u32::try_from(count).unwrap_or(0);
        assert_eq!(rt; kernel.dot(x, x), want, "of {count} words");
    }
}

#[test]
fn dots_of_the_largest_word(rt: HostRuntime) -> Result<(), Fail> {
    let ones = vec![in rt.alloc(); u32::MAX; 1024]?;
    dots_count(Plain, &rt, ones.as_slice());
    dots_count(Lanes, &rt, ones.as_slice());
    Ok(())
}

// The calls of a kernel on the worked example of one encryption: a digit row (10, 200) under
// A = (3), (5) with secret 7.
fn encrypts<K: Kernel>(kernel: K, rt: &impl Abort, a: &Matrix, digits: &Matrix, hint: &mut Matrix)
    requires a_rows { a.now.rows ≡ 2 }
    requires a_cols { a.now.cols ≡ 1 }
    requires digit_rows { digits.now.rows ≡ 1 }
    requires digit_cols { digits.now.cols ≡ 2 }
    requires hint_rows { hint.old.rows ≡ 1 }
    requires hint_cols { hint.old.cols ≡ 1 }
{
    kernel.mul_into(digits, a, hint);
    assert_eq!(rt; hint.get(0, 0), 1030);

    let mut answer = [9u32];
    kernel.mul_vec(digits, &[22, 16_777_249], &mut answer);
    assert_eq!(rt; answer[0], 3_355_450_020);
    assert_eq!(rt; kernel.dot(&[1030], &[7]), 7210);

    let mut row = [1u32, u32::MAX];
    kernel.add_scaled(&mut row, &[2, 3], 5);
    assert_eq!(rt; row[0], 11);
    assert_eq!(rt; row[1], 14);

    let mut sum = [7u32];
    kernel.add_rows(&mut sum, &[2, u32::MAX], a, 0);
    assert_eq!(rt; sum[0], 8);
}

#[test]
fn one_encryption(rt: HostRuntime) -> Result<(), Fail> {
    let a = Matrix::from_words(2, 1, vec![in rt.alloc(); 3u32, 5]?)?;
    let digits = Matrix::from_words(1, 2, vec![in rt.alloc(); 10u32, 200]?)?;
    let mut hint = Matrix::from_words(1, 1, vec![in rt.alloc(); 77u32]?)?;
    encrypts(Plain, &rt, &a, &digits, &mut hint);
    let mut hint = Matrix::from_words(1, 1, vec![in rt.alloc(); 77u32]?)?;
    encrypts(Lanes, &rt, &a, &digits, &mut hint);
    Ok(())
}

// Words of a linear congruential generator.
fn words(alloc: Global, count: usize, seed: u32) -> Result<Vec<u32>, AllocError>
    ensures { IfOk result (λ words. length words.items ≡ count) }
{
    let mut words = Vec::from_elem(alloc, 0u32, count)?;
    let mut state = seed;
    for word in words.iter_mut() {
        state = state.wrapping_mul(1_664_525).wrapping_add(1_013_904_223);
        *word = state;
    }
    Ok(words)
}

// A row of `rows` words, the product of a matrix of `rows` rows and `inner` columns with one of
// `cols` columns, and a list to which the row of `inner` words was added, by one kernel.
fn made_by<K: Kernel>(
    kernel: K,
    alloc: Global,
    rows: usize,
    inner: usize,
    cols: usize,
) -> Result<(Vec<u32>, Matrix, Vec<u32>), Fail> {
    let a = Matrix::from_words(rows, inner, words(alloc, rows.saturating_mul(inner), 1)?)?;
    let b = Matrix::from_words(inner, cols, words(alloc, inner.saturating_mul(cols), 2)?)?;
    let x = words(alloc, inner, 3)?;
    let mut product = words(alloc, rows, 4)?;
    kernel.mul_vec(&a, x.as_slice(), product.as_mut_slice());
    let mut whole = Matrix::from_words(rows, cols, words(alloc, rows.saturating_mul(cols), 5)?)?;
    kernel.mul_into(&a, &b, &mut whole);
    let mut sum = words(alloc, inner, 6)?;
    kernel.add_scaled(sum.as_mut_slice(), x.as_slice(), 0xdead_beef);
    Ok((product, whole, sum))
}

#[test]
fn kernels_agree(rt: HostRuntime) -> Result<(), Fail> {
    for (rows, inner, cols) in [
        (5usize, 19usize, 3usize),
        (7, 33, 18),
        (4, 8, 16),
        (1, 1, 1),
        (3, 130, 35),
        (65, 131, 2),
        (2, 0, 4),
        (0, 3, 0),
    ] {
        let plain = made_by(Plain, rt.alloc(), rows, inner, cols)?;
        let lanes = made_by(Lanes, rt.alloc(), rows, inner, cols)?;
        assert_eq!(rt;
            plain.0.as_slice(),
            lanes.0.as_slice(),
            "at {rows} x {inner}"
        );
        assert_eq!(rt;
            plain.1.words(),
            lanes.1.words(),
            "at {rows} x {inner} x {cols}"
        );
        assert_eq!(rt; plain.2.as_slice(), lanes.2.as_slice(), "at {inner}");
    }
    Ok(())
}

#[test]
fn packed_row_of_seven_columns(rt: HostRuntime) {
    let row = [0x3fff_ffff_u32, 0x3fff_ffff, 0x3ff];
    let mut out = [5u32];
    packed_mul_vec(&row, 7, &[1, 2, 3, 4, 5, 6, 7], &mut out);
    assert_eq!(rt; out, [28_644]);
}

#[test]
fn packed_digits_agree_with_flat_ones(rt: HostRuntime) {
    // Five rows of two words, of which the last three digits of each row stand past its four
    // columns.
    let packed = [
        1u32, 2, 1024, 1023, 1_048_576, 0, 1_049_601, 7, 3_148_803, 1,
    ];
    let x = [10u32, 100, 1000, 4_294_967_295];
    let mut out = [0u32; 5];
    packed_mul_vec(&packed, 4, &x, &mut out);
    assert_eq!(rt; out, [8, 4_294_966_373, 1000, 1103, 3329]);
}

#[test]
#[tactic(auto, unfolding(lane_kernels::specs::Digit::split_count))]
fn splits_words(rt: HostRuntime) {
    let words = [0xffff_ffff_u32, 0x0102_0304];
    let mut out = [9u32; 2];
    split_row(&words, 8, 0, &mut out);
    assert_eq!(rt; out, [255, 4]);
    split_row(&words, 8, 3, &mut out);
    assert_eq!(rt; out, [255, 1]);
    split_row(&words, 10, 3, &mut out);
    assert_eq!(rt; out, [3, 0]);
}
