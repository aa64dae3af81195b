//! Products without lanes, and the scale of a digit.
//!
//! Proved by `tests/long/run --prove`.

use matrix_u32::{Kernel, Matrix, Plain};
use regev_core::delta;
use std::process::Abort;
use std::test::Fail;

// The calls of a kernel on the worked example of one encryption: a digit row (10, 200) under
// A = (3), (5) with secret 7.
fn products_agree<K: Kernel>(
    kernel: K,
    rt: &impl Abort,
    a: &Matrix,
    digits: &Matrix,
    hint: &mut Matrix,
) {
    assert_eq!(rt; digits.rows(), 1);
    assert_eq!(rt; digits.cols(), 2);
    assert_eq!(rt; a.rows(), 2);
    assert_eq!(rt; a.cols(), 1);
    assert_eq!(rt; hint.rows(), 1);
    assert_eq!(rt; hint.cols(), 1);
    kernel.mul_into(digits, a, hint);
    assert_eq!(rt; hint.get(0, 0), 1030);

    let mut answer = [9u32];
    kernel.mul_vec(digits, &[22, 16_777_249], &mut answer);
    assert_eq!(rt; answer[0], 3_355_450_020);
    assert_eq!(rt; kernel.dot(&[1030], &[7]), 7210);
    assert_eq!(rt;
        kernel.dot(&[u32::MAX, u32::MAX, 5], &[u32::MAX, u32::MAX, 2]),
        12
    );

    let mut row = [1u32, u32::MAX];
    kernel.add_scaled(&mut row, &[2, 3], 5);
    assert_eq!(rt; row[0], 11);
    assert_eq!(rt; row[1], 14);

    let mut sum = [7u32];
    kernel.add_rows(&mut sum, &[2, u32::MAX], a, 0);
    assert_eq!(rt; sum[0], 8);
}

#[test]
fn plain_products(rt: HostRuntime) -> Result<(), Fail> {
    let a = Matrix::from_words(2, 1, vec![in rt.alloc(); 3u32, 5]?)?;
    let digits = Matrix::from_words(1, 2, vec![in rt.alloc(); 10u32, 200]?)?;
    let mut hint = Matrix::from_words(1, 1, vec![in rt.alloc(); 77u32]?)?;
    products_agree(Plain, &rt, &a, &digits, &mut hint);
    Ok(())
}

#[test]
fn delta_for_each_width(rt: HostRuntime) {
    for (w, step) in [
        (6, 67_108_864),
        (7, 33_554_432),
        (8, 16_777_216),
        (9, 8_388_608),
        (10, 4_194_304),
    ] {
        assert_eq!(rt; delta(w), step, "at {w} bits");
    }
}
