//! Proved by `tests/long/run --prove`.

use digit_pack::{DigitStore, Flat, Packed3, split_count};
use hint_update::{update_double, update_simple};
use lane_kernels::Lanes;
use matrix_u32::{Kernel, Matrix, Plain};
use std::process::Abort;
use std::test::Fail;

// The digit row (10, 200) under A = (3), (5) has the hint 1030.
fn follows_one_digit<K: Kernel>(rt: &(impl Abort + AllocGlobal), kernel: K) -> Result<(), Fail> {
    let a1 = Matrix::from_words(2, 1, vec![in rt.alloc(); 3u32, 5]?)?;
    let mut hint = Matrix::from_words(1, 1, vec![in rt.alloc(); 1030u32]?)?;
    assert!(rt; a1.rows() == 2 && a1.cols() == 1 && hint.rows() == 1 && hint.cols() == 1);
    update_simple(kernel, &mut hint, &a1, 0, 1, 200, 100);
    assert_eq!(rt; hint.words(), [530].as_slice());
    Ok(())
}

#[test]
fn a_digit_goes_down(rt: HostRuntime) -> Result<(), Fail> {
    follows_one_digit(&rt, Plain)?;
    follows_one_digit(&rt, Lanes)
}

#[test]
fn an_equal_digit_changes_nothing(rt: HostRuntime) -> Result<(), Fail> {
    let a1 = Matrix::from_words(2, 1, vec![in rt.alloc(); 3u32, 5]?)?;
    let mut hint = Matrix::from_words(2, 1, vec![in rt.alloc(); 1030u32, 7]?)?;
    assert!(rt; a1.rows() == 2 && a1.cols() == 1 && hint.rows() == 2 && hint.cols() == 1);
    update_simple(Plain, &mut hint, &a1, 1, 0, 9, 9);
    assert_eq!(rt; hint.words(), [1030, 7].as_slice());
    Ok(())
}

// The hints of both sides for the words of the first hint, of as many rows and columns as A2:
// digits of 8 bits.
fn both_hints<K: Kernel, S: DigitStore>(
    rt: &(impl Abort + AllocGlobal),
    kernel: K,
    words: &[u32],
    a2: &Matrix,
) -> Result<(S, Matrix), Fail> {
    let hint = Matrix::from_words(a2.rows(), a2.cols(), words.to_vec(rt.alloc())?)?;
    assert!(rt; a2.rows() == hint.rows() && a2.cols() == hint.cols());
    assert!(rt; hint.rows() <= 4096 && hint.cols() <= 1024);
    let hints = double_scheme::setup(rt.alloc(), kernel, &hint, a2, 8)?;
    Ok(hints)
}

// The columns of the server's hint.
fn columns<S: DigitStore>(rt: &(impl Abort + AllocGlobal), server: &S) -> Result<Vec<u32>, Fail> {
    let mut digits = Vec::new(rt.alloc());
    for j in 0..server.cols() {
        for r in 0..server.rows() {
            digits.push(server.get(r, j))?;
        }
    }
    Ok(digits)
}

// Digits 1 2 over 3 4 under A1 = (3), (5) have the first hint 13, 29; with 200 for the 2 it is
// 1003, 29.
fn follows_one_row<K: Kernel, S: DigitStore>(
    rt: &(impl Abort + AllocGlobal),
    kernel: K,
) -> Result<(), Fail> {
    let a2 = Matrix::from_words(2, 1, vec![in rt.alloc(); 2u32, 7]?)?;
    let (mut server, mut client): (S, Matrix) = both_hints(rt, kernel, &[13, 29], &a2)?;
    assert_eq!(rt; client.words(), [229, 0, 0, 0].as_slice());
    assert!(rt; server.rows() == split_count(8) && server.cols() == 2 && a2.rows() == 2);
    assert!(rt; client.rows() == server.rows() && client.cols() == a2.cols());
    update_double(kernel, &mut server, &mut client, &a2, 8, 0, &[1003]);
    assert_eq!(rt;
        columns(rt, &server)?.as_slice(),
        [235, 3, 0, 0, 29, 0, 0, 0].as_slice()
    );
    assert_eq!(rt; client.words(), [673, 6, 0, 0].as_slice());
    let (fresh, fresh_client): (S, Matrix) = both_hints(rt, kernel, &[1003, 29], &a2)?;
    assert!(rt; columns(rt, &server)? == columns(rt, &fresh)?);
    assert_eq!(rt; client.words(), fresh_client.words());
    Ok(())
}

#[test]
fn both_hints_follow_a_row(rt: HostRuntime) -> Result<(), Fail> {
    follows_one_row::<Plain, Flat>(&rt, Plain)?;
    follows_one_row::<Lanes, Packed3>(&rt, Lanes)
}
