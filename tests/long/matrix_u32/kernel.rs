//! Products worked out apart from the code.
//! Proved by `tests/long/run --prove`.

use matrix_u32::{Kernel, Matrix, Plain};
use std::test::Fail;

#[test]
fn a_product_overwrites_what_was_there(rt: HostRuntime) -> Result<(), Fail> {
    let x = Matrix::from_words(2, 2, vec![in rt.alloc(); 1u32, 2, 3, 4]?)?;
    let y = Matrix::from_words(2, 3, vec![in rt.alloc(); 5u32, 6, 7, 8, 9, 10]?)?;
    let mut out = Matrix::from_words(2, 3, vec![in rt.alloc(); 7u32; 6]?)?;
    Plain.mul_into(&x, &y, &mut out);
    assert_eq!(rt; out.words(), [21, 24, 27, 47, 54, 61].as_slice());
    Ok(())
}

#[test]
fn a_row_is_written_through_its_loan(rt: HostRuntime) -> Result<(), Fail> {
    let mut m = Matrix::zeros(rt.alloc(), 2, 2)?;
    assert_eq!(rt; m.rows(), 2);
    assert_eq!(rt; m.cols(), 2);
    Plain.add_scaled(m.row_mut(1), &[4, 5], 10);
    assert_eq!(rt; m.words(), [0, 0, 40, 50].as_slice());
    Ok(())
}
