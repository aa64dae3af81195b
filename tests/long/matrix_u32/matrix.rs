//! What a matrix holds, and what it is refused for.
//! Proved by `tests/long/run --prove`.

use matrix_u32::{MAX_WORDS, Matrix, MatrixError};
use std::test::Fail;

#[test]
fn judges_the_limit_before_anything_else(rt: HostRuntime) -> Result<(), Fail> {
    assert_eq!(rt;
        Matrix::zeros(rt.alloc(), 33_554_433, 1).err(),
        Some(MatrixError::TooLarge)
    );
    assert_eq!(rt;
        Matrix::zeros(rt.alloc(), usize::MAX, 2).err(),
        Some(MatrixError::TooLarge)
    );
    let words = vec![in rt.alloc(); 1u32, 2, 3]?;
    assert_eq!(rt;
        Matrix::from_words(2, 2, words).err(),
        Some(MatrixError::WrongCount)
    );
    let words = vec![in rt.alloc(); 1u32, 2, 3]?;
    assert_eq!(rt;
        Matrix::from_words(33_554_433, 1, words).err(),
        Some(MatrixError::TooLarge)
    );
    Ok(())
}

#[test]
fn holds_its_words_row_by_row(rt: HostRuntime) -> Result<(), Fail> {
    let zeros = Matrix::zeros(rt.alloc(), 1, 2)?;
    assert_eq!(rt; zeros.words(), [0, 0].as_slice());

    let mut m = Matrix::from_words(2, 3, vec![in rt.alloc(); 1u32, 2, 3, 4, 5, 6]?)?;
    assert_eq!(rt; m.rows(), 2);
    assert_eq!(rt; m.cols(), 3);
    assert_eq!(rt; m.get(1, 0), 4);
    m.set(0, 2, 30);
    assert_eq!(rt; m.row(0), [1, 2, 30].as_slice());
    m.row_mut(1)[1] = 50;
    assert_eq!(rt; m.words(), [1, 2, 30, 4, 50, 6].as_slice());
    m.two_rows_mut(0)[3] = 40;
    assert_eq!(rt; m.words(), [1, 2, 30, 40, 50, 6].as_slice());
    Ok(())
}

#[test]
fn holds_empty_matrices(rt: HostRuntime) -> Result<(), Fail> {
    let flat = Matrix::zeros(rt.alloc(), usize::MAX, 0)?;
    assert_eq!(rt; flat.words().len(), 0);
    let none = Matrix::zeros(rt.alloc(), 0, 3)?;
    assert_eq!(rt; (none.rows(), none.cols()), (0, 3));
    let thin = Matrix::from_words(0, 5, Vec::new(rt.alloc()))?;
    assert_eq!(rt; thin.rows(), 0);
    assert_eq!(rt; thin.cols(), 5);
    Ok(())
}

#[test]
fn grows_by_whole_rows(rt: HostRuntime) -> Result<(), Fail> {
    let mut m = Matrix::from_words(1, 2, vec![in rt.alloc(); 1u32, 2]?)?;
    let odd = vec![in rt.alloc(); 3u32, 4, 5]?;
    assert_eq!(rt; m.push_rows(odd).err(), Some(MatrixError::WrongCount));
    assert_eq!(rt; m.words(), [1, 2].as_slice());
    m.push_rows(vec![in rt.alloc(); 3u32, 4]?)?;
    assert_eq!(rt; m.rows(), 2);
    assert_eq!(rt; m.into_words().as_slice(), [1, 2, 3, 4].as_slice());

    let mut flat = Matrix::zeros(rt.alloc(), 5, 0)?;
    flat.push_rows(Vec::new(rt.alloc()))?;
    assert_eq!(rt; flat.rows(), 5);
    let one = vec![in rt.alloc(); 1u32]?;
    assert_eq!(rt; flat.push_rows(one).err(), Some(MatrixError::WrongCount));
    Ok(())
}

#[test]
fn judges_the_limit_before_the_count_of_further_words(rt: HostRuntime) -> Result<(), Fail> {
    let many = vec![in rt.alloc(); 0u32; 33_554_433]?;
    let mut flat = Matrix::zeros(rt.alloc(), 5, 0)?;
    assert_eq!(rt; flat.push_rows(many).err(), Some(MatrixError::TooLarge));
    Ok(())
}

#[test]
fn faults_are_printed(rt: HostRuntime) -> Result<(), Fail> {
    for (fault, text) in [
        (
            MatrixError::TooLarge,
            "a matrix holds at most 33554432 words",
        ),
        (
            MatrixError::WrongCount,
            "the number of words is not rows times columns",
        ),
        (MatrixError::Memory, "out of memory"),
    ] {
        assert_eq!(rt; format!(in rt.alloc(); "{fault}")?.as_str(), text);
    }
    Ok(())
}
