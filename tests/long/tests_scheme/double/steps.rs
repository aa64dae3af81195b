//! Answers that are made in steps: the same words as those that are made at once.

use super::*;
use double_scheme::{AnswerSteps, rows_in_step};

const MOST_STEPS: u32 = 1000;

// The answer made in steps, and how many these were.
fn stepped<K: Kernel, S: DigitStore>(
    rt: &(impl Abort + AllocGlobal),
    kernel: K,
    layout: &Layout,
    digits: &S,
    server: &S,
    a2: &Matrix,
    words: &[u32],
) -> Result<(Vec<u32>, u32), Fail> {
    let mut steps = AnswerSteps::new(rt.alloc(), layout, a2.cols())?;
    let mut count = 1;
    while !steps.step(kernel, digits, server, a2, words) {
        count += 1;
        assert!(rt; count < MOST_STEPS);
    }
    // What is whole stays so.
    assert!(rt; steps.step(kernel, digits, server, a2, words));
    Ok((steps.into_words(), count))
}

// Compares both, for a store whose records' bytes are their places, and a query of words that are
// chosen.
fn both_ways<K: Kernel, S: DigitStore>(
    rt: &(impl Abort + AllocGlobal),
    kernel: K,
    layout: &Layout,
    n: usize,
) -> Result<(), Fail> {
    let mut bytes = vec![in rt.alloc(); 0u8; layout.count() * layout.record_len()]?;
    for i in 0..bytes.len() {
        bytes[i] = ((7 * i + i / 3) % 256) as u8;
    }
    let digits: S = store(rt, layout, &bytes)?;
    let a1 = expand(rt.alloc(), &ZERO_SEED, 0, 0, layout.cols(), n)?;
    let a2 = expand(rt.alloc(), &ZERO_SEED, 1, 0, layout.rows(), n)?;
    let hint = first_hint(rt, &digits, &a1)?;
    let (server, _): (S, Matrix) = setup(rt.alloc(), kernel, &hint, &a2, layout.width())?;
    let words = query(rt.alloc(), kernel, &ZERO_SEED, 3, &a1, &a2, layout, 1)?;
    let at_once = answer(rt.alloc(), kernel, layout, &digits, &server, &a2, &words)?;
    let (in_steps, count) = stepped(rt, kernel, layout, &digits, &server, &a2, &words)?;
    are_words(rt, &in_steps, &at_once);
    // So few digits are read in one step.
    assert_eq!(rt; count, 1);
    Ok(())
}

fn both_ways_on<K: Kernel, S: DigitStore>(
    rt: &(impl Abort + AllocGlobal),
    kernel: K,
) -> Result<(), Fail> {
    // One, three and four digits to a record: each two parts of an answer are made together.
    both_ways::<K, S>(rt, kernel, &Layout::new(8, 1, 1, 2)?, 1)?;
    both_ways::<K, S>(rt, kernel, &Layout::new(6, 2, 2, 3)?, 2)?;
    both_ways::<K, S>(rt, kernel, &Layout::new(8, 4, 3, 10)?, 5)
}

#[test]
fn the_same_words_in_steps_as_at_once(rt: HostRuntime) -> Result<(), Fail> {
    both_ways_on::<Plain, Flat>(&rt, Plain)?;
    both_ways_on::<Lanes, Packed3>(&rt, Lanes)
}

#[test]
fn as_many_rows_as_may_be_read(rt: HostRuntime) {
    for (most, cols, left, wanted) in [
        (12, 3, 7, 4),
        (11, 3, 7, 3),
        (100, 3, 7, 7),
        (2, 3, 7, 1),
        (0, 3, 7, 1),
        (5, 0, 7, 5),
    ] {
        assert_eq!(rt; rows_in_step(most, cols, left), wanted);
    }
}

// Some rows of a store are those of the whole product, by one vector and by two.
fn rows_on<K: Kernel, S: DigitStore>(
    rt: &(impl Abort + AllocGlobal),
    kernel: K,
) -> Result<(), Fail> {
    let mut digits = S::zeros(rt.alloc(), 7, 5)?;
    for i in 0..7 {
        for j in 0..5 {
            digits.set(i, j, (37 * i + 101 * j) as u32 % 1024);
        }
    }
    let (x, y) = ([1, 2, 3, 4, 4_000_000_000], [5, 0, 7, 4_294_967_295, 9]);
    let mut whole = [0; 7];
    let mut others = [0; 7];
    digits.mul_two(kernel, &x, &y, &mut whole, &mut others);
    for first in 0..7 {
        let mut rows = [1; 2];
        let (mut x_rows, mut y_rows) = ([1; 2], [1; 2]);
        let count = 2.min(7 - first);
        digits.mul_rows(kernel, first, &x, &mut rows[..count]);
        let (x_out, y_out) = (&mut x_rows[..count], &mut y_rows[..count]);
        digits.mul_two_rows(kernel, first, &x, &y, x_out, y_out);
        are_words(rt, &rows[..count], &whole[first..first + count]);
        are_words(rt, &x_rows[..count], &whole[first..first + count]);
        are_words(rt, &y_rows[..count], &others[first..first + count]);
    }
    Ok(())
}

#[test]
fn some_rows_of_a_product(rt: HostRuntime) -> Result<(), Fail> {
    rows_on::<Plain, Flat>(&rt, Plain)?;
    rows_on::<Lanes, Packed3>(&rt, Lanes)
}
