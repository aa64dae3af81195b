//! Both hints of DoublePIR after several rows at once, and after the same rows one by one.

use super::{both_hints, columns};
use digit_pack::{DigitStore, Flat, Packed3, split_count};
use hint_update::{NewRows, RowsBuffers, update_double, update_double_rows};
use lane_kernels::Lanes;
use matrix_u32::{Kernel, Matrix, Plain};
use std::process::Abort;
use std::test::Fail;

// Rows 1, 2 and 4 of five take the words 1003, 6 (as it was) and 4000000000.
fn follows_listed_rows<K: Kernel, S: DigitStore>(
    rt: &(impl Abort + AllocGlobal),
    kernel: K,
) -> Result<(), Fail> {
    let a2 = Matrix::from_words(5, 1, vec![in rt.alloc(); 2u32, 7, 11, u32::MAX, 17]?)?;
    let new = [13, 1003, 6, 8, 4_000_000_000];
    let hint = Matrix::from_words(5, 1, new.to_vec(rt.alloc())?)?;
    let (mut server, mut client): (S, Matrix) = both_hints(rt, kernel, &[13, 29, 6, 8, 12], &a2)?;
    let mut room = RowsBuffers::new(rt.alloc(), 3, 1, 8)?;
    assert!(rt; a2.cols() == 1);
    assert!(rt; hint.rows() == 5 && server.cols() == 5 && a2.rows() == 5);
    assert!(rt; hint.cols() == 1 && server.rows() == split_count(8));
    assert!(rt; client.rows() == server.rows() && client.cols() == a2.cols());
    let new_rows = NewRows {
        hint: &hint,
        w: 8,
        listed: &[1, 2, 4],
    };
    update_double_rows(
        kernel,
        &mut server,
        &mut client,
        &a2,
        &new_rows,
        &mut room,
    );
    let (fresh, fresh_client): (S, Matrix) = both_hints(rt, kernel, &new, &a2)?;
    assert!(rt; columns(rt, &server)? == columns(rt, &fresh)?);
    assert_eq!(rt; client.words(), fresh_client.words());
    follows_row_by_row(rt, kernel, &[13, 29, 6, 8, 12], &a2, &client)
}

// The same, one row after the other.
fn follows_row_by_row<K: Kernel>(
    rt: &(impl Abort + AllocGlobal),
    kernel: K,
    old: &[u32],
    a2: &Matrix,
    wanted: &Matrix,
) -> Result<(), Fail> {
    let (mut server, mut client): (Flat, Matrix) = both_hints(rt, kernel, old, a2)?;
    for (row, word) in [(1, 1003), (2, 6), (4, 4_000_000_000)] {
        assert!(rt; server.rows() == split_count(8) && row < server.cols());
        assert!(rt; client.rows() == server.rows() && client.cols() == a2.cols());
        assert!(rt; a2.rows() == server.cols());
        update_double(kernel, &mut server, &mut client, a2, 8, row, &[word]);
    }
    assert_eq!(rt; client.words(), wanted.words());
    Ok(())
}

#[test]
fn both_hints_follow_listed_rows(rt: HostRuntime) -> Result<(), Fail> {
    follows_listed_rows::<Plain, Flat>(&rt, Plain)?;
    follows_listed_rows::<Lanes, Packed3>(&rt, Lanes)
}

// Words of a linear congruential generator.
fn words_from(rt: &(impl Abort + AllocGlobal), seed: u32, count: usize) -> Result<Vec<u32>, Fail> {
    let mut words = Vec::new(rt.alloc());
    let mut state = seed;
    for _ in 0..count {
        state = state.wrapping_mul(1_664_525).wrapping_add(1_013_904_223);
        words.push(state ^ (state >> 13))?;
    }
    Ok(words)
}

// Of 40 rows of three words those with numbers from 5 on, 30 of them, change by their number's
// delta times the list (a row of A1), and the third word of row 9 by `other` besides. Both hints
// are then those made from scratch.
fn follows_multiples<K: Kernel, S: DigitStore>(
    rt: &(impl Abort + AllocGlobal),
    kernel: K,
    w: u32,
    list: [u32; 3],
    scale: u32,
    other: u32,
) -> Result<(), Fail> {
    let a2 = Matrix::from_words(40, 3, words_from(rt, 7, 120)?)?;
    let mut words = words_from(rt, 11, 120)?;
    let old = Matrix::from_words(40, 3, words.to_vec(rt.alloc())?)?;
    let deltas = words_from(rt, 13, 40)?;
    let mut listed = Vec::new(rt.alloc());
    for i in 5..35 {
        for k in 0..3 {
            words[3 * i + k] = words[3 * i + k].wrapping_add(list[k].wrapping_mul(
                deltas[i] % 1024 * scale,
            ));
        }
        listed.push(i)?;
    }
    words[3 * 9 + 2] = words[3 * 9 + 2].wrapping_add(other);
    let hint = Matrix::from_words(40, 3, words)?;
    let (mut server, mut client): (S, Matrix) = double_scheme::setup(
        rt.alloc(),
        kernel,
        &old,
        &a2,
        w,
    )?;
    let (fresh, fresh_client): (S, Matrix) = double_scheme::setup(
        rt.alloc(),
        kernel,
        &hint,
        &a2,
        w,
    )?;
    let mut room = RowsBuffers::new(rt.alloc(), 32, 3, w)?;
    let new_rows = NewRows {
        hint: &hint,
        w,
        listed: &listed,
    };
    update_double_rows(
        kernel,
        &mut server,
        &mut client,
        &a2,
        &new_rows,
        &mut room,
    );
    assert!(rt; columns(rt, &server)? == columns(rt, &fresh)?);
    assert_eq!(rt; client.words(), fresh_client.words());
    Ok(())
}

// The first word of the list is even, so that none of its changes is odd; in the second case no
// change of any word is; in the third one word follows no list.
#[test]
fn words_change_by_multiples_of_one_list(rt: HostRuntime) -> Result<(), Fail> {
    for w in 6..=10 {
        follows_multiples::<Plain, Flat>(&rt, Plain, w, [12, 4_000_000_001, 77], 1, 0)?;
        follows_multiples::<Lanes, Packed3>(&rt, Lanes, w, [12, 4_000_000_001, 77], 1, 0)?;
        follows_multiples::<Lanes, Packed3>(&rt, Lanes, w, [3, 5, 7], 2, 0)?;
        follows_multiples::<Lanes, Packed3>(&rt, Lanes, w, [3, 5, 4_294_967_295], 1, 1)?;
    }
    Ok(())
}
