//! A retrieval with chosen secrets and noise, with what stands on its way.

use super::*;
use digit_pack::{join_word, split_count, split_word};
use regev_core::{encrypt, round, strip};

// A matrix of one column.
fn column(rt: &(impl Abort + AllocGlobal), words: &[u32]) -> Result<Matrix, Fail> {
    let matrix = Matrix::from_words(words.len(), 1, words.to_vec(rt.alloc())?)?;
    Ok(matrix)
}

// The hints of both sides, for digits of 8 bits.
fn both_hints<S: DigitStore + Drop>(
    rt: &(impl Abort + AllocGlobal),
    hint: &Matrix,
    a2: &Matrix,
) -> Result<(S, Matrix), Fail> {
    assert!(rt; a2.rows() == hint.rows() && a2.cols() == hint.cols());
    assert!(rt; hint.rows() <= 4096 && hint.cols() <= 1024);
    let hints = setup(rt.alloc(), Plain, hint, a2, 8)?;
    Ok(hints)
}

// An encryption with a chosen secret of one word and chosen noise.
fn encrypted(
    rt: &(impl Abort + AllocGlobal),
    a: &Matrix,
    secret: u32,
    noise: &[i32],
    place: usize,
) -> Result<Vec<u32>, Fail> {
    assert!(rt; a.cols() == 1 && a.rows() == noise.len() && place < a.rows());
    let mut out = vec![in rt.alloc(); 0; noise.len()]?;
    encrypt(Plain, a, &[secret], noise, place, 8, &mut out);
    Ok(out)
}

// The answer to the words of a query.
fn answered<S: DigitStore + Drop>(
    rt: &(impl Abort + AllocGlobal),
    layout: &Layout,
    digits: &S,
    server: &S,
    a2: &Matrix,
    words: &[u32],
) -> Result<Vec<u32>, Fail> {
    let Some(parts) = layout.digits_per_record().checked_mul(layout.rows()) else {
        panic!(rt; "too many words");
    };
    assert!(rt; words.len() >= parts && words.len() - parts == layout.cols());
    assert!(rt; digits.rows() == layout.rows() && digits.cols() == layout.cols());
    assert!(rt; a2.rows() == layout.rows() && a2.cols() == 1 && server.cols() == layout.rows());
    assert!(rt; server.rows() == split_count(layout.width()));
    let answer = answer(rt.alloc(), Plain, layout, digits, server, a2, words)?;
    Ok(answer)
}

// The word that four words of the second layer give, for digits of 8 bits and a secret of one word.
fn word_read(
    rt: &(impl Abort + AllocGlobal),
    words: &[u32],
    hint: &[u32],
    secret: u32,
) -> Result<u32, Fail> {
    let mut digits = vec![in rt.alloc(); 0; split_count(8)]?;
    for t in 0..digits.len() {
        assert!(rt; t < words.len() && t < hint.len());
        digits[t] = round(strip(Plain, words[t], &[hint[t]], &[secret]), 8);
    }
    Ok(join_word(&digits, 8))
}

// The digit that an answer of 12 words gives: h, then the two parts' words, under the client's hint
// and the chosen secrets 11 and 7.
fn digit_read(
    rt: &(impl Abort + AllocGlobal),
    answer: &[u32],
    client: &[u32],
) -> Result<(u32, u32, u32), Fail> {
    assert_eq!(rt; answer.len(), 12);
    are_words(rt, &answer[0..4], &[1562, 0, 0, 23]);
    are_words(rt, &answer[4..8], &[486_541_799, 0, 0, 0]);
    are_words(rt, &answer[8..12], &[3_321_906_060, 0, 0, 50_331_903]);
    let row = word_read(rt, &answer[4..8], client, 11)?;
    let word = word_read(rt, &answer[8..12], &answer[0..4], 11)?;
    Ok((row, word, round(strip(Plain, word, &[row], &[7]), 8)))
}

// Digits 1 2 over 3 4: row 1, column 0 is retrieved.
#[test]
fn a_retrieval_with_chosen_secrets(rt: HostRuntime) -> Result<(), Fail> {
    let layout = Layout::new(8, 1, 2, 4)?;
    let digits: Flat = store(&rt, &layout, &[1, 3, 2, 4])?;
    let a1 = column(&rt, &[3, 5])?;
    let a2 = column(&rt, &[2, 7])?;
    let hint = first_hint(&rt, &digits, &a1)?;
    assert_eq!(rt; hint.words(), [13, 29].as_slice());
    let (server, client): (Flat, Matrix) = both_hints(&rt, &hint, &a2)?;
    assert_eq!(rt; client.words(), [229, 0, 0, 0].as_slice());
    let mut words = encrypted(&rt, &a1, 7, &[1, -2], 0)?;
    words.extend_from_slice(&encrypted(&rt, &a2, 11, &[-1, 1], 1)?)?;
    assert_eq!(rt;
        words.as_slice(),
        [16_777_238, 33, 21, 16_777_294].as_slice()
    );
    let answer = answered(&rt, &layout, &digits, &server, &a2, &words)?;
    let read = digit_read(&rt, &answer, client.words())?;
    assert_eq!(rt; read, (29, 50_331_846, 3));
    Ok(())
}

// The digits of 8 bits of a word that a step on the way gives.
fn has_digits(rt: &impl Abort, word: u32, wanted: [u32; 4]) {
    let mut digits = [0u32; 4];
    assert_eq!(rt; split_count(8), 4);
    split_word(word, 8, &mut digits);
    assert_eq!(rt; digits, wanted);
}

// The rows of digits on the way of that retrieval: those of D A1, and of the first answer, which
// stand across.
#[test]
fn the_digits_on_the_way(rt: HostRuntime) -> Result<(), Fail> {
    let layout = Layout::new(8, 1, 2, 4)?;
    let digits: Flat = store(&rt, &layout, &[1, 3, 2, 4])?;
    assert_eq!(rt; digits.cols(), 2);
    let first = simple_scheme::answer(rt.alloc(), Plain, &digits, &[16_777_238, 33])?;
    assert_eq!(rt; first.len(), 2);
    has_digits(&rt, first[0], [88, 0, 0, 1]);
    has_digits(&rt, first[1], [198, 0, 0, 3]);
    has_digits(&rt, 13, [13, 0, 0, 0]);
    has_digits(&rt, 29, [29, 0, 0, 0]);
    Ok(())
}
