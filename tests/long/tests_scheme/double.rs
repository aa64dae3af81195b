//! Both records of a store of two. A retrieval with chosen secrets, records of several digits and
//! answers that give no record are in the folder `double`.
//!
//! Proved by `tests/long/run --prove`.

use digit_pack::{DigitStore, Flat, Layout, Packed3, digits_of_records};
use double_scheme::{QueryBuffers, answer, query, recover, setup};
use lane_kernels::Lanes;
use matrix_u32::{Kernel, Matrix, Plain};
use seed_expand::{WordSource, expand};
use simple_scheme::{MaskBuffers, Retrieval};
use std::process::Abort;
use std::test::Fail;

const ZERO_SEED: [u8; 32] = [0; 32];

// The digits of records that stand one after another.
fn store<S: DigitStore>(
    rt: &(impl Abort + AllocGlobal),
    layout: &Layout,
    records: &[u8],
) -> Result<S, Fail> {
    let Some(count) = layout.count().checked_mul(layout.record_len()) else {
        panic!(rt; "too many bytes");
    };
    assert_eq!(rt; records.len(), count);
    let digits = digits_of_records(rt.alloc(), layout, records)?;
    Ok(digits)
}

// The digits times the first public matrix.
fn first_hint<S: DigitStore>(
    rt: &(impl Abort + AllocGlobal),
    digits: &S,
    a1: &Matrix,
) -> Result<Matrix, Fail> {
    let Some(size) = digits.rows().checked_mul(a1.cols()) else {
        panic!(rt; "too many words");
    };
    assert!(rt; a1.rows() == digits.cols() && size <= 33_554_432);
    let hint = simple_scheme::setup(rt.alloc(), Plain, digits, a1)?;
    Ok(hint)
}

// Compares words. It has no clause, so that a test carries none of them.
fn are_words(rt: &impl Abort, words: &[u32], wanted: &[u32]) {
    assert_eq!(rt; words, wanted);
}

// What a retrieval sends, gets and reads.
#[derive(Drop)]
struct Retrieved {
    words: Vec<u32>,
    answered: Vec<u32>,
    record: Vec<u8>,
}

// Retrieves record i under the first layer's hint.
fn retrieve<K: Kernel, S: DigitStore>(
    rt: &(impl Abort + AllocGlobal),
    kernel: K,
    layout: &Layout,
    digits: &S,
    hint: &Matrix,
    a1: &Matrix,
    a2: &Matrix,
    number: u64,
    i: usize,
) -> Result<Retrieved, Fail> {
    assert!(rt; digits.rows() == layout.rows() && digits.cols() == layout.cols());
    assert!(rt; a1.rows() == layout.cols() && a2.rows() == layout.rows());
    assert!(rt; hint.rows() == layout.rows() && hint.cols() == a2.cols() && a2.cols() <= 1024);
    assert!(rt; i < layout.count() && number < 100);
    let (server, client): (S, Matrix) = setup(rt.alloc(), kernel, hint, a2, layout.width())?;
    let words = query(rt.alloc(), kernel, &ZERO_SEED, number, a1, a2, layout, i)?;
    let answered = answer(rt.alloc(), kernel, layout, digits, &server, a2, &words)?;
    let record = recover(
        rt.alloc(),
        kernel,
        &ZERO_SEED,
        number,
        &client,
        layout,
        i,
        &answered,
    )?;
    Ok(Retrieved {
        words,
        answered,
        record,
    })
}

// Retrieves record i with the public matrices of n columns of the zero seed.
fn from_zero_seed<K: Kernel, S: DigitStore>(
    rt: &(impl Abort + AllocGlobal),
    kernel: K,
    layout: &Layout,
    records: &[u8],
    n: usize,
    number: u64,
    i: usize,
) -> Result<Retrieved, Fail> {
    assert!(rt; layout.rows() <= 4096 && layout.cols() <= 4096 && n >= 1 && n <= 1024);
    let digits: S = store(rt, layout, records)?;
    let a1 = expand(rt.alloc(), &ZERO_SEED, 0, 0, layout.cols(), n)?;
    let a2 = expand(rt.alloc(), &ZERO_SEED, 1, 0, layout.rows(), n)?;
    let hint = first_hint(rt, &digits, &a1)?;
    retrieve(rt, kernel, layout, &digits, &hint, &a1, &a2, number, i)
}

// The words were computed from the definitions by a program of another language.
fn retrieves_both<K: Kernel, S: DigitStore>(
    rt: &(impl Abort + AllocGlobal),
    kernel: K,
) -> Result<(), Fail> {
    let layout = Layout::new(8, 1, 1, 2)?;
    let first = from_zero_seed::<K, S>(rt, kernel, &layout, &[0x0a, 0xc8], 1, 0, 0)?;
    assert_eq!(rt;
        first.words.as_slice(),
        [3_496_597_096, 2_386_059_201, 1_867_373_875].as_slice()
    );
    assert_eq!(rt; first.record.as_slice(), [0x0a].as_slice());
    let second = from_zero_seed::<K, S>(rt, kernel, &layout, &[0x0a, 0xc8], 1, 0, 1)?;
    assert_eq!(rt;
        second.words.as_slice(),
        [3_479_819_880, 2_402_836_417, 1_867_373_875].as_slice()
    );
    assert_eq!(rt; second.record.as_slice(), [0xc8].as_slice());
    are_words(rt, &second.answered, &SECOND_ANSWER);
    Ok(())
}

// The answer to the second query, computed so, too.
const SECOND_ANSWER: [u32; 12] = [
    1_281_225_128,
    2_619_178_226,
    3_309_190_403,
    830_566_178,
    3_547_515_668,
    1_119_626_907,
    2_987_665_297,
    2_053_719_937,
    3_920_798_472,
    4_294_819_626,
    2_427_445_751,
    1_866_561_690,
];

// Public matrices whose rows are made one after another give the query that the whole ones give.
#[test]
fn a_query_under_rows_made_in_turn(rt: HostRuntime) -> Result<(), Fail> {
    let layout = Layout::new(8, 2, 3, 10)?;
    assert!(rt; layout.cols() <= 4096 && layout.rows() <= 4096 && layout.count() == 10);
    let a1 = expand(rt.alloc(), &ZERO_SEED, 0, 0, layout.cols(), 5)?;
    let a2 = expand(rt.alloc(), &ZERO_SEED, 1, 0, layout.rows(), 5)?;
    let whole = query(rt.alloc(), Lanes, &ZERO_SEED, 3, &a1, &a2, &layout, 7)?;
    let room = QueryBuffers::new(rt.alloc(), &layout, 5, 5)?;
    let first = WordSource::at(&ZERO_SEED, 0, 0);
    let second = WordSource::at(&ZERO_SEED, 1, 0);
    let in_turn = room.fill(Lanes, first, second, &ZERO_SEED, 3, 7);
    assert_eq!(rt; in_turn.as_slice(), whole.as_slice());
    Ok(())
}

// Queries whose prefix is made of the masks of three retrievals, from number 3 on, and the same
// made at once.
#[test]
fn queries_of_masks(rt: HostRuntime) -> Result<(), Fail> {
    let layout = Layout::new(8, 2, 3, 10)?;
    assert!(rt; layout.cols() == 4 && layout.rows() <= 4096 && layout.count() == 10);
    let a1 = expand(rt.alloc(), &ZERO_SEED, 0, 0, layout.cols(), 5)?;
    let a2 = expand(rt.alloc(), &ZERO_SEED, 1, 0, layout.rows(), 5)?;
    let source = WordSource::at(&ZERO_SEED, 0, 0);
    let masks = MaskBuffers::new(rt.alloc(), &layout, 5, 3)?.fill(Lanes, source, &ZERO_SEED, 3);
    for c in 0..3usize {
        let number = 3 + c as u64;
        for i in [0, 9] {
            let wanted = query(rt.alloc(), Lanes, &ZERO_SEED, number, &a1, &a2, &layout, i)?;
            let room = QueryBuffers::new(rt.alloc(), &layout, 5, 5)?;
            let second = WordSource::at(&ZERO_SEED, 1, 0);
            let asked = Retrieval {
                seed: &ZERO_SEED,
                number,
                i,
            };
            let words = room.fill_masked(Lanes, &masks, c, second, &asked);
            are_words(&rt, words.as_slice(), wanted.as_slice());
        }
    }
    Ok(())
}

#[test]
fn both_records_of_a_store_of_two(rt: HostRuntime) -> Result<(), Fail> {
    retrieves_both::<Plain, Flat>(&rt, Plain)?;
    retrieves_both::<Lanes, Packed3>(&rt, Lanes)
}
