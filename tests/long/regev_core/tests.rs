//! One retrieval worked out apart from the code.
//! Proved by `tests/long/run --prove`.

use matrix_u32::{Kernel, Matrix, Plain};
use regev_core::{encrypt, round, strip};
use std::process::Abort;
use std::test::Fail;

// One row of two digits, retrieved at column 1 under a public matrix of two rows and one column,
// with w = 8.
#[derive(Drop)]
struct Retrieval {
    a: [u32; 2],
    secret: u32,
    noise: [i32; 2],
    digits: [u32; 2],
    cipher: [u32; 2],
    hint: u32,
    answer: u32,
    stripped: u32,
    digit: u32,
}

fn retrieves<K: Kernel>(
    kernel: K,
    rt: &(impl Abort + AllocGlobal),
    case: &Retrieval,
) -> Result<(), Fail> {
    let a = Matrix::from_words(2, 1, case.a.to_vec(rt.alloc())?)?;
    assert_eq!(rt; a.rows(), 2);
    assert_eq!(rt; a.cols(), 1);
    let mut cipher = [9u32; 2];
    encrypt(kernel, &a, &[case.secret], &case.noise, 1, 8, &mut cipher);
    assert_eq!(rt; cipher, case.cipher);
    let hint = kernel.dot(&case.digits, &case.a);
    assert_eq!(rt; hint, case.hint);
    let answer = kernel.dot(&case.digits, &cipher);
    assert_eq!(rt; answer, case.answer);
    let stripped = strip(kernel, answer, &[hint], &[case.secret]);
    assert_eq!(rt; stripped, case.stripped);
    assert_eq!(rt; round(stripped, 8), case.digit);
    Ok(())
}

#[test]
fn quiet_rows_give_their_digits(rt: HostRuntime) -> Result<(), Fail> {
    let above = Retrieval {
        a: [3, 5],
        secret: 7,
        noise: [1, -2],
        digits: [10, 200],
        cipher: [22, 16_777_249],
        hint: 1030,
        answer: 3_355_450_020,
        stripped: 3_355_442_810,
        digit: 200,
    };
    retrieves(Plain, &rt, &above)?;
    // the noise takes the word below zero on the circle, and the digit is still 0
    let below = Retrieval {
        a: [3, 5],
        secret: 7,
        noise: [-1, 0],
        digits: [200, 0],
        cipher: [20, 16_777_251],
        hint: 600,
        answer: 4000,
        stripped: 4_294_967_096,
        digit: 0,
    };
    retrieves(Plain, &rt, &below)
}

#[test]
fn too_much_noise_gives_another_digit(rt: HostRuntime) -> Result<(), Fail> {
    // the noise sum 255 * 40000 is not below half of delta, 8388608
    let loud = Retrieval {
        a: [0, 0],
        secret: 0,
        noise: [40_000, 0],
        digits: [255, 1],
        cipher: [40_000, 16_777_216],
        hint: 0,
        answer: 26_977_216,
        stripped: 26_977_216,
        digit: 2,
    };
    retrieves(Plain, &rt, &loud)
}

#[test]
fn half_of_delta_goes_up(rt: HostRuntime) {
    for (word, digit) in [
        (8_388_607, 0),
        (8_388_608, 1),
        (4_286_578_688, 0),
        (4_286_578_687, 255),
    ] {
        assert_eq!(rt; round(word, 8), digit, "at {word}");
    }
}
