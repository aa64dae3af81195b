//! Words that other sources give for the same seed, stream and place.
//! Proved by `tests/long/run --prove`.

use super::*;

const ZERO: [u8; 32] = [0; 32];

// The seed of the bytes 00, 01, .. 1f, the key of RFC 8439, section 2.3.2.
const COUNTING: [u8; 32] = [
    0, 1, 2, 3, 4, 5, 6, 7, 8, 9, 10, 11, 12, 13, 14, 15, 16, 17, 18, 19, 20, 21, 22, 23, 24, 25,
    26, 27, 28, 29, 30, 31,
];

#[test]
fn first_rows_of_the_zero_seed(rt: HostRuntime) -> Result<(), AllocError> {
    let a = expand(rt.alloc(), &ZERO, 0, 0, 2, 2)?;
    assert_eq!(rt; a.rows(), 2);
    assert_eq!(rt; a.cols(), 2);
    let want = [0xade0_b876, 0x903d_f1a0, 0xe56a_5d40, 0x28bd_8653];
    assert!(rt; a.words() == want.as_slice());
    Ok(())
}

#[test]
fn later_rows_begin_later(rt: HostRuntime) -> Result<(), AllocError> {
    let a = expand(rt.alloc(), &ZERO, 0, 1, 1, 2)?;
    assert!(rt; a.words() == [0xe56a_5d40, 0x28bd_8653].as_slice());

    // OpenSSL's words 9 to 14 of stream 1.
    let b = expand(rt.alloc(), &COUNTING, 1, 3, 2, 3)?;
    let want = [
        0xfa84_2704,
        0xdeb5_1f27,
        0xaf6d_8937,
        0xf4e4_0400,
        0x33fe_057d,
        0x741d_14bc,
    ];
    assert!(rt; b.words() == want.as_slice());

    let none = expand(rt.alloc(), &ZERO, 0, 4096, 0, 1024)?;
    assert_eq!(rt; none.words().len(), 0);
    Ok(())
}

// OpenSSL's words at both ends of the last row that a matrix can have.
#[test]
fn the_last_row(rt: HostRuntime) -> Result<(), AllocError> {
    let a = expand(rt.alloc(), &ZERO, 0, 4095, 1, 1024)?;
    assert_eq!(rt; a.get(0, 0), 0xf148_72e3);
    assert_eq!(rt; a.get(0, 1023), 0x0bbc_730f);
    Ok(())
}

// OpenSSL's words at both ends of the numbers of streams and places, and across a block's end.
#[test]
fn words_of_far_streams_and_places(rt: HostRuntime) {
    let vectors = [
        (ZERO, 1, 0, 0xd6df_3fef, 0xfb78_15c6),
        (
            COUNTING,
            0x0123_4567_89ab_cdef,
            14,
            0x6715_e898,
            0x856e_4ab5,
        ),
        (
            COUNTING,
            0x0123_4567_89ab_cdef,
            16,
            0x0763_a16a,
            0x9661_1ee9,
        ),
        (COUNTING, u64::MAX, 1000, 0x8c8c_27e4, 0xe8a1_8cb2),
        (COUNTING, 7, u64::MAX, 0x5c91_ed25, 0x30cf_b17b),
    ];
    for (seed, stream, place, first, second) in vectors {
        let mut source = WordSource::at(&seed, stream, place);
        assert_eq!(rt; source.next(), first, "stream {stream}, place {place}");
        assert_eq!(rt; source.next(), second, "stream {stream}, place {place}");
    }
}

#[test]
fn a_source_opens_at_its_place(rt: HostRuntime) {
    let mut source = WordSource::at(&ZERO, 0, 2);
    assert_eq!(rt; source.place(), 2);
    assert_eq!(rt; source.next(), 0xe56a_5d40);
    assert_eq!(rt; source.next(), 0x28bd_8653);
    assert_eq!(rt; source.place(), 4);
}

#[test]
fn a_stream_begins_anew_after_its_last_place(rt: HostRuntime) {
    let last: u128 = (1 << 68) - 1;
    let mut source = WordSource::at_wide(&COUNTING, 7, last - 1);
    assert_eq!(rt; source.next(), 0xe64f_490e);
    assert_eq!(rt; source.place(), last);
    assert_eq!(rt; source.next(), 0x97af_f0be);
    assert_eq!(rt; source.place(), 0);
    assert_eq!(rt; source.next(), 0x3f44_0f48);
    assert_eq!(rt; source.next(), 0x32b8_dbe9);

    // From the last place on the words are filled as they are read.
    let mut words = [0; 3];
    fill_words(&mut WordSource::at_wide(&COUNTING, 7, last), &mut words);
    assert!(rt; words == [0x97af_f0be, 0x3f44_0f48, 0x32b8_dbe9]);
}

#[test]
fn words_are_filled_in_order(rt: HostRuntime) -> Result<(), AllocError> {
    let mut source = WordSource::at(&ZERO, 0, 1);
    let mut words = [9; 2];
    fill_words(&mut source, &mut words);
    assert!(rt; words == [0x903d_f1a0, 0xe56a_5d40]);
    fill_words(&mut source, &mut words[..0]);
    assert_eq!(rt; source.place(), 3);
    let more = stream_words(rt.alloc(), &ZERO, 0, 2, 2)?;
    assert!(rt; more.as_slice() == [0xe56a_5d40, 0x28bd_8653].as_slice());
    // Places run on past 2^64: OpenSSL's words, and one of another program that gives the first two
    // as well.
    let far = stream_words(rt.alloc(), &COUNTING, 7, u64::MAX, 3)?;
    assert!(rt; far.as_slice() == [0x5c91_ed25, 0x30cf_b17b, 0xf6a4_b905].as_slice());
    Ok(())
}

#[test]
fn laws_are_called(_rt: HostRuntime) {
    source_gives_words();
    places_run_on();
}
