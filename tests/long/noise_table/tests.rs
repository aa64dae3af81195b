//! Noise and margins that were worked out apart from the code.
//! Proved by `tests/long/run --prove`.

use noise_table::{
    certain_is_quiet, fill_noise, is_certain, limits_ascend, noise_is_bounded, noise_of,
};
use seed_expand::WordSource;

// Each magnitude begins at its limit, with either sign and whatever stands in the high bits.
#[test]
fn magnitudes_begin_at_the_limits(rt: HostRuntime) {
    let first_of_each: [(u32, i32); 27] = [
        (2043, 1),
        (6079, 2),
        (9970, 3),
        (13630, 4),
        (16990, 5),
        (20001, 6),
        (22633, 7),
        (24879, 8),
        (26749, 9),
        (28269, 10),
        (29474, 11),
        (30407, 12),
        (31111, 13),
        (31630, 14),
        (32003, 15),
        (32265, 16),
        (32445, 17),
        (32565, 18),
        (32643, 19),
        (32693, 20),
        (32724, 21),
        (32743, 22),
        (32754, 23),
        (32760, 24),
        (32764, 25),
        (32766, 26),
        (32767, 27),
    ];
    for (first, magnitude) in first_of_each {
        assert_eq!(rt; noise_of(first), magnitude, "at {first}");
        let before = noise_of(first.wrapping_sub(1));
        assert_eq!(rt; before, magnitude.wrapping_sub(1), "below {first}");
        let negative = noise_of(0xABCD_8000_u32.wrapping_add(first));
        assert_eq!(rt; negative, magnitude.wrapping_neg(), "negative at {first}");
    }
}

#[test]
fn noise_of_the_zero_seed(rt: HostRuntime) {
    let mut source = WordSource::at(&[0; 32], 0, 1);
    let mut noise = [99; 3];
    fill_noise(&mut source, &mut noise);
    // The words 903df1a0, e56a5d40 and 28bd8653.
    assert!(rt; noise == [-10, 7, 0]);
    fill_noise(&mut source, &mut noise[..0]);
    assert_eq!(rt; source.place(), 4);
}

#[test]
fn most_terms_of_each_width(rt: HostRuntime) {
    let widths: [(u32, usize, usize); 5] = [
        (6, 19726, 19727),
        (7, 4892, 4893),
        (8, 1218, 1219),
        (9, 304, 305),
        (10, 75, 76),
    ];
    for (w, most, too_many) in widths {
        assert!(rt; 6 <= w && w <= 10);
        assert!(rt; is_certain(w, 0), "width {w}, no terms");
        assert!(rt; is_certain(w, most), "width {w}, {most} terms");
        assert!(rt; !is_certain(w, too_many), "width {w}, {too_many} terms");
        assert!(rt;
            !is_certain(w, usize::MAX),
            "width {w}, the most terms that can be named"
        );
    }
}

#[test]
fn laws_are_called(_rt: HostRuntime) {
    limits_ascend();
    noise_is_bounded();
    certain_is_quiet();
}
