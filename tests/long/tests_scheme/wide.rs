//! Wide layouts at their limits, and the store of digits that has room for them.

use digit_pack::{
    DigitStore, Layout, LayoutError, MAX_COLS, MAX_PART_WORDS, MAX_ROWS, Packed3, PackedDigits,
    WIDE_SIDE, Wide3, is_form, is_slotted, is_wide,
};
use matrix_u32::MatrixError;
use std::process::Abort;
use std::test::Fail;

// The fault of a layout in a form. It has no clause, so that a test carries none of its own.
fn fault(
    form: u16,
    width: u32,
    record_len: usize,
    groups: usize,
    count: usize,
) -> Option<LayoutError> {
    Layout::of_form(form, width, record_len, groups, count).err()
}

#[test]
fn the_limits_of_layouts(rt: HostRuntime) {
    assert_eq!(rt; (MAX_ROWS, MAX_COLS), (4096, 4096));
    assert_eq!(rt; (WIDE_SIDE, MAX_PART_WORDS), (32_768, 4_128_768));
}

#[test]
fn wide_layouts_are_refused_by_their_first_cause(rt: HostRuntime) {
    for form in [129, 130] {
        for (width, record_len, groups, count, wanted) in [
            (5, 0, 0, 0, LayoutError::BadWidth),
            (10, 0, 0, 0, LayoutError::BadWidth),
            (10, 1, 1, 1, LayoutError::BadWidth),
            (11, 1, 1, 1, LayoutError::BadWidth),
            (9, 0, 0, 0, LayoutError::BadRecord),
            (8, 257, 1, 1, LayoutError::BadRecord),
            (8, 1, 0, 0, LayoutError::BadGroups),
            (8, 1, 32_769, 1, LayoutError::BadGroups),
            (8, 2, 16_385, 1, LayoutError::BadGroups),
            (8, 1, usize::MAX, 1, LayoutError::BadGroups),
            (8, 1, 1, 0, LayoutError::BadCount),
            (8, 1, 1, 32_769, LayoutError::BadCount),
            (8, 1, 32_768, (1 << 30) + 1, LayoutError::BadCount),
            (8, 1, 32_768, usize::MAX, LayoutError::BadCount),
        ] {
            let refused = fault(form, width, record_len, groups, count);
            assert_eq!(rt; refused, Some(wanted), "{form} {width} {record_len} {groups} {count}");
        }
    }
}

// K is 256 with records of 256 bytes, and 342 in digits of six bits. One group more is K times K
// words more.
#[test]
fn the_parts_of_a_query_have_their_limit(rt: HostRuntime) {
    for (width, record_len, most) in [
        (8, 256, 63),
        (8, 128, 252),
        (8, 127, 255),
        (6, 256, 35),
        (9, 256, 79),
    ] {
        let accepted = fault(129, width, record_len, most, 1);
        assert_eq!(rt; accepted, None, "{width} {record_len}");
        let refused = fault(129, width, record_len, most + 1, 1);
        assert_eq!(rt; refused, Some(LayoutError::BadGroups), "{width} {record_len}");
    }
    // 63 * 256 digits of 256 each are exactly as many words as there may be
    assert_eq!(rt; 256 * (63 * 256), MAX_PART_WORDS);
}

// A layout that is accepted has these rows and columns.
fn has_sides(
    rt: &impl Abort,
    form: u16,
    sizes: (u32, usize, usize, usize),
    sides: (usize, usize),
) {
    let (width, record_len, groups, count) = sizes;
    let Ok(layout) = Layout::of_form(form, width, record_len, groups, count) else {
        panic!(rt; "{form} {sizes:?}");
    };
    assert_eq!(rt; (layout.rows(), layout.cols()), sides);
}

#[test]
fn wide_layouts_up_to_their_limits(rt: HostRuntime) {
    for (sizes, sides) in [
        ((8, 1, 1, 5000), (1, 5000)),
        ((8, 1, 5000, 1), (5000, 1)),
        ((8, 1, 1, 32_768), (1, 32_768)),
        ((8, 1, 32_768, 1), (32_768, 1)),
        ((9, 1, 32_768, 1 << 30), (32_768, 32_768)),
        ((8, 2, 16_384, 1), (32_768, 1)),
        ((8, 256, 63, 1), (16_128, 1)),
        ((6, 2, 1, 1), (3, 1)),
    ] {
        has_sides(&rt, 129, sizes, sides);
        has_sides(&rt, 130, sizes, sides);
    }
}

// What is new in the wide forms changes no ordinary one.
#[test]
fn ordinary_forms_keep_their_limits(rt: HostRuntime) {
    for form in [1, 2, 128] {
        assert_eq!(rt; fault(form, 10, 1, 1, 1), None);
        assert_eq!(rt; fault(form, 8, 1, 4096, 4096 * 4096), None);
        assert_eq!(rt; fault(form, 8, 1, 4097, 1), Some(LayoutError::BadGroups));
        assert_eq!(rt; fault(form, 8, 1, 1, 4097), Some(LayoutError::BadCount));
        assert_eq!(rt; fault(form, 8, 256, 16, 1), None);
    }
    assert_eq!(rt; Layout::new(8, 1, 1, 5000).err(), Some(LayoutError::BadCount));
    assert_eq!(rt; Layout::new(8, 1, 5000, 1).err(), Some(LayoutError::BadGroups));
}

#[test]
fn the_forms_that_there_are(rt: HostRuntime) {
    for (form, wide, slotted, of_one_byte, of_two) in [
        (0, false, false, false, false),
        (1, false, false, true, true),
        (2, false, true, false, true),
        (3, false, false, false, false),
        (128, false, false, false, false),
        (129, true, false, true, true),
        (130, true, true, false, true),
        (131, true, false, false, false),
        (255, true, false, false, false),
        (65_535, true, false, false, false),
    ] {
        assert_eq!(rt; (is_wide(form), is_slotted(form)), (wide, slotted), "{form}");
        assert_eq!(rt; (is_form(form, 1), is_form(form, 2)), (of_one_byte, of_two), "{form}");
    }
}

// The fault of a store of zeros.
fn zeros_fault<S: DigitStore>(
    rt: &impl AllocGlobal,
    rows: usize,
    cols: usize,
) -> Option<MatrixError> {
    S::zeros(rt.alloc(), rows, cols).err()
}

// Each is judged before memory is asked for: 2^30 digits would take 1.4 GB.
#[test]
fn stores_of_too_many_digits(rt: HostRuntime) {
    let too_large = Some(MatrixError::TooLarge);
    assert_eq!(rt; zeros_fault::<Wide3>(&rt, (1 << 30) + 1, 1), too_large);
    assert_eq!(rt; zeros_fault::<Wide3>(&rt, 32_768, 32_769), too_large);
    assert_eq!(rt; zeros_fault::<Wide3>(&rt, usize::MAX, 2), too_large);
    assert_eq!(rt; zeros_fault::<Packed3>(&rt, 32_768, 1025), too_large);
    assert_eq!(rt; zeros_fault::<PackedDigits<6>>(&rt, 1, 7), too_large);
    assert_eq!(rt; zeros_fault::<PackedDigits<6>>(&rt, 2, 3), None);
    // more than an ordinary store has
    assert_eq!(rt; zeros_fault::<Wide3>(&rt, 8193, 4096), None);
}

// A store of six digits at most grows up to these, and keeps its digits when it is refused.
#[test]
fn a_store_grows_up_to_its_limit(rt: HostRuntime) -> Result<(), Fail> {
    let Ok(mut store) = PackedDigits::<6>::zeros(rt.alloc(), 2, 1) else {
        return Err(Fail::from(MatrixError::Memory));
    };
    assert_eq!(rt; (store.rows(), store.cols()), (2, 1));
    store.set(1, 0, 1023);
    assert_eq!(rt; store.cols(), 1);
    assert_eq!(rt; store.grow(4), Err(MatrixError::TooLarge));
    assert_eq!(rt; (store.rows(), store.cols()), (2, 1));
    assert_eq!(rt; store.grow(3), Ok(()));
    assert_eq!(rt; (store.rows(), store.cols()), (2, 3));
    assert_eq!(rt; (store.get(1, 0), store.get(1, 2)), (1023, 0));
    Ok(())
}
