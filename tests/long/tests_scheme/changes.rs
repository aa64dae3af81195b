//! Hints moved by records that changed, and the same made from scratch.

use digit_pack::{Layout, Wide3, digits_of_records};
use hint_changes::{
    PublicRow, are_entries, entry_len, move_by_entries, move_record, move_record_rows,
};
use lane_kernels::Lanes;
use matrix_u32::{Kernel, Matrix, Plain};
use seed_expand::expand;
use std::alloc::Global;
use std::process::Abort;
use std::test::Fail;

const SEED: [u8; 32] = [9; 32];

const DIMENSION: usize = 3;

const LEN: usize = 4;

// Records of four bytes that stand one after another, with the hint that was moved by each change
// of them.
#[derive(Drop)]
struct Moved {
    layout: Layout,
    bytes: Vec<u8>,
    hint: Matrix,
    public: PublicRow,
}

// The hint of these records, made from scratch.
fn scratch(alloc: Global, layout: &Layout, bytes: &[u8]) -> Result<Matrix, Fail> {
    let digits: Wide3 = digits_of_records(alloc, layout, bytes)?;
    let a1 = expand(alloc, &SEED, 0, 0, layout.cols(), DIMENSION)?;
    Ok(simple_scheme::setup(alloc, Plain, &digits, &a1)?)
}

fn begin(alloc: Global, layout: Layout) -> Result<Moved, Fail> {
    let mut bytes = Vec::new(alloc);
    for i in 0..layout.count() * LEN {
        bytes.push(((i * 37 + 5) % 256) as u8)?;
    }
    let hint = scratch(alloc, &layout, &bytes)?;
    let public = PublicRow::new(alloc, &SEED, DIMENSION)?;
    Ok(Moved {
        layout,
        bytes,
        hint,
        public,
    })
}

// Changes one record, and moves the hint.
fn change<K: Kernel>(kernel: K, moved: &mut Moved, index: usize, new: &[u8; LEN]) {
    let at = index * LEN;
    let mut old = [0; LEN];
    old.copy_from_slice(&moved.bytes[at..at + LEN]);
    move_record(
        kernel,
        &moved.layout,
        &mut moved.public,
        &mut moved.hint,
        index,
        &old,
        new,
    );
    moved.bytes[at..at + LEN].copy_from_slice(new);
}

fn is_that_from_scratch(rt: &(impl Abort + AllocGlobal), moved: &Moved) -> Result<(), Fail> {
    let wanted = scratch(rt.alloc(), &moved.layout, &moved.bytes)?;
    assert_eq!(rt; moved.hint.words(), wanted.words());
    Ok(())
}

// Blanks are put after the records: the hint stays.
fn grow(moved: &mut Moved, count: usize, layout: Layout) -> Result<(), Fail> {
    for _ in 0..count * LEN {
        moved.bytes.push(0)?;
    }
    moved.layout = layout;
    Ok(())
}

// Each record is changed, to others and to the same bytes, some of them there and back.
fn changes_of_each_record<K: Kernel>(
    rt: &(impl Abort + AllocGlobal),
    kernel: K,
    form: u16,
) -> Result<(), Fail> {
    for (width, groups, count) in [(6, 1, 1), (7, 1, 5), (8, 3, 7), (9, 4, 12), (9, 5, 11)] {
        let layout = Layout::of_form(form, width, LEN, groups, count)?;
        let mut moved = begin(rt.alloc(), layout)?;
        for i in 0..count {
            change(kernel, &mut moved, i, &[255, i as u8, 0, 1]);
            is_that_from_scratch(rt, &moved)?;
        }
        for (i, new) in [
            (0, [0; LEN]),
            (count - 1, [255; LEN]),
            (0, [1, 2, 3, 4]),
            (0, [1, 2, 3, 4]),
        ] {
            change(kernel, &mut moved, i, &new);
            is_that_from_scratch(rt, &moved)?;
        }
    }
    Ok(())
}

#[test]
fn a_moved_hint_is_that_from_scratch(rt: HostRuntime) -> Result<(), Fail> {
    for form in [1, 2, 129, 130] {
        changes_of_each_record(&rt, Plain, form)?;
        changes_of_each_record(&rt, Lanes, form)?;
    }
    Ok(())
}

// Changes that lead from some records to others, made in two orders.
#[test]
fn changes_come_in_any_order(rt: HostRuntime) -> Result<(), Fail> {
    let layout = Layout::of_form(129, 9, LEN, 4, 12)?;
    let mut upward = begin(rt.alloc(), layout)?;
    let mut downward = begin(rt.alloc(), layout)?;
    for i in 0..12usize {
        change(Lanes, &mut upward, i, &[i as u8; LEN]);
        change(Lanes, &mut downward, 11 - i, &[11 - i as u8; LEN]);
    }
    assert_eq!(rt; upward.hint.words(), downward.hint.words());
    is_that_from_scratch(&rt, &upward)
}

// The rows of a hint in which the records in place `group` of their columns have their digits.
fn rows_in_place(alloc: Global, moved: &Moved, group: usize) -> Result<Matrix, Fail> {
    let count = moved.layout.digits_per_record();
    let mut rows = Matrix::zeros(alloc, count, DIMENSION)?;
    for d in 0..count {
        rows.row_mut(d)
            .copy_from_slice(moved.hint.row(group * count + d));
    }
    Ok(rows)
}

// The rows of each record's place, moved alone, are those of the moved hint; those of the other
// places stay.
#[test]
fn rows_of_one_place_are_moved_alone(rt: HostRuntime) -> Result<(), Fail> {
    let layout = Layout::of_form(129, 9, LEN, 4, 12)?;
    let mut moved = begin(rt.alloc(), layout)?;
    let mut public = PublicRow::new(rt.alloc(), &SEED, DIMENSION)?;
    for i in 0..12 {
        let mut rows = rows_in_place(rt.alloc(), &moved, i % 4)?;
        let beside = rows_in_place(rt.alloc(), &moved, (i + 1) % 4)?;
        let new = [255 - i as u8; LEN];
        let old = &moved.bytes[i * LEN..(i + 1) * LEN];
        move_record_rows(Lanes, &layout, &mut public, &mut rows, i, old, &new);
        change(Lanes, &mut moved, i, &new);
        assert_eq!(rt;
            rows.words(),
            rows_in_place(rt.alloc(), &moved, i % 4)?.words()
        );
        assert_eq!(rt;
            beside.words(),
            rows_in_place(rt.alloc(), &moved, (i + 1) % 4)?.words()
        );
    }
    Ok(())
}

// Puts an entry after others: a change of a record to four bytes that are alike.
fn push_entry(entries: &mut Vec<u8>, moved: &Moved, index: usize, byte: u8) -> Result<(), Fail> {
    let number = index as u32;
    entries.extend_from_slice(&number.to_le_bytes())?;
    entries.extend_from_slice(&moved.bytes[index * LEN..(index + 1) * LEN])?;
    entries.extend_from_slice(&[byte; LEN])?;
    Ok(())
}

// Entries of some records, all of them, and none.
fn moves_by_entries<K: Kernel>(rt: &(impl Abort + AllocGlobal), kernel: K) -> Result<(), Fail> {
    for step in [1, 2, 5, 20] {
        let mut moved = begin(rt.alloc(), Layout::of_form(129, 9, LEN, 4, 14)?)?;
        let mut entries = Vec::new(rt.alloc());
        for i in 0..14usize {
            if i % step == step - 1 {
                push_entry(&mut entries, &moved, i, i as u8)?;
                moved.bytes[i * LEN..(i + 1) * LEN].copy_from_slice(&[i as u8; LEN]);
            }
        }
        assert_eq!(rt; entries.len(), 14 / step * entry_len(LEN));
        assert!(rt; are_entries(&moved.layout, &entries));
        let Moved {
            layout,
            hint,
            public,
            ..
        } = &mut moved;
        move_by_entries(kernel, layout, public, hint, &entries);
        is_that_from_scratch(rt, &moved)?;
    }
    Ok(())
}

#[test]
fn entries_move_a_hint(rt: HostRuntime) -> Result<(), Fail> {
    moves_by_entries(&rt, Plain)?;
    moves_by_entries(&rt, Lanes)
}

// Each cut of two entries, entries in another order or twice, and a record that isn't there.
#[test]
fn bad_entries_are_seen(rt: HostRuntime) -> Result<(), Fail> {
    let moved = begin(rt.alloc(), Layout::of_form(130, 8, LEN, 3, 7)?)?;
    for (first, second, wanted) in [
        (0, 6, true),
        (2, 3, true),
        (3, 3, false),
        (4, 3, false),
        (0, 0, false),
    ] {
        let mut entries = Vec::new(rt.alloc());
        push_entry(&mut entries, &moved, first, 1)?;
        push_entry(&mut entries, &moved, second, 2)?;
        assert_eq!(rt; are_entries(&moved.layout, &entries), wanted);
        for len in 0..entries.len() {
            let whole = len == 0 || len == entry_len(LEN);
            assert_eq!(rt; are_entries(&moved.layout, &entries[..len]), whole);
        }
        // The second entry is of record 7, which isn't there, and then of one far beyond.
        entries[entry_len(LEN)] = 7;
        assert!(rt; !are_entries(&moved.layout, &entries));
        entries[entry_len(LEN) + 3] = 128;
        assert!(rt; !are_entries(&moved.layout, &entries));
    }
    Ok(())
}

// Records are appended: blanks first, which are then changed, some of them twice.
#[test]
fn appended_records_were_blanks(rt: HostRuntime) -> Result<(), Fail> {
    let mut moved = begin(rt.alloc(), Layout::of_form(130, 8, LEN, 3, 4)?)?;
    for (further, count) in [(1, 5), (2, 7), (9, 16)] {
        grow(&mut moved, further, Layout::of_form(130, 8, LEN, 3, count)?)?;
        is_that_from_scratch(&rt, &moved)?;
        for i in count - further..count {
            change(Lanes, &mut moved, i, &[2, 0, i as u8, 77]);
        }
        change(Lanes, &mut moved, count - 1, &[0, 0, 0, 0]);
        change(Lanes, &mut moved, 0, &[1, 0, count as u8, 0]);
        is_that_from_scratch(&rt, &moved)?;
    }
    Ok(())
}
