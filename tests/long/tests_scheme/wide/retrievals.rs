//! Records of wide layouts by both schemes: more columns than an ordinary layout has, and more
//! rows.

use super::*;
use digit_pack::digits_of_records;
use lane_kernels::Lanes;
use matrix_u32::{Kernel, Matrix, Plain};
use seed_expand::expand;
use std::alloc::Global;

const SEED: [u8; 32] = [0; 32];

// The digits of a layout's records, and what both sides make of them: the public matrices and the
// first hint.
#[derive(Drop)]
struct Made {
    layout: Layout,
    records: Vec<u8>,
    digits: Wide3,
    a1: Matrix,
    a2: Matrix,
    hint: Matrix,
}

// Byte i of all records.
fn byte(i: usize) -> u8 {
    (i * 7 % 251) as u8
}

fn made<K: Kernel>(
    alloc: Global,
    kernel: K,
    form: u16,
    sizes: (u32, usize, usize, usize),
) -> Result<Made, Fail> {
    let (width, record_len, groups, count) = sizes;
    let layout = Layout::of_form(form, width, record_len, groups, count)?;
    let mut records = Vec::new(alloc);
    for i in 0..count * record_len {
        records.push(byte(i))?;
    }
    let digits: Wide3 = digits_of_records(alloc, &layout, &records)?;
    let a1 = expand(alloc, &SEED, 0, 0, layout.cols(), 2)?;
    let a2 = expand(alloc, &SEED, 1, 0, layout.rows(), 2)?;
    let hint = simple_scheme::setup(alloc, kernel, &digits, &a1)?;
    Ok(Made {
        layout,
        records,
        digits,
        a1,
        a2,
        hint,
    })
}

impl Made {
    fn record(&self, i: usize) -> &[u8] {
        let len = self.layout.record_len();
        &self.records[i * len..(i + 1) * len]
    }
}

// Retrieves record i by SimplePIR.
fn by_simple<K: Kernel>(
    rt: &(impl Abort + AllocGlobal),
    kernel: K,
    made: &Made,
    i: usize,
) -> Result<(), Fail> {
    let (alloc, layout) = (rt.alloc(), &made.layout);
    let words = simple_scheme::query(alloc, kernel, &SEED, 1, &made.a1, layout, i)?;
    assert_eq!(rt; words.len(), layout.cols());
    let answered = simple_scheme::answer(alloc, kernel, &made.digits, &words)?;
    assert_eq!(rt; answered.len(), layout.rows());
    let record = simple_scheme::recover(alloc, kernel, &SEED, 1, &made.hint, layout, i, &answered)?;
    assert_eq!(rt; record.as_slice(), made.record(i), "record {i}");
    Ok(())
}

// Retrieves record i by DoublePIR.
fn by_double<K: Kernel>(
    rt: &(impl Abort + AllocGlobal),
    kernel: K,
    made: &Made,
    server: &Wide3,
    client: &Matrix,
    i: usize,
) -> Result<(), Fail> {
    let (alloc, layout) = (rt.alloc(), &made.layout);
    let words = double_scheme::query(alloc, kernel, &SEED, 1, &made.a1, &made.a2, layout, i)?;
    let parts = layout.digits_per_record() * layout.rows();
    assert_eq!(rt; words.len(), layout.cols() + parts);
    let answered =
        double_scheme::answer(alloc, kernel, layout, &made.digits, server, &made.a2, &words)?;
    let record = double_scheme::recover(alloc, kernel, &SEED, 1, client, layout, i, &answered)?;
    assert_eq!(rt; record.as_slice(), made.record(i), "record {i}");
    Ok(())
}

fn retrieves<K: Kernel>(
    rt: &(impl Abort + AllocGlobal),
    kernel: K,
    form: u16,
    sizes: (u32, usize, usize, usize),
) -> Result<(), Fail> {
    let made = made(rt.alloc(), kernel, form, sizes)?;
    let width = made.layout.width();
    let (server, client): (Wide3, Matrix) =
        double_scheme::setup(rt.alloc(), kernel, &made.hint, &made.a2, width)?;
    let last = made.layout.count() - 1;
    for i in [0, last / 2, last] {
        by_simple(rt, kernel, &made, i)?;
        by_double(rt, kernel, &made, &server, &client, i)?;
    }
    Ok(())
}

// The noise of these seeds stays small, though at 8 and 9 bits no layout of 5,000 columns or rows
// is certain.
#[test]
fn records_of_five_thousand_columns(rt: HostRuntime) -> Result<(), Fail> {
    retrieves(&rt, Plain, 129, (8, 1, 1, 5000))?;
    retrieves(&rt, Lanes, 129, (8, 1, 1, 5000))?;
    retrieves(&rt, Lanes, 130, (9, 3, 1, 5000))
}

#[test]
fn records_of_five_thousand_rows(rt: HostRuntime) -> Result<(), Fail> {
    retrieves(&rt, Plain, 129, (8, 1, 5000, 5000))?;
    retrieves(&rt, Lanes, 129, (8, 1, 5000, 5000))?;
    retrieves(&rt, Lanes, 130, (6, 3, 1250, 1251))
}

#[test]
fn the_most_columns_and_the_most_rows(rt: HostRuntime) -> Result<(), Fail> {
    retrieves(&rt, Lanes, 129, (8, 1, 1, 32_768))?;
    retrieves(&rt, Lanes, 129, (8, 1, 32_768, 32_768))
}
