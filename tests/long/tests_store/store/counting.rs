//! How many words a publication multiplies.
//!
//! Proved by `tests/long/run --prove`.

use matrix_u32::{Kernel, Matrix, Plain};
use std::alloc::Global;
use std::cell::Cell;
use std::test::Fail;
use version_store::{Header, Store};

// Works as the plain kernel, and counts the products of words that it is asked for.
#[derive(Clone, Copy)]
struct Counting<'a> {
    products: &'a Cell<u64>,
}

impl Counting<'_> {
    fn count(self, products: usize) {
        self.products
            .set(self.products.get().wrapping_add(products as u64));
    }
}

impl Kernel for Counting<'_> {
    fn dot(self, x: &[u32], y: &[u32]) -> u32 {
        self.count(x.len());
        Plain.dot(x, y)
    }

    fn mul_vec(self, a: &Matrix, x: &[u32], out: &mut [u32]) {
        self.count(a.rows().wrapping_mul(a.cols()));
        Plain.mul_vec(a, x, out);
    }

    fn mul_into(self, a: &Matrix, b: &Matrix, out: &mut Matrix) {
        self.count(a.rows().wrapping_mul(a.cols()).wrapping_mul(b.cols()));
        Plain.mul_into(a, b, out);
    }

    fn add_scaled(self, out: &mut [u32], x: &[u32], k: u32) {
        self.count(x.len());
        Plain.add_scaled(out, x, k);
    }
}

// 64 records of one byte, 8 to a column, and secrets of one word: each digit is a row's, and each
// word of the first hint has four digits in the hints of DoublePIR.
fn neighbours<'a>(alloc: Global, kernel: Counting<'a>) -> Result<Store<Counting<'a>>, Fail> {
    let header = Header {
        groups: 8,
        count: 64,
        ..super::TWO_RECORDS
    };
    let snapshot = header.with_records([7u8; 64].to_vec(alloc)?);
    let store = super::open(alloc, kernel, snapshot)?;
    Ok(store)
}

// 16 records of one byte in one column, the fewest of which whole words are taken, and secrets of
// 32 words: each word of the first hint has four digits, so that the hints of DoublePIR have 128
// rows.
fn one_column<'a>(alloc: Global, kernel: Counting<'a>) -> Result<Store<Counting<'a>>, Fail> {
    let header = Header {
        groups: 16,
        count: 16,
        dimension: 32,
        ..super::TWO_RECORDS
    };
    let snapshot = header.with_records([7u8; 16].to_vec(alloc)?);
    let store = super::open(alloc, kernel, snapshot)?;
    Ok(store)
}

// One digit changes: one word of the first hint, and the four digits of this word, of which none
// stays. A publication that makes a hint by `setup` multiplies 64 words for the first or 32 for the
// client's, and fails here.
#[test]
fn one_edit_multiplies_five_words(rt: HostRuntime) -> Result<(), Fail> {
    let products = Cell::new(0);
    let kernel = Counting {
        products: &products,
    };
    let mut store = neighbours(rt.alloc(), kernel)?;
    assert!(rt; products.get() == 64 + 32);
    products.set(0);
    assert_eq!(rt; super::edit(&mut store, 19, &[200]), Ok(()));
    assert_eq!(rt; super::publish(&mut store), Ok(2));
    assert_eq!(rt; products.get(), 5);
    Ok(())
}

// Three digits of as many rows: each of their four digits is taken for all rows at once. The record
// between that is edited to the byte it has is not taken.
#[test]
fn rows_that_stay_are_not_multiplied(rt: HostRuntime) -> Result<(), Fail> {
    let products = Cell::new(0);
    let kernel = Counting {
        products: &products,
    };
    let mut store = neighbours(rt.alloc(), kernel)?;
    products.set(0);
    assert_eq!(rt; super::edit(&mut store, 16, &[1]), Ok(()));
    assert_eq!(rt; super::edit(&mut store, 17, &[2]), Ok(()));
    assert_eq!(rt; super::edit(&mut store, 18, &[7]), Ok(()));
    assert_eq!(rt; super::edit(&mut store, 19, &[200]), Ok(()));
    assert_eq!(rt; super::publish(&mut store), Ok(2));
    assert_eq!(rt; products.get(), 3 + 3 * 4);
    Ok(())
}

#[test]
fn equal_bytes_multiply_nothing(rt: HostRuntime) -> Result<(), Fail> {
    let products = Cell::new(0);
    let kernel = Counting {
        products: &products,
    };
    let mut store = neighbours(rt.alloc(), kernel)?;
    products.set(0);
    assert_eq!(rt; super::edit(&mut store, 19, &[7]), Ok(()));
    assert_eq!(rt; super::edit(&mut store, 20, &[7]), Ok(()));
    assert_eq!(rt; super::publish(&mut store), Ok(2));
    assert_eq!(rt; products.get(), 0);
    Ok(())
}

// The new column's one digit is the first that its row gets there: one word of the first hint, and
// the four digits of this word. A publication that makes a hint anew for nine columns multiplies 72
// words for the first or 32 for the client's.
#[test]
fn an_append_with_a_new_column_multiplies_five_words(rt: HostRuntime) -> Result<(), Fail> {
    let products = Cell::new(0);
    let kernel = Counting {
        products: &products,
    };
    let mut store = neighbours(rt.alloc(), kernel)?;
    products.set(0);
    assert_eq!(rt; super::append(&mut store, &[200]), Ok(()));
    assert_eq!(rt; super::publish(&mut store), Ok(2));
    assert_eq!(rt; products.get(), 5);
    Ok(())
}

// Each row of the first hint takes 32 products. In the client's, 128 digits that are each
// multiplied would take 16 * 32 of them: 65,536 products. Of whole words, all of which follow one
// list, the 96 higher digits are multiplied and added, and the list's product is made once; each of
// the 32 lowest digits takes those of its word and that one. A word, and the first one of each 8
// once more, is tested before: its digits and the list, for each row.
#[test]
fn rows_of_a_column_are_taken_together(rt: HostRuntime) -> Result<(), Fail> {
    let products = Cell::new(0);
    let kernel = Counting {
        products: &products,
    };
    let mut store = one_column(rt.alloc(), kernel)?;
    products.set(0);
    for i in 0..16 {
        assert_eq!(rt; super::edit(&mut store, i, &[200]), Ok(()));
    }
    assert_eq!(rt; super::publish(&mut store), Ok(2));
    let higher = 96 * (16 * 32 + 32);
    let lowest = 16 * 32 + 32 * 4 * 32;
    let tests = (32 + 4) * 5 * 16;
    assert!(rt; products.get() <= 16 * 32 + higher + lowest + tests);
    Ok(())
}
