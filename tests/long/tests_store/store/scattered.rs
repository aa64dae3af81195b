//! A publication that changes more rows than are taken together, with others between them, and more
//! rows of the client's hint than change together.

use super::TWO_RECORDS;
use lane_kernels::Lanes;
use matrix_u32::{Kernel, Plain};
use std::alloc::Global;
use std::process::Abort;
use std::test::Fail;
use version_store::{Header, Scheme, Store};

// 160 rows of digits in two columns; hints of DoublePIR of 68 rows.
const GROUPS: u16 = 160;
const COUNT: u32 = 320;
const DIMENSION: u16 = 17;

// What records are before the publication and after it: every tenth stays.
fn byte_of(i: usize, published: bool) -> u8 {
    if published && i % 10 != 0 {
        ((i * 37 + 11) % 256) as u8
    } else {
        ((i * 89 + 5) % 256) as u8
    }
}

fn store_of<K: Kernel>(alloc: Global, kernel: K, published: bool) -> Result<Store<K>, Fail> {
    let mut bytes = Vec::new(alloc);
    for i in 0..COUNT as usize {
        bytes.push(byte_of(i, published))?;
    }
    let header = Header {
        groups: GROUPS,
        count: COUNT,
        dimension: DIMENSION,
        ..TWO_RECORDS
    };
    Ok(super::open(alloc, kernel, header.with_records(bytes))?)
}

fn keeps_its_hints<K: Kernel>(rt: &(impl Abort + AllocGlobal), kernel: K) -> Result<(), Fail> {
    let made = store_of(rt.alloc(), kernel, true)?;
    let mut kept = store_of(rt.alloc(), kernel, false)?;
    for i in 0..COUNT as usize {
        if i % 10 != 0 {
            assert_eq!(rt; super::edit(&mut kept, i, &[byte_of(i, true)]), Ok(()));
        }
    }
    assert_eq!(rt; super::publish(&mut kept), Ok(2));
    assert_eq!(rt; kept.digit_words(), made.digit_words());
    assert_eq!(rt; kept.server_words(), made.server_words());
    for scheme in [Scheme::Simple, Scheme::Double] {
        assert_eq!(rt; kept.hint_words(scheme, 0), made.hint_words(scheme, 0));
    }
    // Records 10 and 170 share a row, and both stay.
    assert_eq!(rt; kept.delta_since(1)?.map(|rows| rows.len()), Some(144));
    Ok(())
}

#[test]
fn scattered_edits_keep_the_hints(rt: HostRuntime) -> Result<(), Fail> {
    keeps_its_hints(&rt, Plain)?;
    keeps_its_hints(&rt, Lanes)
}
