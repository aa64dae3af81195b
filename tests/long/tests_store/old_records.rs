//! What changed since each version: the entries of a log, and the old records that it keeps.

use digit_pack::{DigitStore, Flat, Layout, digits_of_records};
use hint_changes::{PublicRow, are_entries, move_by_entries};
use matrix_u32::{Kernel, Matrix, Plain};
use record_log::{OldRecords, RecordLog};
use seed_expand::expand;
use snapshot_file::RecordSource;
use std::alloc::{AllocError, Global};
use std::process::Abort;
use std::test::Fail;

// Records of one length, whose bytes stand one after another.
#[derive(Drop)]
struct PlainRecords {
    len: usize,
    bytes: Vec<u8>,
}

impl RecordSource for PlainRecords {
    ghost bytes = { λ r. r.bytes.items };

    ghost record_len = { λ r. r.len };

    fn copy_record(&self, i: usize, out: &mut [u8]) {
        out.copy_from_slice(self.record(i));
    }
}

impl PlainRecords {
    // So many records of zeros.
    fn zeros(alloc: Global, len: usize, count: usize) -> Result<PlainRecords, AllocError> {
        let bytes = Vec::from_elem(alloc, 0u8, len * count)?;
        Ok(PlainRecords { len, bytes })
    }

    fn count(&self) -> usize {
        self.bytes.len() / self.len
    }

    fn record(&self, i: usize) -> &[u8] {
        &self.bytes[i * self.len..(i + 1) * self.len]
    }

    fn write(&mut self, i: usize, bytes: &[u8]) {
        let at = i * self.len;
        self.bytes[at..at + self.len].copy_from_slice(bytes);
    }
}

// These records of one byte.
fn bytes_as_records(alloc: Global, bytes: &[u8]) -> Result<PlainRecords, AllocError> {
    let bytes = bytes.to_vec(alloc)?;
    Ok(PlainRecords { len: 1, bytes })
}

// What a publication changed: the numbers of these records, and the bytes that they had before.
fn olds<const N: usize>(
    alloc: Global,
    records: &[(u32, [u8; N])],
) -> Result<OldRecords, AllocError> {
    let mut olds = OldRecords::new(alloc, N);
    for (number, bytes) in records {
        olds.push(*number, bytes)?;
    }
    Ok(olds)
}

// So many records of two zeros.
fn some_olds(alloc: Global, count: u32) -> Result<OldRecords, AllocError> {
    let mut olds = OldRecords::new(alloc, 2);
    for i in 0..count {
        olds.push(i, &[0, 0])?;
    }
    Ok(olds)
}

// The log of some publications, the oldest first, with room for all their bytes.
fn log_of<const N: usize>(
    alloc: Global,
    lists: &[&[(u32, [u8; N])]],
) -> Result<RecordLog, AllocError> {
    let mut log = RecordLog::new(alloc, N, 1000)?;
    for list in lists {
        log.push(olds(alloc, list)?);
    }
    Ok(log)
}

// What changed since the newest n publications, in so many bytes at most.
fn since(
    alloc: Global,
    log: &RecordLog,
    n: usize,
    records: &PlainRecords,
    most: usize,
) -> Result<Option<Vec<u8>>, AllocError> {
    log.changes_since(alloc, n, records, records.count(), most)
}

// Compares what changed since the newest n publications.
fn entries_are(
    rt: &(impl Abort + AllocGlobal),
    log: &RecordLog,
    n: usize,
    records: &PlainRecords,
    wanted: &[u8],
) -> Result<(), AllocError> {
    match since(rt.alloc(), log, n, records, usize::MAX)? {
        Some(found) => assert_eq!(rt; found.as_slice(), wanted, "{n}"),
        None => panic!(rt; "there is no answer for {n}"),
    }
    Ok(())
}

#[test]
fn an_empty_log(rt: HostRuntime) -> Result<(), Fail> {
    let log = RecordLog::new(rt.alloc(), 2, 100)?;
    assert_eq!(rt; log.len(), 0);
    for count in [0, 1, 300] {
        let records = PlainRecords::zeros(rt.alloc(), 2, count)?;
        for most in [0, 1, usize::MAX] {
            let Some(found) = since(rt.alloc(), &log, 0, &records, most)? else {
                panic!(rt; "there is no answer at {count} {most}");
            };
            assert!(rt; found.is_empty());
        }
    }
    Ok(())
}

#[test]
fn one_record_of_one_publication(rt: HostRuntime) -> Result<(), Fail> {
    let log = log_of(rt.alloc(), &[&[(258, [1, 2])]])?;
    assert_eq!(rt; log.len(), 1);
    let mut records = PlainRecords::zeros(rt.alloc(), 2, 300)?;
    records.write(258, &[3, 4]);
    entries_are(&rt, &log, 1, &records, &[2, 1, 0, 0, 1, 2, 3, 4])?;
    entries_are(&rt, &log, 0, &records, &[])?;
    Ok(())
}

#[test]
fn a_record_that_three_publications_changed(rt: HostRuntime) -> Result<(), Fail> {
    let log = log_of(rt.alloc(), &[&[(1, [10])], &[(1, [20])], &[(1, [30])]])?;
    let records = bytes_as_records(rt.alloc(), &[0, 40, 0])?;
    entries_are(&rt, &log, 3, &records, &[1, 0, 0, 0, 10, 40])?;
    entries_are(&rt, &log, 2, &records, &[1, 0, 0, 0, 20, 40])?;
    entries_are(&rt, &log, 1, &records, &[1, 0, 0, 0, 30, 40])?;
    entries_are(&rt, &log, 0, &records, &[])?;
    Ok(())
}

#[test]
fn there_and_back(rt: HostRuntime) -> Result<(), Fail> {
    let log = log_of(rt.alloc(), &[&[(2, [5])], &[(2, [6])]])?;
    let records = bytes_as_records(rt.alloc(), &[0, 0, 5])?;
    entries_are(&rt, &log, 2, &records, &[])?;
    entries_are(&rt, &log, 1, &records, &[2, 0, 0, 0, 6, 5])?;
    // A publication that lists a record with the bytes that it kept.
    let kept = log_of(rt.alloc(), &[&[(0, [7]), (2, [4])]])?;
    let records = bytes_as_records(rt.alloc(), &[7, 0, 5])?;
    entries_are(&rt, &kept, 1, &records, &[2, 0, 0, 0, 4, 5])?;
    Ok(())
}

#[test]
fn entries_ascend_and_name_each_record_once(rt: HostRuntime) -> Result<(), Fail> {
    let log = log_of(
        rt.alloc(),
        &[&[(5, [50]), (9, [90])], &[(1, [10]), (9, [91])]],
    )?;
    let records = bytes_as_records(rt.alloc(), &[0, 11, 0, 0, 0, 51, 0, 0, 0, 92, 0])?;
    let wanted = [1, 0, 0, 0, 10, 11, 5, 0, 0, 0, 50, 51, 9, 0, 0, 0, 90, 92];
    entries_are(&rt, &log, 2, &records, &wanted)?;
    entries_are(
        &rt,
        &log,
        1,
        &records,
        &[1, 0, 0, 0, 10, 11, 9, 0, 0, 0, 91, 92],
    )?;
    // The first record and the last one.
    let ends = log_of(rt.alloc(), &[&[(0, [1]), (3, [2])], &[(3, [3])]])?;
    let records = bytes_as_records(rt.alloc(), &[255, 0, 0, 254])?;
    entries_are(
        &rt,
        &ends,
        2,
        &records,
        &[0, 0, 0, 0, 1, 255, 3, 0, 0, 0, 2, 254],
    )?;
    entries_are(&rt, &ends, 1, &records, &[3, 0, 0, 0, 3, 254])?;
    Ok(())
}

#[test]
fn the_limit_of_an_answer(rt: HostRuntime) -> Result<(), Fail> {
    let log = log_of(rt.alloc(), &[&[(0, [1]), (1, [2]), (2, [3])]])?;
    let records = bytes_as_records(rt.alloc(), &[9, 8, 7])?;
    let Some(found) = since(rt.alloc(), &log, 1, &records, 18)? else {
        panic!(rt; "there is no answer of 18 bytes");
    };
    let wanted = [0, 0, 0, 0, 1, 9, 1, 0, 0, 0, 2, 8, 2, 0, 0, 0, 3, 7];
    assert_eq!(rt; found.as_slice(), wanted.as_slice());
    for most in [0, 1, 5, 6, 12, 13, 17] {
        assert!(rt;
            since(rt.alloc(), &log, 1, &records, most)?.is_none(),
            "{most}"
        );
    }
    // One entry, of a record that is the same, and of one that isn't.
    let one = log_of(rt.alloc(), &[&[(1, [8])], &[(0, [0])]])?;
    for (n, most, is_there) in [
        (1, 0, false),
        (1, 5, false),
        (1, 6, true),
        (2, 6, true),
        (0, 0, true),
    ] {
        let found = since(rt.alloc(), &one, n, &records, most)?;
        assert_eq!(rt; found.is_some(), is_there, "{n} {most}");
    }
    Ok(())
}

// Record i is changed by publication i alone, so the newest n changed the last n records.
#[test]
fn the_17th_publication(rt: HostRuntime) -> Result<(), Fail> {
    let mut log = RecordLog::new(rt.alloc(), 1, 1000)?;
    for i in 0..17u32 {
        log.push(olds(rt.alloc(), &[(i, [100])])?);
        assert_eq!(rt; log.len(), (i as usize + 1).min(16));
    }
    let records = PlainRecords::zeros(rt.alloc(), 1, 17)?;
    for n in 0..17usize {
        let mut wanted = Vec::new(rt.alloc());
        for i in 17 - n..17 {
            wanted.extend_from_slice(&[i as u8, 0, 0, 0, 100, 0])?;
        }
        entries_are(&rt, &log, n, &records, &wanted)?;
    }
    Ok(())
}

// The last memory that is taken is that of the log itself: whichever request after it is refused,
// none is met.
#[test]
fn a_full_log_takes_no_memory(rt: HostRuntime) -> Result<(), Fail> {
    let mut lists = Vec::new(rt.alloc());
    for i in 0..40u32 {
        lists.push(olds(rt.alloc(), &[(i, [7, 7])])?)?;
    }
    let mut log = RecordLog::new(rt.alloc(), 2, 30)?;
    for k in 0..40usize {
        let Some(list) = lists.pop() else {
            break;
        };
        log.push(list);
        assert_eq!(rt; log.len(), (k + 1).min(15));
    }
    assert!(rt; lists.is_empty());
    Ok(())
}

// Publications of two, three and four records of two bytes.
fn two_three_four(alloc: Global, most: usize) -> Result<RecordLog, AllocError> {
    let mut log = RecordLog::new(alloc, 2, most)?;
    for count in 2..5 {
        log.push(some_olds(alloc, count)?);
    }
    Ok(log)
}

#[test]
fn the_limit_of_a_log(rt: HostRuntime) -> Result<(), Fail> {
    for (most, wanted) in [(18, 3), (17, 2), (14, 2), (13, 1), (8, 1), (7, 0), (0, 0)] {
        assert_eq!(rt; two_three_four(rt.alloc(), most)?.len(), wanted, "{most}");
    }
    let mut log = two_three_four(rt.alloc(), 14)?;
    let mut records = PlainRecords::zeros(rt.alloc(), 2, 8)?;
    records.write(2, &[1, 2]);
    records.write(3, &[3, 4]);
    let wanted = [2, 0, 0, 0, 0, 0, 1, 2, 3, 0, 0, 0, 0, 0, 3, 4];
    entries_are(&rt, &log, 2, &records, &wanted)?;
    // One that has too many bytes for itself.
    log.push(some_olds(rt.alloc(), 8)?);
    assert_eq!(rt; log.len(), 0);
    entries_are(&rt, &log, 0, &records, &[])?;
    // Those of no records count, too.
    log.push(some_olds(rt.alloc(), 7)?);
    for k in 0..20usize {
        log.push(some_olds(rt.alloc(), 0)?);
        assert_eq!(rt; log.len(), (k + 2).min(16));
        let is_too_long = since(rt.alloc(), &log, log.len(), &records, 0)?.is_none();
        assert_eq!(rt; is_too_long, k < 15, "{k}");
    }
    Ok(())
}

// Only the last byte of a record of this length changes, from 5 to 6; the others are 3.
fn last_byte_alone<const N: usize>(rt: &(impl Abort + AllocGlobal)) -> Result<(), AllocError> {
    let mut bytes = [3; N];
    bytes[N - 1] = 5;
    let log = log_of(rt.alloc(), &[&[(1, bytes)]])?;
    let mut wanted = Vec::new(rt.alloc());
    wanted.extend_from_slice(&[1, 0, 0, 0])?;
    wanted.extend_from_slice(&bytes)?;
    bytes[N - 1] = 6;
    wanted.extend_from_slice(&bytes)?;
    let mut records = PlainRecords::zeros(rt.alloc(), N, 2)?;
    records.write(1, &bytes);
    entries_are(rt, &log, 1, &records, &wanted)
}

#[test]
fn the_shortest_and_the_longest_records(rt: HostRuntime) -> Result<(), Fail> {
    last_byte_alone::<1>(&rt)?;
    last_byte_alone::<2>(&rt)?;
    last_byte_alone::<256>(&rt)?;
    Ok(())
}

#[test]
fn old_records_are_found(rt: HostRuntime) -> Result<(), Fail> {
    let none = OldRecords::new(rt.alloc(), 2);
    assert_eq!(rt; none.count(), 0);
    assert_eq!(rt; none.byte_len(), 0);
    assert!(rt; none.bytes_of(0).is_none());
    assert_eq!(rt; none.first_from(0), None);
    let some = olds(rt.alloc(), &[(3, [1, 2]), (4, [3, 4]), (9, [5, 6])])?;
    assert_eq!(rt; some.count(), 3);
    assert_eq!(rt; some.record_len(), 2);
    assert_eq!(rt; some.byte_len(), 6);
    assert_eq!(rt; some.bytes_of(3), Some([1, 2].as_slice()));
    assert_eq!(rt; some.bytes_of(4), Some([3, 4].as_slice()));
    assert_eq!(rt; some.bytes_of(9), Some([5, 6].as_slice()));
    for number in [0, 2, 5, 8, 10, u32::MAX] {
        assert!(rt; some.bytes_of(number).is_none(), "{number}");
    }
    for (least, wanted) in [(0, 3), (3, 3), (4, 4), (5, 9), (9, 9)] {
        assert_eq!(rt; some.first_from(least), Some(wanted));
    }
    assert_eq!(rt; some.first_from(10), None);
    assert_eq!(rt; some.first_from(u32::MAX), None);
    let last = olds(rt.alloc(), &[(0, [0]), (u32::MAX, [1])])?;
    assert_eq!(rt; last.first_from(0), Some(0));
    assert_eq!(rt; last.first_from(1), Some(u32::MAX));
    assert_eq!(rt; last.first_from(u32::MAX), Some(u32::MAX));
    assert_eq!(rt; last.bytes_of(u32::MAX), Some([1].as_slice()));
    Ok(())
}

// The first n even numbers, each three times as a byte.
fn are_even_numbers(rt: &impl Abort, olds: &OldRecords, n: u32) {
    assert_eq!(rt; olds.count(), n as usize);
    assert_eq!(rt; olds.byte_len(), 3 * n as usize);
    for i in 0..n {
        let byte = (2 * i % 256) as u8;
        assert_eq!(rt; olds.bytes_of(2 * i), Some([byte; 3].as_slice()));
        assert!(rt; olds.bytes_of(2 * i + 1).is_none());
    }
    assert_eq!(rt; olds.first_from(2 * n), None);
}

// With any one request for memory refused, this test passes: what was refused is done when it is
// asked for again.
#[test]
fn refused_memory_leaves_old_records(rt: HostRuntime) -> Result<(), Fail> {
    let mut olds = OldRecords::new(rt.alloc(), 3);
    for i in 0..40u32 {
        let bytes = [(2 * i % 256) as u8; 3];
        if olds.push(2 * i, &bytes).is_err() {
            are_even_numbers(&rt, &olds, i);
            olds.push(2 * i, &bytes)?;
        }
        are_even_numbers(&rt, &olds, i + 1);
    }
    Ok(())
}

const SEED: [u8; 32] = [9; 32];

const DIMENSION: usize = 3;

const LEN: usize = 2;

const COUNT: usize = 100;

// The most old bytes that the log has: those of some 16 publications.
const MOST: usize = 96;

// Numbers that look random, which are the same at each run.
#[derive(Clone, Copy)]
struct Numbers {
    state: u32,
}

impl Numbers {
    // One below `end`.
    fn below(&mut self, end: u32) -> u32 {
        self.state = self.state.wrapping_mul(1664525).wrapping_add(1013904223);
        (self.state >> 8) % end
    }
}

// A version of the records, and its hint, which was made from scratch.
#[derive(Drop)]
struct Version {
    bytes: Vec<u8>,
    hint: Matrix,
}

fn scratch(alloc: Global, layout: &Layout, bytes: &[u8]) -> Result<Matrix, Fail> {
    let digits: Flat = digits_of_records(alloc, layout, bytes)?;
    let mut matrix = Matrix::zeros(alloc, layout.rows(), layout.cols())?;
    for i in 0..layout.rows() {
        for j in 0..layout.cols() {
            matrix.set(i, j, digits.get(i, j));
        }
    }
    let a1 = expand(alloc, &SEED, 0, 0, layout.cols(), DIMENSION)?;
    let mut hint = Matrix::zeros(alloc, layout.rows(), DIMENSION)?;
    Plain.mul_into(&matrix, &a1, &mut hint);
    Ok(hint)
}

fn make_version(alloc: Global, layout: &Layout, bytes: &[u8]) -> Result<Version, Fail> {
    Ok(Version {
        bytes: bytes.to_vec(alloc)?,
        hint: scratch(alloc, layout, bytes)?,
    })
}

// Writes other bytes into some records, some of them the same as before, and says what they were.
fn publication(
    alloc: Global,
    numbers: &mut Numbers,
    records: &mut PlainRecords,
) -> Result<OldRecords, Fail> {
    let mut is_changed = [false; COUNT];
    for _ in 0..numbers.below(7) {
        is_changed[numbers.below(COUNT as u32) as usize] = true;
    }
    let mut olds = OldRecords::new(alloc, LEN);
    for i in 0..COUNT {
        if is_changed[i] {
            olds.push(i as u32, records.record(i))?;
            let byte = (numbers.below(2) * 255) as u8;
            records.write(i, &[byte, numbers.below(2) as u8]);
        }
    }
    Ok(olds)
}

// The entries of the records in which two versions differ.
fn differences(alloc: Global, before: &[u8], after: &[u8]) -> Result<Vec<u8>, AllocError> {
    let mut entries = Vec::new(alloc);
    for i in 0..COUNT {
        let old = &before[i * LEN..(i + 1) * LEN];
        let new = &after[i * LEN..(i + 1) * LEN];
        if *old != *new {
            let number = i as u32;
            entries.extend_from_slice(&number.to_le_bytes())?;
            entries.extend_from_slice(old)?;
            entries.extend_from_slice(new)?;
        }
    }
    Ok(entries)
}

// How many of the newest publications, which have so many old bytes each, are kept.
fn kept(sizes: &[usize]) -> usize {
    let mut room = MOST;
    let mut count = 0;
    for size in sizes.iter().rev() {
        if count == 16 || *size > room {
            break;
        }
        room -= *size;
        count += 1;
    }
    count
}

// Compares what the log says of an old version with the version itself, and moves its hint by it.
fn leads_to_the_newest(
    rt: &(impl Abort + AllocGlobal),
    layout: &Layout,
    public: &mut PublicRow,
    old: &Version,
    newest: &Version,
    entries: &[u8],
) -> Result<(), Fail> {
    let wanted = differences(rt.alloc(), &old.bytes, &newest.bytes)?;
    assert_eq!(rt; entries, wanted.as_slice());
    assert!(rt; are_entries(layout, entries));
    let words = old.hint.words().to_vec(rt.alloc())?;
    let mut hint = Matrix::from_words(layout.rows(), DIMENSION, words)?;
    move_by_entries(Plain, layout, public, &mut hint, entries);
    assert_eq!(rt; hint.words(), newest.hint.words());
    Ok(())
}

#[test]
fn all_versions_lead_to_the_newest(rt: HostRuntime) -> Result<(), Fail> {
    let layout = Layout::of_form(129, 9, LEN, 5, COUNT)?;
    let mut public = PublicRow::new(rt.alloc(), &SEED, DIMENSION)?;
    let mut numbers = Numbers { state: 1 };
    let mut records = PlainRecords::zeros(rt.alloc(), LEN, COUNT)?;
    let mut log = RecordLog::new(rt.alloc(), LEN, MOST)?;
    let mut versions = Vec::new(rt.alloc());
    let mut sizes = Vec::new(rt.alloc());
    let mut full = 0;
    versions.push(make_version(rt.alloc(), &layout, &records.bytes)?)?;
    for k in 1..201usize {
        let olds = publication(rt.alloc(), &mut numbers, &mut records)?;
        sizes.push(olds.byte_len())?;
        log.push(olds);
        versions.push(make_version(rt.alloc(), &layout, &records.bytes)?)?;
        assert_eq!(rt; log.len(), kept(&sizes), "{k}");
        full += usize::from(log.len() == 16);
        for n in 0..log.len() + 1 {
            let Some(entries) = since(rt.alloc(), &log, n, &records, usize::MAX)? else {
                panic!(rt; "there is no answer at {k} {n}");
            };
            leads_to_the_newest(
                &rt,
                &layout,
                &mut public,
                &versions[k - n],
                &versions[k],
                &entries,
            )?;
        }
    }
    // Both limits of the log were met.
    assert!(rt; full > 20 && full < 160, "{full}");
    Ok(())
}
