//! The file of a small hint, written, read and changed.
//! Proved by `tests/long/run --prove`.

use client_core::{Hint, Plan, Scheme, ServerInfo};
use hint_file::{
    HintError, KeptHint, MOST_HEAD, file_name, head_in, hint_file, hint_file_len, is_no_newer,
    parts_for, parts_in, place_of, read_hint, read_old_hint, serves, state_lines,
};
use matrix_u32::Matrix;
use sha2::{Digest, Sha256};
use std::alloc::Global;
use std::test::Fail;

/// How many bytes stand before the digest of a head: the magic, the fields and the digest of one
/// part.
const BODY_LEN: usize = 118;

// The first bytes, so many, and the others.
fn cut(bytes: &[u8], at: usize) -> (&[u8], &[u8]) {
    bytes.split_at(at.min(bytes.len()))
}

// What a server reported: five records of two bytes, two to a column of digits of eight bits.
fn known() -> ServerInfo {
    ServerInfo {
        version: 7,
        count: 5,
        plan: Plan {
            form: 1,
            width: 8,
            record_len: 2,
            groups: 2,
            dimension: 3,
            seed: [9u8; 32],
        },
    }
}

// A hint of four rows and three columns.
fn hint(alloc: Global, scheme: Scheme, version: u64) -> Result<Hint, Fail> {
    let words = vec![in alloc; 0x0403_0201u32; 12]?;
    Ok(Hint {
        scheme,
        version,
        matrix: Matrix::from_words(4, 3, words)?,
    })
}

// The bytes of its file.
fn bytes_of(alloc: Global, hint: &Hint) -> Result<Vec<u8>, Fail> {
    let file = hint_file(alloc, &known(), hint)?;
    let mut bytes = vec![in alloc; 0u8; file.len()]?;
    file.write_into(&mut bytes);
    Ok(bytes)
}

// The same hint in a file of before.
fn old_bytes(alloc: Global, new: &[u8]) -> Result<Vec<u8>, Fail> {
    let mut bytes = Vec::new(alloc);
    bytes.extend_from_slice(b"PIRHINT2")?;
    bytes.extend_from_slice(&[5u8; 32])?;
    let (body, rest) = cut(new, BODY_LEN);
    bytes.extend_from_slice(cut(body, 8).1)?;
    let mut hasher = Sha256::new();
    hasher.update(&bytes);
    bytes.extend_from_slice(&hasher.finalize())?;
    bytes.extend_from_slice(cut(rest, 32).1)?;
    Ok(bytes)
}

// Whether this is the hint of that version, with what the server had reported.
fn is_the_hint(kept: &KeptHint, version: u64) -> bool {
    kept.known == known()
        && kept.hint.version == version
        && kept.hint.matrix.rows() == 4
        && kept.hint.matrix.cols() == 3
        && kept.hint.matrix.words() == [0x0403_0201u32; 12].as_slice()
}

#[test]
fn a_file_is_read_as_it_was_written(rt: HostRuntime) -> Result<(), Fail> {
    let alloc = rt.alloc();
    let whole = hint(alloc, Scheme::Simple, 7)?;
    let bytes = bytes_of(alloc, &whole)?;
    assert_eq!(rt; bytes.len(), 118 + 32 + 48);
    assert_eq!(rt; hint_file_len(&whole), bytes.len());
    let mut written = Vec::new(alloc);
    assert!(rt;
        hint_file(alloc, &known(), &whole)?
            .write_to(alloc, &mut written)
            .is_ok()
    );
    assert_eq!(rt; written.as_slice(), bytes.as_slice());
    match read_hint(alloc, &mut bytes.as_slice()) {
        Ok(kept) => assert!(rt; is_the_hint(&kept, 7)),
        Err(fault) => assert_eq!(rt; fault, HintError::Memory),
    }
    let head = head_in(alloc, cut(&bytes, MOST_HEAD).0)?;
    assert_eq!(rt; head.file_len(), bytes.len() as u64);
    assert!(rt; is_no_newer(&head, &known(), whole.version));
    assert!(rt; !is_no_newer(&head, &known(), 6));
    Ok(())
}

#[test]
fn each_form_is_read_by_its_own_call(rt: HostRuntime) -> Result<(), Fail> {
    let alloc = rt.alloc();
    let bytes = bytes_of(alloc, &hint(alloc, Scheme::Double, 3)?)?;
    let old = old_bytes(alloc, &bytes)?;
    match read_old_hint(alloc, &mut old.as_slice()) {
        Ok(kept) => assert!(rt; is_the_hint(&kept, 3)),
        Err(fault) => assert_eq!(rt; fault, HintError::Memory),
    }
    assert!(rt;
        matches!(
            read_old_hint(alloc, &mut bytes.as_slice()),
            Err(HintError::Damaged)
        )
    );
    assert!(rt;
        matches!(
            read_hint(alloc, &mut old.as_slice()),
            Err(HintError::Damaged)
        )
    );
    Ok(())
}

// Whether these bytes are refused as damaged.
fn is_damaged(alloc: Global, mut bytes: &[u8]) -> bool {
    matches!(read_hint(alloc, &mut bytes), Err(HintError::Damaged))
}

#[test]
fn each_byte_counts(rt: HostRuntime) -> Result<(), Fail> {
    let alloc = rt.alloc();
    let bytes = bytes_of(alloc, &hint(alloc, Scheme::Simple, 7)?)?;
    assert!(rt; !is_damaged(alloc, &bytes));
    for at in 0..bytes.len() {
        let (before, rest) = cut(&bytes, at);
        assert!(rt; is_damaged(alloc, before));
        let mut other = before.to_vec(alloc)?;
        let (byte, after) = cut(rest, 1);
        for b in byte {
            other.push(*b ^ 4)?;
        }
        other.extend_from_slice(after)?;
        assert!(rt; is_damaged(alloc, &other));
    }
    let mut longer = bytes;
    longer.push(0)?;
    assert!(rt; is_damaged(alloc, &longer));
    Ok(())
}

#[test]
fn what_serves_does_not_depend_on_the_record(rt: HostRuntime) -> Result<(), Fail> {
    let alloc = rt.alloc();
    let whole = hint(alloc, Scheme::Simple, 7)?;
    let bytes = bytes_of(alloc, &whole)?;
    let head = head_in(alloc, &bytes)?;
    let now = known();
    assert!(rt; serves(&head, &now));
    for index in 0..now.count {
        let Some(span) = parts_for(&head, &now, index) else {
            return Err(Fail::new("no part"));
        };
        let Some((start, len)) = place_of(&head, span) else {
            return Err(Fail::new("no part"));
        };
        let (found, _) = cut(cut(&bytes, start as usize).1, len);
        let part = parts_in(alloc, &head, span, found)?;
        assert_eq!(rt; part.matrix.words(), whole.matrix.words());
    }
    assert!(rt; parts_for(&head, &now, now.count).is_none());
    assert!(rt; !serves(&head, &ServerInfo { version: 8, ..now }));
    let other = Plan {
        seed: [8u8; 32],
        ..now.plan
    };
    assert!(rt; !serves(&head, &ServerInfo { plan: other, ..now }));
    Ok(())
}

#[test]
fn the_lines_name_each_hint(rt: HostRuntime) -> Result<(), Fail> {
    let alloc = rt.alloc();
    assert_eq!(rt; state_lines(alloc, &[])?.as_str(), "hint none\n");
    let mut heads = Vec::new(alloc);
    for scheme in [Scheme::Double, Scheme::Simple] {
        heads.push(head_in(alloc, &bytes_of(alloc, &hint(alloc, scheme, 6)?)?)?)?;
    }
    let lines = state_lines(alloc, &heads)?;
    assert_eq!(rt;
        lines.as_str(),
        "hint double 6\nversion 7\nrecords 5\ndimension 3\nhint simple 6\nversion 7\nrecords 5\ndimension 3\n"
    );
    // By Python: hashlib.sha256(struct.pack('<HBHHH', 1, 8, 2, 2, 3) + bytes([9]) * 32).hexdigest()
    assert_eq!(rt;
        file_name(alloc, Scheme::Simple, &known().plan)?.as_str(),
        "simple-9aca3029b88ac42914783b07b96b67549227eac132034e1baba2fc58ce654e2d.hint"
    );
    Ok(())
}
