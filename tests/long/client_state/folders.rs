//! What a real folder has after each call.

use client_state::{Folder, FolderFault, OldFolder};
use client_core::{Hint, Plan, Scheme, ServerInfo};
use hint_file::{HintError, file_name, parts_for};
use matrix_u32::Matrix;
use std::alloc::Global;
use std::fs;
use std::os::unix::fs::{PermissionsExt, symlink};
use std::test::Fail;

// What a server reported with this version: five records of two bytes, two to a column of digits of
// eight bits.
fn known(version: u64) -> ServerInfo {
    ServerInfo {
        version,
        count: 5,
        plan: Plan {
            form: 1,
            width: 8,
            record_len: 2,
            groups: 2,
            dimension: 3,
            seed: [9u8; 32],
        },
    }
}

// A hint of this version, of four rows and three columns.
fn hint(alloc: Global, scheme: Scheme, version: u64) -> Result<Hint, Fail> {
    let words = vec![in alloc; 0x0403_0201u32; 12]?;
    Ok(Hint {
        scheme,
        version,
        matrix: Matrix::from_words(4, 3, words)?,
    })
}

// The bits that say who may do what with a file.
fn mode_of(rt: &HostRuntime, name: &str) -> Result<u32, Fail> {
    Ok(fs::metadata(rt, name)?.permissions().mode() & 0o777)
}

// The name of the file of the hint of a scheme.
fn path_of(alloc: Global, folder: &str, scheme: Scheme) -> Result<String, Fail> {
    let name = file_name(alloc, scheme, &known(1).plan)?;
    Ok(format!(in alloc; "{folder}/{name}")?)
}

#[test]
fn a_hint_is_kept_and_read(rt: HostRuntime) -> Result<(), Fail> {
    let alloc = rt.alloc();
    let folder = Folder::open(&rt, "kept")?;
    assert_eq!(rt; mode_of(&rt, "kept")?, 0o700);
    assert!(rt; folder.kept(Scheme::Simple, &known(7).plan)?.is_none());
    folder.keep(&known(7), &hint(alloc, Scheme::Simple, 7)?)?;
    assert_eq!(rt;
        mode_of(&rt, path_of(alloc, "kept", Scheme::Simple)?.as_str())?,
        0o600
    );
    assert!(rt; folder.kept(Scheme::Double, &known(7).plan)?.is_none());
    let Some(kept) = folder.kept(Scheme::Simple, &known(7).plan)? else {
        return Err(Fail::new("no hint is kept"));
    };
    // Another run puts the next version's hint in its place: the open file stays as it was.
    folder.keep(&known(8), &hint(alloc, Scheme::Simple, 8)?)?;
    assert_eq!(rt; kept.head().fields.version, 7);
    let whole = kept.whole()?;
    assert_eq!(rt; whole.known, known(7));
    assert_eq!(rt; whole.hint.version, 7);
    let Some(span) = parts_for(kept.head(), &known(7), 2) else {
        return Err(Fail::new("no parts"));
    };
    let part = kept.parts(span)?;
    assert_eq!(rt; part.matrix.words(), whole.hint.matrix.words());
    fs::remove_dir_all(&rt, "kept")?;
    Ok(())
}

#[test]
fn an_older_hint_replaces_none(rt: HostRuntime) -> Result<(), Fail> {
    let alloc = rt.alloc();
    let folder = Folder::open(&rt, "older")?;
    folder.keep(&known(7), &hint(alloc, Scheme::Simple, 6)?)?;
    folder.keep(&known(6), &hint(alloc, Scheme::Simple, 6)?)?;
    folder.keep(&known(7), &hint(alloc, Scheme::Simple, 5)?)?;
    folder.keep(&known(3), &hint(alloc, Scheme::Double, 2)?)?;
    fs::write(&rt, "older/other.hint", "other")?;
    let kept = folder.kept_heads()?;
    assert_eq!(rt; kept.damaged, 0);
    let mut versions = Vec::new(alloc);
    for head in &kept.heads {
        versions.push(head.fields.known.version)?;
        versions.push(head.fields.version)?;
    }
    assert_eq!(rt; versions.as_slice(), [3u64, 2, 7, 6].as_slice());
    folder.forget()?;
    assert_eq!(rt; folder.kept_heads()?.heads.len(), 0);
    assert!(rt; fs::exists(&rt, "older/other.hint")?);
    fs::remove_file(&rt, "older/other.hint")?;
    // Nothing else is left.
    fs::remove_dir(&rt, "older")?;
    assert!(rt; matches!(Folder::standing(&rt, "older"), Err(FolderFault::State)));
    Ok(())
}

#[test]
fn what_is_no_file_is_never_opened(rt: HostRuntime) -> Result<(), Fail> {
    let alloc = rt.alloc();
    let folder = Folder::open(&rt, "links")?;
    fs::write(&rt, "links/other", "other")?;
    symlink(
        &rt,
        "other",
        path_of(alloc, "links", Scheme::Simple)?.as_str(),
    )?;
    assert!(rt;
        matches!(
            folder.kept(Scheme::Simple, &known(7).plan),
            Err(HintError::Read)
        )
    );
    assert_eq!(rt;
        folder.keep(&known(7), &hint(alloc, Scheme::Simple, 7)?),
        Err(FolderFault::State)
    );
    assert_eq!(rt;
        fs::read(&rt, "links/other")?.as_slice(),
        b"other".as_slice()
    );
    fs::write(
        &rt,
        path_of(alloc, "links", Scheme::Double)?.as_str(),
        "damaged",
    )?;
    assert_eq!(rt; folder.kept_heads()?.damaged, 2);
    // One that is damaged is replaced.
    folder.keep(&known(7), &hint(alloc, Scheme::Double, 7)?)?;
    assert_eq!(rt; folder.kept_heads()?.damaged, 1);
    let mut access = fs::metadata(&rt, "links")?.permissions();
    access.set_mode(0o750);
    fs::set_permissions(&rt, "links", access)?;
    assert!(rt; matches!(Folder::open(&rt, "links"), Err(FolderFault::State)));
    fs::remove_dir_all(&rt, "links")?;
    Ok(())
}

#[test]
fn a_folder_of_before_is_taken_over_once(rt: HostRuntime) -> Result<(), Fail> {
    let folder = Folder::open(&rt, "before")?;
    fs::write(&rt, "before/seed", "a seed of another program")?;
    assert_eq!(rt; folder.take_old()?, None);
    fs::write(&rt, "before/seed", "PIRSEED1 and a seed")?;
    fs::write(&rt, "before/counter", "PIRNEXT1 and a number")?;
    fs::write(&rt, "before/hint", "PIRHINT2 and no hint")?;
    fs::write(&rt, "before/lock", "")?;
    fs::write(&rt, "before/other", "other")?;
    assert_eq!(rt; folder.take_old()?, Some(OldFolder { hint_kept: false }));
    assert_eq!(rt; folder.take_old()?, None);
    fs::remove_file(&rt, "before/other")?;
    fs::remove_dir(&rt, "before")?;
    Ok(())
}

// The bytes of the file of before of a hint of version 6, when version 7 was known; the digests are
// Python's, by hashlib.sha256.
fn old_hint(alloc: Global) -> Result<Vec<u8>, Fail> {
    let mut bytes = Vec::new(alloc);
    bytes.extend_from_slice(b"PIRHINT2")?;
    bytes.extend_from_slice(&[5u8; 32])?;
    bytes.extend_from_slice(b"\x01\x00\x08\x02\x00\x02\x00\x03\x00")?;
    bytes.extend_from_slice(&[9u8; 32])?;
    bytes.extend_from_slice(b"\x05\x00\x00\x00\x07\x00\x00\x00\x00\x00\x00\x00\x00")?;
    bytes.extend_from_slice(b"\x06\x00\x00\x00\x00\x00\x00\x00\x04\x00\x00\x00\x00\x00\x00\x00")?;
    bytes.extend_from_slice(b"\x03\x00\x00\x00\x00\x00\x00\x00")?;
    bytes.extend_from_slice(b"\x18\x23\x55\x25\xe5\x06\x5e\x80\xce\xd5\xe1\x10\x16\x9a\x62\x77")?;
    bytes.extend_from_slice(b"\x21\x9c\xbd\xe3\x42\xc0\x77\x9d\xa2\x74\x61\x2f\x2a\x81\x29\x8e")?;
    bytes.extend_from_slice(b"\x01\x7f\x23\xfa\x4c\x74\xda\x5b\xf5\x74\x5d\x46\x2b\xc8\xb2\x8e")?;
    bytes.extend_from_slice(b"\xe7\xfb\xd2\xbf\x93\x67\xcd\xa4\x74\x69\x35\xb7\xe9\x5d\xf8\xc0")?;
    for _ in 0..12 {
        bytes.extend_from_slice(&[1u8, 2, 3, 4])?;
    }
    Ok(bytes)
}

#[test]
fn the_hint_of_a_folder_of_before_is_kept(rt: HostRuntime) -> Result<(), Fail> {
    let folder = Folder::open(&rt, "old")?;
    fs::write(&rt, "old/seed", "PIRSEED1 and a seed")?;
    fs::write(&rt, "old/hint", old_hint(rt.alloc())?.as_slice())?;
    assert_eq!(rt; folder.take_old()?, Some(OldFolder { hint_kept: true }));
    assert!(rt; !fs::exists(&rt, "old/seed")?);
    assert!(rt; !fs::exists(&rt, "old/hint")?);
    let Some(kept) = folder.kept(Scheme::Simple, &known(7).plan)? else {
        return Err(Fail::new("no hint is kept"));
    };
    assert_eq!(rt; kept.head().fields.version, 6);
    assert_eq!(rt; kept.whole()?.known, known(7));
    fs::remove_dir_all(&rt, "old")?;
    Ok(())
}
