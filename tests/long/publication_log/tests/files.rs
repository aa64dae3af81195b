//! A log in a real file.

use super::worked::example;
use super::{FIRST_LEN, HEADER_LEN, first, header, part, second};
use publication_log::{BadLog, OpenFault, open_log};
use std::fs;
use std::os::unix::fs::{PermissionsExt, symlink};
use std::test::Fail;

// Opens the log: how many bytes were cut off, how many publications it has, and the last version.
fn opened(rt: &HostRuntime, name: &str) -> Result<(usize, usize, u64), OpenFault> {
    let opened = open_log(rt, name, &header())?;
    let mut count = 0usize;
    let mut publications = opened.publications();
    while let Some((_, rest)) = publications.split_first() {
        publications = rest;
        count = usize::saturating_add(count, 1);
    }
    Ok((opened.read.torn, count, opened.log.version))
}

#[test]
fn a_log_is_made_appended_to_and_read(rt: HostRuntime) -> Result<(), Fail> {
    fs::create_dir(&rt, "made")?;
    let name = "made/log";
    let mut log = open_log(&rt, name, &header())?.into_log();
    let mode = fs::metadata(&rt, name)?.permissions().mode();
    assert_eq!(rt; mode & 0o777, 0o600);
    assert_eq!(rt; log.version, 1);
    log.append(rt.alloc(), &first(rt.alloc())?)?;
    log.append(rt.alloc(), &second(rt.alloc())?)?;
    assert_eq!(rt;
        fs::read(&rt, name)?.as_slice(),
        example(rt.alloc())?.as_slice()
    );
    assert_eq!(rt; opened(&rt, name), Ok((0, 2, 3)));
    fs::remove_dir_all(&rt, "made")?;
    Ok(())
}

#[test]
fn a_torn_end_of_any_length_is_cut_off(rt: HostRuntime) -> Result<(), Fail> {
    fs::create_dir(&rt, "torn")?;
    let log = example(rt.alloc())?;
    for len in HEADER_LEN..log.len() {
        fs::write(&rt, "torn/log", part(&log, 0, len))?;
        let (good, count) = if len < FIRST_LEN {
            (HEADER_LEN, 0)
        } else {
            (FIRST_LEN, 1)
        };
        assert_eq!(rt;
            opened(&rt, "torn/log"),
            Ok((len - good, count, count as u64 + 1))
        );
        assert_eq!(rt; fs::read(&rt, "torn/log")?.as_slice(), part(&log, 0, good));
    }
    fs::remove_dir_all(&rt, "torn")?;
    Ok(())
}

#[test]
fn of_a_bad_log_nothing_is_cut_off(rt: HostRuntime) -> Result<(), Fail> {
    fs::create_dir(&rt, "bad")?;
    let mut log = example(rt.alloc())?;
    if let Some(byte) = log.get_mut(HEADER_LEN + 20) {
        *byte ^= 1;
    }
    fs::write(&rt, "bad/log", &log)?;
    assert_eq!(rt;
        opened(&rt, "bad/log"),
        Err(OpenFault::Bad(BadLog::Damaged))
    );
    assert_eq!(rt; fs::read(&rt, "bad/log")?.as_slice(), log.as_slice());
    symlink(&rt, "log", "bad/link")?;
    assert_eq!(rt; opened(&rt, "bad/link"), Err(OpenFault::File));
    assert_eq!(rt; opened(&rt, "bad"), Err(OpenFault::File));
    assert_eq!(rt; opened(&rt, "bad/none/log"), Err(OpenFault::File));
    fs::remove_dir_all(&rt, "bad")?;
    Ok(())
}
