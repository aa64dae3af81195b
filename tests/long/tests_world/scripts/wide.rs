//! Scripts of wide worlds.

use super::*;

const SEED: &str = "seed 0000000000000000000000000000000000000000000000000000000000000000\n";

const CLIENT: &str = "client 1111111111111111111111111111111111111111111111111111111111111111\n";

// A wide world's clients and server go the stored run's way, in other frames: what is printed is
// the same.
#[test]
fn the_stored_run_in_a_wide_world(rt: HostRuntime) -> Result<(), Fail> {
    let Some(run) = RUN.strip_prefix("world 8 1 1 2\n") else {
        panic!(rt; "the run has another header");
    };
    for header in [
        "wide 8 1 1 64",
        "wide2 8 3 1 64",
        "wide 9 1 1 64",
        "wide2 6 3 2 64",
    ] {
        let script = format!(in rt.alloc(); "{header}\n{run}")?;
        check(&rt, rt.alloc(), &script, REPORTED, 0)?;
    }
    Ok(())
}

// An ordinary world of more than 4,096 rows is refused, a wide one opened.
fn opens_by(rt: &impl Abort, alloc: Global, header: &str, is_opened: bool) -> Result<(), Fail> {
    let script = format!(in alloc; "{header}\n{SEED}record 0a\n{CLIENT}")?;
    let (reported, status) = if is_opened {
        ("", 0)
    } else {
        ("world: refused BadLayout\n", 3)
    };
    let mut out = Vec::new(alloc);
    let played = rehearse(alloc, &mut script.as_bytes(), &mut out);
    assert_eq!(rt; played, Ok(status), "{header}");
    assert_eq!(rt; out.as_slice(), reported.as_bytes(), "{header}");
    Ok(())
}

// Those of thousands of records are opened by tests/rehearse.
#[test]
fn worlds_at_their_limits(rt: HostRuntime) -> Result<(), Fail> {
    for (header, is_opened) in [
        ("world 8 1 4097 1", false),
        ("wide 8 1 4097 1", true),
        ("wide2 8 3 10922 1", true),
        ("wide2 8 3 10923 1", false),
        ("world 10 1 1 1", true),
        ("wide 9 1 1 1", true),
        ("wide 10 1 1 1", false),
        ("wide2 10 3 1 1", false),
        ("wide 8 1 1 0", false),
        ("wide 8 1 1 1024", true),
        ("wide 8 1 1 1025", false),
    ] {
        opens_by(&rt, rt.alloc(), header, is_opened)?;
    }
    Ok(())
}

// 63 * 256 rows of records of 256 digits are as many as the parts of a query have words for.
#[test]
fn the_parts_of_a_query_have_their_limit(rt: HostRuntime) -> Result<(), Fail> {
    let record = "0a".repeat(rt.alloc(), 256)?;
    for (groups, reported, status) in [(63, "", 0), (64, "world: refused BadLayout\n", 3)] {
        let script = format!(in rt.alloc();
            "wide 8 256 {groups} 1\n{SEED}record {record}\n{CLIENT}"
        )?;
        check(&rt, rt.alloc(), &script, reported, status)?;
    }
    Ok(())
}

// Headers that are not written so, and records that don't fit theirs.
const BAD: &[(&str, &str)] = &[
    ("wide\n", "line 1: bad\n"),
    ("wide 8 1 1\n", "line 1: bad\n"),
    ("wide 8 1 1 1 1\n", "line 1: bad\n"),
    ("Wide 8 1 1 1\n", "line 1: bad\n"),
    ("wide1 8 1 1 1\n", "line 1: bad\n"),
    ("wide3 8 1 1 1\n", "line 1: bad\n"),
    ("wide 256 1 1 1\n", "line 1: bad\n"),
    ("wide 8 65536 1 1\n", "line 1: bad\n"),
    ("wide 8 1 65536 1\n", "line 1: bad\n"),
    ("wide 8 1 1 65536\n", "line 1: bad\n"),
    ("wide 8 1 1 1\nworld 8 1 1 1\n", "line 2: bad\n"),
    ("world 8 1 1 1\nwide 8 1 1 1\n", "line 2: bad\n"),
    ("wide 8 1 1 1", "line 2: bad\n"),
];

#[test]
fn bad_headers(rt: HostRuntime) -> Result<(), Fail> {
    for (script, reported) in BAD {
        check(&rt, rt.alloc(), script, reported, 3)?;
    }
    for (header, record) in [
        ("wide 8 1 1 1", "-"),
        ("wide 8 1 1 1", "0a0b"),
        ("wide2 8 3 1 1", "0a0b"),
        ("wide2 8 1 1 1", "-"),
        ("wide2 8 0 1 1", "-"),
    ] {
        let script = format!(in rt.alloc(); "{header}\n{SEED}record {record}\n")?;
        check(&rt, rt.alloc(), &script, "line 3: bad\n", 3)?;
    }
    Ok(())
}

// What goes from client 0 to the server and back.
const EXCHANGE: &str = "to-server 0 all\nto-client 0 all\n";

// Records of their own lengths: one gets no bytes, and one is appended.
#[test]
fn slots_of_a_wide_world(rt: HostRuntime) -> Result<(), Fail> {
    let before = format!(in rt.alloc();
        "hello 0\n{EXCHANGE}sync 0 double\n{EXCHANGE}ask 0 0\n{EXCHANGE}"
    )?;
    let changes = "edit 0 -\nedit 1 0102\nappend 05\npublish\nask 0 2\n";
    let stale = format!(in rt.alloc(); "ask 0 0\n{EXCHANGE}sync 0 simple\n{EXCHANGE}")?;
    let after = format!(in rt.alloc(); "ask 0 0\n{EXCHANGE}ask 0 2\n{EXCHANGE}")?;
    let script = format!(in rt.alloc();
        "wide2 8 3 1 1\n{SEED}record 0a\nrecord -\n{CLIENT}{before}{changes}{stale}{after}"
    )?;
    let reported = "client 0: welcomed 1
client 0: synced double 1
client 0: retrieved 0 1 0a
edit 0: accepted
edit 1: refused BadLength
append: accepted
publish: version 2
client 0: call refused BadIndex
client 0: stale 2
client 0: synced simple 2
client 0: retrieved 0 2 -
client 0: retrieved 2 2 05
";
    check(&rt, rt.alloc(), &script, reported, 0)
}
