//! Lines of scripts, and what they print.

use super::*;

// The start of most scripts.
const SEED: &str = "seed 0000000000000000000000000000000000000000000000000000000000000000\n";

const CLIENT: &str = "client 1111111111111111111111111111111111111111111111111111111111111111\n";

// Plays a script after a whole header of two records and one client.
fn check_steps(
    rt: &impl Abort,
    alloc: Global,
    steps: &str,
    reported: &str,
    status: u8,
) -> Result<(), Fail> {
    let script = format!(in alloc; "world 8 1 1 1\n{SEED}record 0a\nrecord c8\n{CLIENT}{steps}")?;
    check(rt, alloc, script.as_str(), reported, status)
}

// Steps of one client and what they print.
const STEPS: &[(&str, &str)] = &[
    ("", ""),
    ("\n# hello 5\n\n", ""),
    ("hello 0", ""),
    ("hello 1\n", "client 1: none\n"),
    (
        "to-server 0018446744073709551615 all\n",
        "client 18446744073709551615: none\n",
    ),
    (
        "sync 7 double\nask 1 0\n",
        "client 7: none\nclient 1: none\n",
    ),
    ("to-client 0 0\nto-server 0 18446744073709551615\n", ""),
    ("ask 0 0\n", "client 0: call refused NotReady\n"),
    ("hello 0\nhello 0\n", "client 0: call refused Busy\n"),
    (
        "edit 0 FF\nedit 01 00\n",
        "edit 0: accepted\nedit 1: accepted\n",
    ),
    ("edit 2 ff\n", "edit 2: refused BadIndex\n"),
    (
        "edit 4294967295 ffff\n",
        "edit 4294967295: refused BadIndex\n",
    ),
    ("edit 1 ffff\n", "edit 1: refused BadLength\n"),
    ("edit 1 -\n", "edit 1: refused BadLength\n"),
    (
        "append 0F\nedit 2 05\nedit 3 05\nappend 00\npublish\n",
        "append: accepted\nedit 2: accepted\nedit 3: refused BadIndex\nappend: accepted\npublish: version 2\n",
    ),
    (
        "append ffff\nappend -\n",
        "append: refused BadLength\nappend: refused BadLength\n",
    ),
    ("publish\n", "publish: refused NothingToPublish\n"),
    (
        "edit 0 0a\npublish\npublish\n",
        "edit 0: accepted\npublish: version 2\npublish: refused NothingToPublish\n",
    ),
    (
        "hello 0\nto-server 0 all\nto-client 0 all\nhello 0\nask 0 1\nsync 0 double\nto-server 0 all\nto-client 0 all\n",
        "client 0: welcomed 1\nclient 0: call refused AlreadyWelcome\nclient 0: call refused NotReady\nclient 0: synced double 1\n",
    ),
    (
        "hello 0\nto-server 0 all\nto-client 0 all\nsync 0 simple\nto-server 0 all\nto-client 0 all\nask 0 2\nask 0 0\nto-server 0 all\nto-client 0 all\n",
        "client 0: welcomed 1\nclient 0: synced simple 1\nclient 0: call refused BadIndex\nclient 0: retrieved 0 1 0a\n",
    ),
];

#[test]
fn steps_report_what_comes_of_them(rt: HostRuntime) -> Result<(), Fail> {
    for (steps, reported) in STEPS {
        check_steps(&rt, rt.alloc(), steps, reported, 0)?;
    }
    Ok(())
}

// Steps that are bad at line 6, where none was made before.
const BAD_STEPS: &[&str] = &[
    "hello\n",
    "hello +0\n",
    "hello 0 \n",
    "hello  0\n",
    " hello 0\n",
    "hello\t0\n",
    "hello 0\r\n",
    "Hello 0\n",
    "hello 18446744073709551616\n",
    "hello -1\n",
    "hello 0x1\n",
    " \n",
    " # a remark\n",
    "hell\u{f6} 0\n",
    "publish 1\n",
    "edit 0\n",
    "edit 0 \n",
    "edit 0 0\n",
    "edit 0 0g\n",
    "edit 0 --\n",
    "edit 4294967296 00\n",
    "append\n",
    "append \n",
    "append 0\n",
    "append 0g\n",
    "append --\n",
    "append 2 00\n",
    "sync 0\n",
    "sync 0 triple\n",
    "ask 0\n",
    "ask 0 4294967296\n",
    "to-server 0\n",
    "to-server 0 ALL\n",
    "to-client 0 18446744073709551616\n",
    "to-client all 1\n",
    "world 8 1 1 1\n",
    "record 00\n",
];

#[test]
fn a_step_that_is_not_written_so_is_bad(rt: HostRuntime) -> Result<(), Fail> {
    for step in BAD_STEPS {
        check_steps(&rt, rt.alloc(), step, "line 6: bad\n", 3)?;
    }
    // Skipped lines count, and what was printed before stays.
    check_steps(
        &rt,
        rt.alloc(),
        "hello 1\n\n#\nhello\nhello 1\n",
        "client 1: none\nline 9: bad\n",
        3,
    )?;
    check_steps(
        &rt,
        rt.alloc(),
        "hello 1\nclient 11\n",
        "client 1: none\nline 7: bad\n",
        3,
    )
}

// Headers, what they print, and the status.
const HEADERS: &[(&str, &str)] = &[
    ("", "line 1: bad\n"),
    ("\n\n# nothing\n", "line 4: bad\n"),
    ("world 8 1 1 1", "line 2: bad\n"),
    ("world 8 1 1 1\n", "line 2: bad\n"),
    ("world 8 1 1\n", "line 1: bad\n"),
    ("world 256 1 1 1\n", "line 1: bad\n"),
    ("world 8 65536 1 1\n", "line 1: bad\n"),
    ("world 8 1 65536 1\n", "line 1: bad\n"),
    ("world 8 1 1 65536\n", "line 1: bad\n"),
    ("hello 0\n", "line 1: bad\n"),
    ("world 8 1 1 1\nworld 8 1 1 1\n", "line 2: bad\n"),
    ("world 8 1 1 1\nrecord 00\n", "line 2: bad\n"),
    ("world 8 1 1 1\nseed 00\n", "line 2: bad\n"),
];

#[test]
fn a_header_has_its_order(rt: HostRuntime) -> Result<(), Fail> {
    for (script, reported) in HEADERS {
        check(&rt, rt.alloc(), script, reported, 3)?;
    }
    Ok(())
}

// What follows a sound start and seed, and what it prints.
const FILLINGS: &[(&str, &str)] = &[
    ("", "line 3: bad\n"),
    ("client 00\n", "line 3: bad\n"),
    ("seed 00\n", "line 3: bad\n"),
    ("record 0000\n", "line 3: bad\n"),
    ("record\n", "line 3: bad\n"),
    ("record -\n", "line 3: bad\n"),
    ("record 00\n", "line 4: bad\n"),
    ("record 00\nhello 0\n", "line 4: bad\n"),
    ("record 00\nclient 1111\n", "line 4: bad\n"),
];

#[test]
fn records_and_clients_stand_in_their_place(rt: HostRuntime) -> Result<(), Fail> {
    let alloc = rt.alloc();
    for (lines, reported) in FILLINGS {
        let script = format!(in alloc; "world 8 1 1 1\n{SEED}{lines}")?;
        check(&rt, alloc, script.as_str(), reported, 3)?;
    }
    let early = format!(in alloc; "world 8 1 1 1\n{SEED}{CLIENT}")?;
    check(&rt, alloc, early.as_str(), "line 3: bad\n", 3)?;
    let beyond = format!(in alloc; "world 8 1 1 1\n{SEED}record 00\n{CLIENT}record 00\n")?;
    check(&rt, alloc, beyond.as_str(), "line 5: bad\n", 3)?;
    let empty = format!(in alloc; "world 8 0 1 1\n{SEED}record 00\n{CLIENT}")?;
    check(&rt, alloc, empty.as_str(), "line 3: bad\n", 3)
}

// The sizes and records of worlds of form 2, and what is printed.
const SLOTS: &[(&str, &str, &str)] = &[
    ("8 3 1 1", "record 0a\nrecord -\n", ""),
    ("8 3 1 1", "record 0a00\n", "line 3: bad\n"),
    ("8 2 1 1", "record -\n", ""),
    ("8 2 1 1", "record 00\n", "line 3: bad\n"),
    ("8 1 1 1", "record -\n", "line 3: bad\n"),
    ("8 0 1 1", "record -\n", "line 3: bad\n"),
    ("8 1 1 1", "record 00\n", "line 3: bad\n"),
    ("8 257 1 1", "record -\n", "world: refused BadLayout\n"),
    (
        "8 65535 1 1",
        "record -\nrecord 0a\n",
        "world: refused BadLayout\n",
    ),
    ("5 3 1 1", "record -\n", "world: refused BadLayout\n"),
    ("8 3 1 0", "record -\n", "world: refused BadLayout\n"),
];

#[test]
fn records_of_form_2_have_lengths_of_their_own(rt: HostRuntime) -> Result<(), Fail> {
    let alloc = rt.alloc();
    for (sizes, records, reported) in SLOTS {
        let script = format!(in alloc; "world2 {sizes}\n{SEED}{records}{CLIENT}")?;
        let status = if reported.is_empty() { 0 } else { 3 };
        check(&rt, alloc, script.as_str(), reported, status)?;
    }
    check(&rt, alloc, "world2 8 3 1\n", "line 1: bad\n", 3)?;
    check(&rt, alloc, "world3 8 3 1 1\n", "line 1: bad\n", 3)
}

#[test]
fn a_world_has_at_most_16_clients(rt: HostRuntime) -> Result<(), Fail> {
    let alloc = rt.alloc();
    let mut script = format!(in alloc; "world 8 1 1 1\n{SEED}record 00\n")?;
    for _ in 0..16 {
        script.push_str(CLIENT)?;
    }
    check(&rt, alloc, script.as_str(), "", 0)?;
    script.push_str(CLIENT)?;
    check(&rt, alloc, script.as_str(), "line 20: bad\n", 3)
}

#[test]
fn a_world_can_be_refused(rt: HostRuntime) -> Result<(), Fail> {
    let alloc = rt.alloc();
    for sizes in ["5 1 1 1", "8 1 0 1", "8 1 1 0", "8 1 1 1025"] {
        let refused = format!(in alloc; "world {sizes}\n{SEED}record 00\n{CLIENT}")?;
        check(
            &rt,
            alloc,
            refused.as_str(),
            "world: refused BadLayout\n",
            3,
        )?;
        let step = format!(in alloc; "{refused}hello 7\n")?;
        check(&rt, alloc, step.as_str(), "world: refused BadLayout\n", 3)?;
        let bad = format!(in alloc; "{refused}hello\n")?;
        check(&rt, alloc, bad.as_str(), "line 5: bad\n", 3)?;
    }
    Ok(())
}
