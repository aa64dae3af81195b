//! Long scripts: sizes at which a limit of their own would show.

use super::*;

// What comes before the records of a world.
const SEED: &str = "seed 0000000000000000000000000000000000000000000000000000000000000000\n";

const CLIENT: &str = "client 1111111111111111111111111111111111111111111111111111111111111111\n";

// 274 records of 256 bytes, each of one byte's value.
fn records(alloc: Global) -> Result<String, Fail> {
    let mut text = String::new(alloc);
    for i in 0..274 {
        let byte = format!(in alloc; "{:02x}", i % 256)?;
        let record = byte.as_str().repeat(alloc, 256)?;
        text.push_str(&format!(in alloc; "record {record}\n")?)?;
    }
    Ok(text)
}

#[test]
fn seventy_thousand_bytes_of_records(rt: HostRuntime) -> Result<(), Fail> {
    let records = records(rt.alloc())?;
    let last = "11".repeat(rt.alloc(), 256)?;
    let script = format!(in rt.alloc();
        "world 8 256 16 1\n{SEED}{records}{CLIENT}hello 0\nto-server 0 all\nto-client 0 all\nsync 0 simple\nto-server 0 all\nto-client 0 all\nask 0 273\nto-server 0 all\nto-client 0 all\n"
    )?;
    let reported = format!(in rt.alloc();
        "client 0: welcomed 1\nclient 0: synced simple 1\nclient 0: retrieved 273 1 {last}\n"
    )?;
    check(&rt, rt.alloc(), &script, &reported, 0)
}
