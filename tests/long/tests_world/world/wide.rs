//! Wide worlds: records in 5,000 columns and in 5,000 rows, in both forms and by both schemes, over
//! edits, appends and publications.

use super::scripts::*;
use super::*;
use client_core::{Event, Scheme};
use frame_codec::Bytes;
use pir_world::Outcome;

// The header of so many records, so many to a column, of one byte each or in slots of three bytes.
fn wide_header(form: u8, groups: u16, count: u32) -> Header {
    Header {
        form,
        record_len: if form == 130 { 3 } else { 1 },
        groups,
        count,
        ..TWO_RECORDS
    }
}

// Record i.
fn byte(i: u32) -> u8 {
    (i * 7 % 251) as u8
}

fn wide_snapshot(rt: &impl AllocGlobal, header: Header) -> Result<Snapshot, Fail> {
    let mut records = Vec::new(rt.alloc());
    for i in 0..header.count {
        if header.form == 130 {
            records.extend_from_slice(&[1, 0, byte(i)])?;
        } else {
            records.push(byte(i))?;
        }
    }
    Ok(header.with_records(records))
}

// A world of these records with two clients.
fn wide_world<K: Kernel>(
    rt: &impl AllocGlobal,
    kernel: K,
    header: Header,
) -> Result<World<K>, Fail> {
    let mut seeds = Vec::new(rt.alloc());
    seeds.push([0x11; 32])?;
    seeds.push([0x22; 32])?;
    Ok(World::new(rt.alloc(), kernel, wide_snapshot(rt, header)?, seeds)?)
}

fn append(rt: &impl AllocGlobal, byte: u8) -> Result<Step, Fail> {
    let mut copy = Vec::new(rt.alloc());
    copy.push(byte)?;
    Ok(Step::Append {
        bytes: Bytes::new(copy),
    })
}

// Asks for a record, and gets this byte of this version.
fn gets<K: Kernel>(
    rt: &impl Abort,
    world: &mut World<K>,
    client: usize,
    record: u32,
    at: u64,
    wanted: u8,
) -> Result<(), Fail> {
    ask(world, client, record)?;
    exchange(world, client)?;
    match world.outcomes().last() {
        Some(Outcome::Reported {
            client: who,
            event:
                Event::Retrieved {
                    index,
                    version,
                    bytes,
                },
        }) => {
            assert_eq!(rt; (*who, *index, *version), (client, record, at));
            assert_eq!(rt; bytes.as_slice(), &[wanted][..], "record {record}");
        }
        _ => panic!(rt; "record {record} was not retrieved"),
    }
    Ok(())
}

// The last outcome is this event of a client.
fn has_come<K: Kernel>(
    rt: &(impl Abort + AllocGlobal),
    world: &World<K>,
    wanted: &str,
) -> Result<(), Fail> {
    let Some(Outcome::Reported { event, .. }) = world.outcomes().last() else {
        panic!(rt; "no event has come");
    };
    let mut text = String::new(rt.alloc());
    add_event(rt, &mut text, event)?;
    assert_eq!(rt; text.as_str(), wanted);
    Ok(())
}

// Edits the last record, appends one, and publishes: `count` records become one more. A client of
// the version before gets Stale, catches up, by what changed in SimplePIR, and gets both.
fn changes_and_grows<K: Kernel>(
    rt: &(impl Abort + AllocGlobal),
    kernel: K,
    scheme: Scheme,
    header: Header,
) -> Result<(), Fail> {
    let mut world = wide_world(rt, kernel, header)?;
    let last = header.count - 1;
    let name = match scheme {
        Scheme::Simple => "simple",
        Scheme::Double => "double",
    };
    greet_and_sync(&mut world, 0, scheme)?;
    has_come(rt, &world, format!(in rt.alloc(); "{name} 1")?.as_str())?;
    for i in [0, last / 2, last] {
        gets(rt, &mut world, 0, i, 1, byte(i))?;
    }
    let edited = edit(rt, last, &[77])?;
    go(&mut world, edited)?;
    let appended = append(rt, 78)?;
    go(&mut world, appended)?;
    // no reader sees a draft
    gets(rt, &mut world, 0, last, 1, byte(last))?;
    go(&mut world, Step::Publish)?;
    ask(&mut world, 0, last)?;
    exchange(&mut world, 0)?;
    has_come(rt, &world, "stale 2")?;
    sync(&mut world, 0, scheme, 1)?;
    has_come(rt, &world, format!(in rt.alloc(); "{name} 2")?.as_str())?;
    gets(rt, &mut world, 0, last, 2, 77)?;
    gets(rt, &mut world, 0, last + 1, 2, 78)?;
    gets(rt, &mut world, 0, 0, 2, byte(0))
}

// One row of 5,000 columns, and then a column more; in slots three rows. The old bytes of two
// records have room in an eighth of a hint of 64 words.
#[test]
fn five_thousand_columns_and_one_more(rt: HostRuntime) -> Result<(), Fail> {
    let header = Header {
        dimension: 64,
        ..wide_header(129, 1, 5000)
    };
    changes_and_grows(&rt, Lanes, Scheme::Simple, header)?;
    changes_and_grows(&rt, Lanes, Scheme::Double, wide_header(130, 1, 5000))
}

// One column of 5,000 rows, and then a second one; in slots 5,001 rows of 1,667 records.
#[test]
fn five_thousand_rows_and_a_second_column(rt: HostRuntime) -> Result<(), Fail> {
    changes_and_grows(&rt, Lanes, Scheme::Double, wide_header(129, 5000, 5000))?;
    changes_and_grows(&rt, Lanes, Scheme::Simple, wide_header(130, 1667, 1667))
}

// More rows change than a Delta may name: the hint is fetched by its part.
fn falls_back_to_parts<K: Kernel>(
    rt: &(impl Abort + AllocGlobal),
    kernel: K,
) -> Result<(), Fail> {
    let mut world = wide_world(rt, kernel, wide_header(129, 5000, 5000))?;
    greet_and_sync(&mut world, 0, Scheme::Simple)?;
    for i in 0..1025 {
        let edited = edit(rt, 2 * i, &[255])?;
        go(&mut world, edited)?;
    }
    go(&mut world, Step::Publish)?;
    let before = count(&world);
    // the NoDelta, after which the part is asked for
    sync(&mut world, 0, Scheme::Simple, 1)?;
    assert_eq!(rt; count(&world), before);
    exchange(&mut world, 0)?;
    has_come(rt, &world, "simple 2")?;
    gets(rt, &mut world, 0, 2048, 2, 255)?;
    gets(rt, &mut world, 0, 2049, 2, byte(2049))
}

#[test]
fn more_rows_than_a_delta_names(rt: HostRuntime) -> Result<(), Fail> {
    falls_back_to_parts(&rt, Lanes)
}

#[test]
fn refused_wide_worlds(rt: HostRuntime) -> Result<(), Fail> {
    let ten_bits = Header {
        width: 10,
        ..wide_header(129, 1, 2)
    };
    let other_form = Header {
        form: 131,
        ..wide_header(129, 1, 2)
    };
    for header in [
        wide_header(129, 1, 32_769),
        wide_header(129, 32_769, 1),
        wide_header(1, 1, 5000),
        ten_bits,
        other_form,
    ] {
        let snapshot = wide_snapshot(&rt, header)?;
        let refused = World::new(rt.alloc(), Lanes, snapshot, Vec::new(rt.alloc())).err();
        assert!(rt; refused == Some(OpenError::BadLayout), "{header:?}");
    }
    Ok(())
}
