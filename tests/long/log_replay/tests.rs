//! Tests of publications that are appended to a log, read, and replayed. The stores have two
//! records of a byte, in slots or not, and n = 1.

ghost use Rattle.std.specs.Prelude.{◌≡◌, IfOk, IsTrue};
ghost use Rattle.snapshot_file.specs.Snapshots.{header_of};
ghost use Rattle.version_store.specs.Openings.{IsSound};
ghost use Rattle.log_replay.specs.Replays.{HasNoDraft};

use log_replay::{ReplayFault, replay, replay_records};
use matrix_u32::Plain;
use publication_log::{Publication, PublicationBuilder};
use std::alloc::Global;
use std::test::Fail;
use version_store::{Header, Snapshot, Store};

// The snapshot of version 1 in a form: records 0a and c8.
fn snapshot(alloc: Global, form: u8) -> Result<Snapshot, Fail> {
    let header = Header {
        form,
        width: 8,
        record_len: if form == 2 { 3 } else { 1 },
        groups: 1,
        count: 2,
        dimension: 1,
        version: 1,
        seed: [7; 32],
        publisher: [9; 32],
    };
    let records = if form == 2 {
        Vec::from_slice(alloc, &[1, 0, 0x0a, 1, 0, 0xc8])?
    } else {
        Vec::from_slice(alloc, &[0x0a, 0xc8])?
    };
    Ok(header.with_records(records))
}

// The store of a snapshot.
fn opened(alloc: Global, snapshot: Snapshot) -> Result<Store<Plain>, Fail>
    ensures { IfOk result (λ s. HasNoDraft s) }
{
    let store = Store::open(alloc, Plain, snapshot)?;
    Ok(store)
}

// Whether a store is opened with a snapshot.
fn is_sound(snapshot: &Snapshot) -> bool
    ensures { IsTrue result → IsSound (header_of snapshot.now) snapshot.now.records.items }
{
    let header = snapshot.header();
    if !header.is_accepted() {
        return false;
    }
    if snapshot.records.len() != header.records_len() {
        return false;
    }
    header.has_slots(&snapshot.records)
}

// The fault of a publication that is replayed on the store of a snapshot, if it has one.
fn fault_on_store(
    alloc: Global,
    snapshot: Snapshot,
    publication: &PublicationBuilder,
) -> Result<Option<ReplayFault>, Fail> {
    let mut store = opened(alloc, snapshot)?;
    let read = Publication::decode(&publication.body)?;
    Ok(replay(&mut store, read).err())
}

// The fault of a publication that is replayed on a snapshot's records, if it has one.
fn fault_on_records(
    snapshot: &mut Snapshot,
    publication: &PublicationBuilder,
) -> Result<Option<ReplayFault>, Fail> {
    let read = Publication::decode(&publication.body)?;
    if !is_sound(snapshot) {
        return Ok(Some(ReplayFault::BadPublication));
    }
    Ok(replay_records(snapshot, read).err())
}
