//! Stores that are restored from a snapshot and a log.

use super::{is_sound, opened, snapshot};
use log_replay::{draft_publication, earlier_count, replay_all, replay_first};
use matrix_u32::Plain;
use publication_log::{
    AppendDisk, Log, LogDiskFailed, LogHeader, PublicationBuilder, Publications, read_log, relinked,
};
use snapshot_file::write_snapshot_bytes;
use std::alloc::Global;
use std::process::Abort;
use std::test::Fail;
use version_store::{Opening, Snapshot, Store, write_snapshot};

// How many bytes the header of a log has.
const HEADER_LEN: usize = 81;

// The last version: 19 publications, three more than a store keeps rows of.
const LAST: u8 = 20;

// A file in memory.
#[derive(Drop)]
struct Memory {
    bytes: Vec<u8>,
}

impl AppendDisk for Memory {
    fn write(&mut self, bytes: &[u8]) -> Result<(), LogDiskFailed> {
        match self.bytes.extend_from_slice(bytes) {
            Ok(()) => Ok(()),
            Err(_) => Err(LogDiskFailed),
        }
    }

    fn sync(&mut self) -> Result<(), LogDiskFailed> {
        Ok(())
    }

    fn truncate(&mut self, len: u64) -> Result<(), LogDiskFailed> {
        self.bytes.truncate(len as usize);
        Ok(())
    }
}

// The header of the log of a snapshot in a form.
fn header(form: u8, version: u64) -> LogHeader {
    LogHeader {
        form,
        digest: [5; 32],
        version,
        seed: [7; 32],
    }
}

// An empty log.
fn empty_log(alloc: Global, form: u8) -> Result<Log<Memory>, Fail> {
    let header = header(form, 1);
    let bytes = header.to_bytes(alloc)?;
    let found = read_log(alloc, &header, &bytes)?;
    let all = bytes.len();
    Ok(Log::recover(Memory { bytes }, &found, all)?)
}

// Appends a publication that follows.
fn append(
    alloc: Global,
    log: &mut Log<Memory>,
    publication: &PublicationBuilder,
) -> Result<bool, Fail> {
    if log.version.checked_add(1) != Some(publication.version) {
        return Ok(false);
    }
    log.append(alloc, publication)?;
    Ok(true)
}

// The draft of a version: record 0 is replaced, and every third version has one record more.
fn edit(store: &mut Store<Plain>, version: u8) -> Result<(), Fail> {
    if version % 3 == 0 {
        store.append(&[version])?;
    }
    store.edit(0, &[version])?;
    Ok(())
}

// Appends the draft to the log, and publishes it.
fn publish(alloc: Global, store: &mut Store<Plain>, log: &mut Log<Memory>) -> Result<(), Fail> {
    let publication = draft_publication(alloc, store)?;
    append(alloc, log, &publication)?;
    store.publish()?;
    Ok(())
}

// The store of a snapshot after all publications of a log.
fn restored(
    alloc: Global,
    snapshot: Snapshot,
    publications: Publications<'_>,
) -> Result<Store<Plain>, Fail> {
    let mut store = opened(alloc, snapshot)?;
    replay_all(&mut store, publications)?;
    Ok(store)
}

// What a store is opened with, read of the bytes of a snapshot.
fn opening(alloc: Global, snapshot: &Snapshot) -> Result<Opening, Fail> {
    let mut bytes = Vec::new(alloc);
    write_snapshot_bytes(alloc, &snapshot.header(), &snapshot.records, &mut bytes)?;
    let (opening, _digest) = Opening::read(alloc, &mut bytes.as_slice())?;
    Ok(opening)
}

// The store of an opening after all publications of a log, the earlier of which are made on the
// records alone.
fn restored_early(
    alloc: Global,
    opening: Opening,
    publications: Publications<'_>,
) -> Result<Store<Plain>, Fail> {
    let mut opening = opening;
    let earlier = earlier_count(publications);
    // Called for what it says of the records.
    opening.header();
    replay_first(&mut opening, publications, earlier)?;
    let mut store = opening.open(alloc, Plain)?;
    replay_all(&mut store, publications.without_first(earlier))?;
    Ok(store)
}

// A snapshot's records after the earlier publications, and the log of a snapshot of these, of the
// latest 16.
fn compacted(
    alloc: Global,
    snapshot: &mut Snapshot,
    publications: Publications<'_>,
) -> Result<Vec<u8>, Fail> {
    let earlier = earlier_count(publications);
    if is_sound(snapshot) {
        replay_first(snapshot, publications, earlier)?;
    }
    let header = header(snapshot.form, snapshot.version);
    let bytes = relinked(alloc, &header, publications.without_first(earlier))?;
    Ok(bytes)
}

// The version of the last publication of a log.
fn last_version(alloc: Global, form: u8, version: u64, bytes: &[u8]) -> Result<u64, Fail> {
    let found = read_log(alloc, &header(form, version), bytes)?;
    Ok(found.version)
}

// A store of version 20, each of whose publications was appended to a log before.
fn published(alloc: Global, form: u8, log: &mut Log<Memory>) -> Result<Store<Plain>, Fail> {
    let mut store = opened(alloc, snapshot(alloc, form)?)?;
    for version in 2..=LAST {
        edit(&mut store, version)?;
        publish(alloc, &mut store, log)?;
    }
    Ok(store)
}

// What is after the header of a log.
fn entries(bytes: &[u8]) -> Publications<'_> {
    Publications {
        rest: bytes.get(HEADER_LEN..).unwrap_or(&[]),
    }
}

// The bytes of a store's snapshot.
fn bytes_of(alloc: Global, store: &Store<Plain>) -> Result<Vec<u8>, Fail> {
    let mut bytes = Vec::new(alloc);
    write_snapshot(alloc, store, &mut bytes)?;
    Ok(bytes)
}

// Compares the snapshots of two stores, and what they know of the versions before.
fn are_alike(
    rt: &impl Abort,
    alloc: Global,
    first: &Store<Plain>,
    second: &Store<Plain>,
) -> Result<(), Fail> {
    assert_eq!(rt;
        bytes_of(alloc, first)?.as_slice(),
        bytes_of(alloc, second)?.as_slice()
    );
    for since in 0..30 {
        let rows = first.delta_since(since)?;
        let others = second.delta_since(since)?;
        assert_eq!(rt; rows.as_deref(), others.as_deref());
    }
    Ok(())
}

// Publishes, restores the store from its first snapshot, in both ways, and from one of 16 versions
// before the last.
fn restores(rt: &impl Abort, alloc: Global, form: u8) -> Result<(), Fail> {
    let mut log = empty_log(alloc, form)?;
    let store = published(alloc, form, &mut log)?;
    let bytes = &log.disk.bytes;
    assert_eq!(rt; last_version(alloc, form, 1, bytes)?, 20);
    let first = restored(alloc, snapshot(alloc, form)?, entries(bytes))?;
    are_alike(rt, alloc, &store, &first)?;
    let opening = opening(alloc, &snapshot(alloc, form)?)?;
    let early = restored_early(alloc, opening, entries(bytes))?;
    are_alike(rt, alloc, &store, &early)?;

    let mut later = snapshot(alloc, form)?;
    let bytes = compacted(alloc, &mut later, entries(bytes))?;
    assert_eq!(rt; later.version, 4);
    assert_eq!(rt; last_version(alloc, form, 4, &bytes)?, 20);
    let second = restored(alloc, later, entries(&bytes))?;
    are_alike(rt, alloc, &store, &second)
}

#[test]
fn a_store_of_one_length_is_restored(rt: HostRuntime) -> Result<(), Fail> {
    restores(&rt, rt.alloc(), 1)
}

#[test]
fn a_store_of_slots_is_restored(rt: HostRuntime) -> Result<(), Fail> {
    restores(&rt, rt.alloc(), 2)
}

#[test]
fn a_wide_store_is_restored(rt: HostRuntime) -> Result<(), Fail> {
    restores(&rt, rt.alloc(), 129)
}
