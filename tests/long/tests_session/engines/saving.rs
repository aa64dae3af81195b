//! Turns of connections over a device of memory: what is appended before what is sent, appends that
//! fail, a publication to which memory is refused, one that is refused before, and who is expired.
//! `rt try --test --fail-alloc N` refuses the Nth request for memory.

use connection_turns::{
    AppendFailed, ConnectionState, Fault, Outside, PIECE_LEN, SaveFailed, Served, SocketStop, turn,
};
use lane_kernels::Lanes;
use server_core::ServerCore;
use std::alloc::{AllocError, Global};
use std::process::Abort;
use std::test::Fail;
use test_support::{RECORDS, TWO_RECORDS};
use version_store::Store;

// A greeting but its key.
const GREETING: &[u8] = &[0x22, 0, 0, 0, 0x02, 1, 0];

const PUBLISHER_KEY: [u8; 32] = [1; 32];

const READER_KEY: [u8; 32] = [0; 32];

// Record 1 is to be 64 in hex, and then the draft is published.
const EDIT: &[u8] = &[5, 0, 0, 0, 0x06, 1, 0, 0, 0, 0x64];

const PUBLISH: &[u8] = &[0, 0, 0, 0, 0x07];

const DONE_1: &[u8] = &[8, 0, 0, 0, 0x87, 1, 0, 0, 0, 0, 0, 0, 0];

const DONE_2: &[u8] = &[8, 0, 0, 0, 0x87, 2, 0, 0, 0, 0, 0, 0, 0];

const NOT_PUBLISHER: &[u8] = &[1, 0, 0, 0, 0x8f, 5];

const NOTHING_TO_PUBLISH: &[u8] = &[1, 0, 0, 0, 0x8f, 8];

// How many bytes a Welcome has.
const WELCOME_LEN: usize = 58;

const TURNS: u32 = 100;

// A disk that may fail, and a socket that gives a few bytes at a time.
#[derive(Drop)]
struct Device<'a> {
    input: &'a [u8],
    most: usize,
    output: Vec<u8>,
    // How an append fails, if it does.
    fails: Option<AppendFailed>,
    // Nothing can be taken back.
    keeps: bool,
    // The version that is there after a crash.
    saved: u64,
    // How many publications were appended, and how many of them were taken back.
    appended: u32,
    taken_back: u32,
    // How many bytes had gone out at the last append that was tried.
    appended_after: Option<usize>,
}

impl<'a> Device<'a> {
    // A device with room for all that is written, on whose disk this version is.
    fn new(alloc: Global, input: &'a [u8], most: usize, saved: u64) -> Result<Self, AllocError> {
        Ok(Device {
            input,
            most,
            output: Vec::with_capacity(alloc, 1024)?,
            fails: None,
            keeps: false,
            saved,
            appended: 0,
            taken_back: 0,
            appended_after: None,
        })
    }
}

impl Outside<Lanes> for Device<'_> {
    ghost saved = { λ d. d.saved };

    fn append(&mut self, store: &Store<Lanes>) -> Result<(), AppendFailed> {
        self.appended_after = Some(self.output.len());
        if let Some(failed) = self.fails {
            return Err(failed);
        }
        self.saved = store.version() + 1;
        self.appended = self.appended.wrapping_add(1);
        Ok(())
    }

    fn take_back(&mut self, store: &Store<Lanes>) -> Result<(), SaveFailed> {
        if self.keeps {
            return Err(SaveFailed);
        }
        self.saved = store.version();
        self.taken_back = self.taken_back.wrapping_add(1);
        Ok(())
    }

    fn read(&mut self, buffer: &mut [u8]) -> Result<usize, SocketStop> {
        if self.input.is_empty() {
            return Err(SocketStop::Later);
        }
        let n = self.most.min(self.input.len()).min(buffer.len());
        let (piece, rest) = self.input.split_at(n);
        buffer[..n].copy_from_slice(piece);
        self.input = rest;
        Ok(n)
    }

    fn write(&mut self, _store: &Store<Lanes>, bytes: &[u8]) -> Result<usize, SocketStop> {
        match self.output.extend_from_slice(bytes) {
            Ok(()) => Ok(bytes.len()),
            Err(_) => Err(SocketStop::Failed),
        }
    }
}

fn joined(alloc: Global, parts: &[&[u8]]) -> Result<Vec<u8>, AllocError> {
    let mut bytes = Vec::new(alloc);
    for part in parts {
        bytes.extend_from_slice(part)?;
    }
    Ok(bytes)
}

// A server of two records.
fn server(alloc: Global) -> Result<ServerCore<Lanes>, Fail> {
    let snapshot = TWO_RECORDS.with_records(RECORDS.to_vec(alloc)?);
    Ok(ServerCore::new(alloc, Store::open(alloc, Lanes, snapshot)?))
}

// Turns of a new connection one after another, until one ends early or all are made: whether one
// did.
fn take_turns(
    alloc: Global,
    id: u64,
    core: &mut ServerCore<Lanes>,
    device: &mut Device<'_>,
) -> Result<Option<Fault>, Fail> {
    core.open_session(id)?;
    let mut state = ConnectionState::new(alloc, 0);
    let mut buffer = Vec::from_elem(alloc, 0u8, PIECE_LEN)?;
    for now in 0..TURNS {
        if device.saved != core.store().version() || !core.has_session(id) {
            return Ok(None);
        }
        if buffer.len() != PIECE_LEN {
            return Ok(None);
        }
        match turn(&mut state, core, device, id, u64::from(now), &mut buffer) {
            Ok(Served::Done | Served::PutOff) => {}
            Err(fault) => return Ok(Some(fault)),
        }
    }
    Ok(None)
}

#[test]
fn a_publication_is_appended_before_its_done(rt: HostRuntime) -> Result<(), Fail> {
    let alloc = rt.alloc();
    let sent = joined(alloc, &[GREETING, &PUBLISHER_KEY, EDIT, PUBLISH])?;
    for most in [1, 3, 7, 64] {
        let mut core = server(alloc)?;
        let mut device = Device::new(alloc, sent.as_slice(), most, 1)?;
        let ended = take_turns(alloc, 7, &mut core, &mut device)?;
        assert_eq!(&rt; ended, None);
        assert_eq!(&rt; device.saved, 2);
        assert_eq!(&rt; core.store().version(), 2);
        assert_eq!(&rt; (device.appended, device.taken_back), (1, 0));
        assert_eq!(&rt; device.appended_after, Some(WELCOME_LEN + DONE_1.len()));
        assert!(&rt; device.output.ends_with(&joined(alloc, &[DONE_1, DONE_2])?));
    }
    Ok(())
}

#[test]
fn an_append_that_is_undone_leaves_the_version_before(rt: HostRuntime) -> Result<(), Fail> {
    let alloc = rt.alloc();
    let sent = joined(alloc, &[GREETING, &PUBLISHER_KEY, EDIT, PUBLISH])?;
    let mut core = server(alloc)?;
    let mut device = Device::new(alloc, sent.as_slice(), 64, 1)?;
    device.fails = Some(AppendFailed::Undone);
    let ended = take_turns(alloc, 7, &mut core, &mut device)?;
    assert_eq!(&rt; ended, Some(Fault::Write));
    assert_eq!(&rt; device.output.len(), WELCOME_LEN + DONE_1.len());
    assert_eq!(&rt; (core.store().version(), device.saved), (1, 1));
    assert!(&rt; core.store().is_marked());

    // The draft is published by the next one.
    assert!(&rt; core.close_session(7));
    let again = joined(alloc, &[GREETING, &PUBLISHER_KEY, PUBLISH])?;
    let mut device = Device::new(alloc, again.as_slice(), 64, 1)?;
    let ended = take_turns(alloc, 8, &mut core, &mut device)?;
    assert_eq!(&rt; ended, None);
    assert_eq!(&rt; (core.store().version(), device.saved), (2, 2));
    assert_eq!(&rt; core.store().bytes_of(1), [0x64].as_slice());
    assert!(&rt; device.output.ends_with(DONE_2));
    Ok(())
}

#[test]
fn nothing_is_served_after_an_append_that_is_lost(rt: HostRuntime) -> Result<(), Fail> {
    let alloc = rt.alloc();
    let sent = joined(alloc, &[GREETING, &PUBLISHER_KEY, EDIT, PUBLISH])?;
    let mut core = server(alloc)?;
    let mut device = Device::new(alloc, sent.as_slice(), 64, 1)?;
    device.fails = Some(AppendFailed::Lost);
    let ended = take_turns(alloc, 7, &mut core, &mut device)?;
    assert_eq!(&rt; ended, Some(Fault::Save));
    assert_eq!(&rt; core.store().version(), 1);
    assert_eq!(&rt; device.output.len(), WELCOME_LEN + DONE_1.len());
    assert!(&rt; device.output.ends_with(DONE_1));
    Ok(())
}

#[test]
fn a_publication_that_is_refused_makes_no_call(rt: HostRuntime) -> Result<(), Fail> {
    let alloc = rt.alloc();
    for (key, reply) in [
        (&READER_KEY, NOT_PUBLISHER),
        (&PUBLISHER_KEY, NOTHING_TO_PUBLISH),
    ] {
        let sent = joined(alloc, &[GREETING, key, PUBLISH])?;
        let mut core = server(alloc)?;
        if reply == NOT_PUBLISHER {
            // There is something to publish, for another.
            core.edit(1, &[0x64])?;
        }
        let mut device = Device::new(alloc, sent.as_slice(), 64, 1)?;
        let ended = take_turns(alloc, 7, &mut core, &mut device)?;
        assert_eq!(&rt; ended, None);
        assert_eq!(&rt; device.appended_after, None);
        assert_eq!(&rt; (device.appended, device.taken_back), (0, 0));
        assert_eq!(&rt; core.store().version(), 1);
        assert!(&rt; device.output.ends_with(reply));
    }
    Ok(())
}

// What is on the disk is what is served, and each publication that is there was made.
fn compare(rt: &impl Abort, core: &ServerCore<Lanes>, device: &Device<'_>) {
    let version = core.store().version();
    assert_eq!(rt; device.saved, version);
    let made = device.appended.wrapping_sub(device.taken_back);
    assert_eq!(rt; u64::from(made) + 1, version);
    assert_eq!(rt;
        device.output.ends_with(DONE_2),
        version == 2 && !device.output.is_empty()
    );
}

#[test]
fn a_publication_that_memory_is_refused_to_is_taken_back(rt: HostRuntime) -> Result<(), Fail> {
    let alloc = rt.alloc();
    let sent = joined(alloc, &[GREETING, &PUBLISHER_KEY, EDIT, PUBLISH])?;
    let mut core = server(alloc)?;
    let mut device = Device::new(alloc, sent.as_slice(), 64, 1)?;
    let ended = take_turns(alloc, 7, &mut core, &mut device)?;
    assert!(&rt; ended == None || ended == Some(Fault::Memory));
    compare(&rt, &core, &device);
    if core.store().version() == 2 {
        return Ok(());
    }
    // Memory was refused once, and to nothing more.
    device.input = sent.as_slice();
    let ended = take_turns(alloc, 8, &mut core, &mut device)?;
    assert_eq!(&rt; ended, None);
    assert_eq!(&rt; core.store().version(), 2);
    compare(&rt, &core, &device);
    Ok(())
}

#[test]
fn a_publication_that_is_not_taken_back_ends_all(rt: HostRuntime) -> Result<(), Fail> {
    let alloc = rt.alloc();
    let sent = joined(alloc, &[GREETING, &PUBLISHER_KEY, EDIT, PUBLISH])?;
    let mut core = server(alloc)?;
    let mut device = Device::new(alloc, sent.as_slice(), 64, 1)?;
    device.keeps = true;
    let ended = take_turns(alloc, 7, &mut core, &mut device)?;
    if device.appended == 1 && core.store().version() == 1 {
        assert_eq!(&rt; ended, Some(Fault::Save));
        assert!(&rt; device.output.ends_with(DONE_1));
    } else {
        assert!(&rt; ended == None || ended == Some(Fault::Memory));
    }
    Ok(())
}

#[test]
fn who_makes_no_progress_is_expired(rt: HostRuntime) -> Result<(), Fail> {
    let alloc = rt.alloc();
    let mut core = server(alloc)?;
    core.open_session(7)?;
    let mut state = ConnectionState::new(alloc, 0);
    let mut device = Device::new(alloc, &GREETING[..4], 1, 1)?;
    let mut buffer = Vec::from_elem(alloc, 0u8, PIECE_LEN)?;
    for now in 0..20 {
        assert_eq!(&rt;
            turn(&mut state, &mut core, &mut device, 7, now, &mut buffer),
            Ok(Served::Done)
        );
    }
    // Four bytes came since its opening, and no frame.
    assert!(&rt; !state.is_expired(9, 10));
    assert!(&rt; state.is_expired(10, 10));
    assert_eq!(&rt; core.unfinished_len(7), 4);
    Ok(())
}
