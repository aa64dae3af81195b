//! usage: get HOST:PORT INDEX ..
//!
//! Gets records from a `pir_server` by SimplePIR without the server learning which, and prints a line 'INDEX VERSION RECORD'
//! for each, the record in hex digits. Its secret seed is of the system's random source, and is kept nowhere.
//!
//! With the library installed (scripts/install): rustc --edition 2021 -O get.rs $(pkg-config --libs vulandrai) -o get
use std::ffi::{c_char, c_void, CStr};
use std::io::{Read, Write};
use std::net::TcpStream;

/// The two words behind a client of vulandrai.h.
#[repr(C)]
struct Handle(u64, *mut c_void);

/// The header's vul_event: kind, detail, index, reserved; version, record_len.
#[repr(C)]
struct Event([u32; 4], [u64; 2]);

/// The header's vul_known, of whose last word the upper half is the dimension: x86-64 has the lower half first.
type Known = [u64; 3];
const SYNCED: u32 = 2;
const RETRIEVED: u32 = 3;
unsafe extern "C" {
    fn vul_strerror(code: u32) -> *const c_char;
    fn vul_client_open(client: *mut Handle, seed: *const u8, first_number: u64) -> u32;
    fn vul_client_close(client: *mut Handle);
    fn vul_client_hello(client: *mut Handle, key: *const u8) -> u32;
    fn vul_client_known(client: *mut Handle, known: *mut Known) -> u32;
    fn vul_client_sync(client: *mut Handle, scheme: u32) -> u32;
    fn vul_client_ask(client: *mut Handle, index: u32) -> u32;
    fn vul_client_feed(client: *mut Handle, piece: *const u8, len: usize) -> u32;
    fn vul_client_waiting(client: *mut Handle) -> usize;
    fn vul_client_take(client: *mut Handle, out: *mut u8, len: usize) -> u32;
    fn vul_client_event(client: *mut Handle, event: *mut Event) -> u32;
    fn vul_client_next(client: *mut Handle, record: *mut u8, len: usize) -> u32;
}

type Outcome<T> = Result<T, Box<dyn std::error::Error>>;

/// The code of a call, as an error with its text unless it is done.
fn done(code: u32) -> Outcome<()> {
    let text = unsafe { CStr::from_ptr(vul_strerror(code)) }.to_str()?;
    (code == 0).then_some(()).ok_or(text.into())
}

/// Carries bytes to and fro until the call with this code ends; returns the event's kind and version, and its record.
fn ended(at: &mut Handle, stream: &mut TcpStream, code: u32) -> Outcome<(u32, u64, Vec<u8>)> {
    let (mut piece, mut event) = (vec![0; 65_536], Event([0; 4], [0; 2]));
    done(code)?;
    loop {
        let mut waiting = vec![0; unsafe { vul_client_waiting(at) }];
        done(unsafe { vul_client_take(at, waiting.as_mut_ptr(), waiting.len()) })?;
        stream.write_all(&waiting)?;
        done(unsafe { vul_client_event(at, &mut event) })?;
        if event.0[0] != 0 {
            let mut record = vec![0; event.1[1] as usize];
            done(unsafe { vul_client_next(at, record.as_mut_ptr(), record.len()) })?;
            return Ok((event.0[0], event.1[0], record));
        }
        match stream.read(&mut piece)? {
            0 => return Err("the server ended".into()),
            count => done(unsafe { vul_client_feed(at, piece.as_ptr(), count) })?,
        }
    }
}

/// A record and its version. The hint is fetched first, or moved to the current version; a publication may come between.
fn get(at: &mut Handle, stream: &mut TcpStream, index: u32) -> Outcome<(u64, Vec<u8>)> {
    for _ in 0..3 {
        let code = unsafe { vul_client_sync(at, 0) };
        if ended(at, stream, code)?.0 == SYNCED {
            let code = unsafe { vul_client_ask(at, index) };
            if let (RETRIEVED, version, record) = ended(at, stream, code)? {
                return Ok((version, record));
            }
        }
    }
    Err("no record: the server refuses, or names a newer version again and again".into())
}

fn main() -> Outcome<()> {
    let words: Vec<String> = std::env::args().skip(1).collect();
    let mut stream = TcpStream::connect(words.first().ok_or("usage: get HOST:PORT INDEX ..")?)?;
    let (mut at, mut seed, mut known) = (Handle(0, std::ptr::null_mut()), [0; 32], Known::default());
    std::fs::File::open("/dev/urandom")?.read_exact(&mut seed)?;
    done(unsafe { vul_client_open(&mut at, seed.as_ptr(), 0) })?;
    let code = unsafe { vul_client_hello(&mut at, [0; 32].as_ptr()) };
    ended(&mut at, &mut stream, code)?;
    done(unsafe { vul_client_known(&mut at, &mut known) })?;
    if known[2] >> 32 < 1024 {
        return Err("the server refuses, or its secrets hide the index less".into());
    }
    for index in &words[1..] {
        let (version, record) = get(&mut at, &mut stream, index.parse()?)?;
        println!("{index} {version} {}", record.iter().map(|byte| format!("{byte:02x}")).collect::<String>());
    }
    unsafe { vul_client_close(&mut at) };
    Ok(())
}
